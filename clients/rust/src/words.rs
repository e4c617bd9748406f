//! The words that users use: what a task needs, and what is refused.

use std::error::Error;
use std::fmt;
use std::io;

/// How important work is. The more important goes first.
#[derive(Clone, Copy, Debug, PartialEq, Eq, PartialOrd, Ord, Hash)]
#[repr(u32)]
pub enum Priority {
    /// Work that nobody waits for.
    BestEffort,
    /// Work whose outcome a user will see.
    UserVisible,
    /// Work that a user waits for.
    UserBlocking,
}

/// What shutdown does with a task.
#[derive(Clone, Copy, Debug, PartialEq, Eq, PartialOrd, Ord, Hash)]
#[repr(u32)]
pub enum Behaviour {
    /// It doesn't start any more, and isn't waited for where it runs.
    ContinueOnShutdown,
    /// It doesn't start any more, and is waited for where it runs.
    SkipOnShutdown,
    /// It runs, and is waited for. (A delayed task is never waited for before it starts.)
    BlockShutdown,
}

/// Which work of the pool may start.
#[derive(Clone, Copy, Debug, PartialEq, Eq, Hash)]
#[repr(u32)]
pub enum Policy {
    /// All of it.
    All,
    /// All but best effort.
    Foreground,
    /// None of it.
    None,
}

/// Whether a task may block now, or will for certain.
#[derive(Clone, Copy, Debug, PartialEq, Eq, Hash)]
#[repr(u32)]
pub enum Scope {
    /// It may block. That counts once the scope was open for the threshold of the environment's options.
    MayBlock,
    /// It will block. That counts at once.
    WillBlock,
}

/// What a fence holds back.
#[derive(Clone, Copy, Debug, PartialEq, Eq, Hash)]
#[repr(u32)]
pub enum FenceAt {
    /// What is posted from now on.
    Now,
    /// That, and also what waits.
    Start,
}

/// How a job came to its end.
#[derive(Clone, Copy, Debug, PartialEq, Eq, Hash)]
pub enum JobReply {
    /// It was refused, since shutdown had begun. No item was worked on.
    Refused,
    /// All items are done.
    Done,
    /// It was cancelled before all items were done.
    Cancelled,
    /// Shutdown stopped it before all items were done.
    Stopped,
}

/// What a task needs.
#[derive(Clone, Copy, Debug, PartialEq, Eq, Hash)]
pub struct Traits {
    /// How important it is.
    pub priority: Priority,
    /// What shutdown does with it.
    pub behaviour: Behaviour,
    /// Whether it may call [`blocking`](crate::blocking).
    pub may_block: bool,
}

impl Traits {
    /// The traits of a task that is user blocking, is skipped on shutdown, and may not block.
    pub const fn new() -> Traits {
        Traits { priority: Priority::UserBlocking, behaviour: Behaviour::SkipOnShutdown, may_block: false }
    }
    /// The same with this priority.
    pub const fn priority(self, priority: Priority) -> Traits {
        Traits { priority, ..self }
    }
    /// The same with this behaviour.
    pub const fn behaviour(self, behaviour: Behaviour) -> Traits {
        Traits { behaviour, ..self }
    }
    /// The same of a task that may block.
    pub const fn may_block(self) -> Traits {
        Traits { may_block: true, ..self }
    }
}

impl Default for Traits {
    fn default() -> Traits {
        Traits::new()
    }
}

/// On how many items of a job the pool works at once, at most.
pub const MOST_INSIDE_A_JOB: u32 = 32;

/// What a job needs.
#[derive(Clone, Copy, Debug, PartialEq, Eq, Hash)]
pub struct JobTraits {
    /// How important it is.
    pub priority: Priority,
    /// What shutdown does with it.
    pub behaviour: Behaviour,
    /// How many items it has, 65,536 at most.
    pub items: u32,
    /// On how many of them threads may work at once.
    pub most_at_once: u32,
}

impl JobTraits {
    /// A job of so many items, which is user visible, is skipped on shutdown, and is worked on by as many threads as the pool lets.
    pub const fn of_items(items: u32) -> JobTraits {
        let (priority, behaviour) = (Priority::UserVisible, Behaviour::SkipOnShutdown);
        JobTraits { priority, behaviour, items, most_at_once: MOST_INSIDE_A_JOB }
    }
}

/// Jobs of the plan, each of which can be posted once: so many of each size. The sizes double from the least one up to the most.
#[derive(Clone, Copy, Debug, PartialEq, Eq, Hash)]
pub struct JobSlots {
    /// How important they are.
    pub priority: Priority,
    /// What shutdown does with them.
    pub behaviour: Behaviour,
    /// How many items the smallest ones have, 1 at least.
    pub least: u32,
    /// How many items the largest ones have, 65,536 at most.
    pub most: u32,
    /// How many there are of each size.
    pub of_each: u32,
    /// On how many items of one threads work at once, 1 to 64. (The pool's own bound is 32.)
    pub most_at_once: u32,
}

impl JobSlots {
    /// Jobs of 16 to 4,096 items, 3 of each size, which are worked on by as many threads as the pool lets: 27 in all.
    pub const fn of(priority: Priority, behaviour: Behaviour) -> JobSlots {
        JobSlots { priority, behaviour, least: 16, most: 4096, of_each: 3, most_at_once: MOST_INSIDE_A_JOB }
    }
}

/// What is kept of what happens.
#[derive(Clone, Copy, Debug, Default, PartialEq, Eq, Hash)]
pub enum Record {
    /// Nothing.
    #[default]
    Off,
    /// The last so many entries, in memory that is taken at the beginning.
    Last(usize),
    /// All entries.
    All,
}

/// Why a post was refused. The closure is gone: it was destroyed on the posting thread.
#[derive(Clone, Copy, Debug, PartialEq, Eq, Hash)]
pub enum Refused {
    /// Shutdown has begun, and the runner's tasks don't start any more; or shutdown is done, and none does.
    ShutDown,
    /// The main queue is closed.
    QueueClosed,
    /// All tasks of the plan were handed out: see [`Builder::posts`](crate::Builder::posts).
    NoNumberLeft,
}

impl fmt::Display for Refused {
    fn fmt(&self, out: &mut fmt::Formatter<'_>) -> fmt::Result {
        out.write_str(match self {
            Refused::ShutDown => "the task may not start any more, because of shutdown",
            Refused::QueueClosed => "the main queue is closed",
            Refused::NoNumberLeft => "the plan has no task left",
        })
    }
}

impl Error for Refused {}

/// The plan has no free runner, main queue, voter or job left.
#[derive(Clone, Copy, Debug, PartialEq, Eq, Hash)]
pub enum NoRoom {
    /// All sequenced runners of the behaviour are in use.
    SequencedRunners,
    /// All single-thread runners of the behaviour are in use.
    SingleThreadRunners,
    /// All main queues were made.
    MainQueues,
    /// All voters of the main queue are in use.
    Voters,
    /// All jobs of the priority and behaviour, with room for so many items and so few threads, were posted.
    Jobs,
}

impl fmt::Display for NoRoom {
    fn fmt(&self, out: &mut fmt::Formatter<'_>) -> fmt::Result {
        out.write_str(match self {
            NoRoom::SequencedRunners => "no sequenced runner of this behaviour is free",
            NoRoom::SingleThreadRunners => "no single-thread runner of this behaviour is free",
            NoRoom::MainQueues => "all main queues were made",
            NoRoom::Voters => "the main queue has no free voter",
            NoRoom::Jobs => "no job of this priority and behaviour is left that has room for so many items",
        })
    }
}

impl Error for NoRoom {}

/// Why an environment was not opened.
#[derive(Debug)]
pub enum OpenError {
    /// There is no memory for the core, or for the entries that are kept. (Where the standard library finds none, the process ends,
    /// as it does elsewhere.)
    OutOfMemory,
    /// There is no worker thread.
    NoWorkers,
    /// The options are no plan: the line of its text that is refused, and the number of the reason (docs/formats.md).
    NoPlan {
        /// The line.
        line: String,
        /// The number of the reason, as 5 for a number outside its range, and 14 where there would be too many.
        reason: u32,
    },
    /// A thread can't be started.
    NoThread(io::Error),
}

impl fmt::Display for OpenError {
    fn fmt(&self, out: &mut fmt::Formatter<'_>) -> fmt::Result {
        match self {
            OpenError::OutOfMemory => out.write_str("there is no memory for the plan"),
            OpenError::NoWorkers => out.write_str("there is no worker thread"),
            OpenError::NoPlan { line, reason } => write!(out, "these options are no plan: reason {reason} of its line `{line}`"),
            OpenError::NoThread(error) => write!(out, "a thread can't be started: {error}"),
        }
    }
}

impl Error for OpenError {
    fn source(&self) -> Option<&(dyn Error + 'static)> {
        match self {
            OpenError::NoThread(error) => Some(error),
            _ => None,
        }
    }
}
