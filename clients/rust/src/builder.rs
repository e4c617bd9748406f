//! The options of an environment.

use crate::environment::Environment;
use crate::words::{Behaviour, JobSlots, OpenError, Priority, Record};
use std::any::Any;
use std::sync::Arc;
use std::thread;
use std::time::Duration;

/// Called with what a task panicked with.
pub(crate) type OnPanic = Arc<dyn Fn(Box<dyn Any + Send>) + Send + Sync>;

/// What there is room for. It is all taken at the beginning, so an environment doesn't grow.
#[derive(Clone)]
#[must_use]
pub struct Builder {
    options: Options,
}

#[derive(Clone)]
pub(crate) struct Options {
    pub(crate) worker_threads: u32,
    pub(crate) foreground: Option<u32>,
    pub(crate) foreground_best_effort: Option<u32>,
    pub(crate) background: u32,
    pub(crate) may_block_threshold: u64,
    pub(crate) posts: u32,
    pub(crate) sequenced_runners: u32,
    pub(crate) single_thread_runners: u32,
    pub(crate) main_queues: u32,
    pub(crate) voters: u32,
    pub(crate) jobs: Vec<JobSlots>,
    pub(crate) has_mock_clock: bool,
    pub(crate) record: Record,
    pub(crate) on_panic: Option<OnPanic>,
}

impl Builder {
    pub(crate) fn new() -> Builder {
        let processors = thread::available_parallelism().map_or(4, |count| count.get().clamp(4, 64) as u32);
        Builder {
            options: Options {
                worker_threads: processors - 1,
                foreground: None,
                foreground_best_effort: None,
                background: 0,
                may_block_threshold: 1_000_000,
                posts: 65_536,
                sequenced_runners: 64,
                single_thread_runners: 2,
                main_queues: 8,
                voters: 4,
                jobs: usual_jobs(),
                has_mock_clock: false,
                record: Record::Off,
                on_panic: None,
            },
        }
    }
    /// How many worker threads there are, 1 to 63. Unless it is said, one less than the machine has processors, but 3 at least.
    pub fn worker_threads(mut self, count: u32) -> Builder {
        self.options.worker_threads = count;
        self
    }
    /// How many tasks run at once, 1 to 64, and how many of these may be best effort, 1 to as many. Unless it is said, as many as
    /// there are workers, and 2 of these.
    pub fn limits(mut self, foreground: u32, best_effort: u32) -> Builder {
        self.options.foreground = Some(foreground);
        self.options.foreground_best_effort = Some(best_effort);
        self
    }
    /// Gives best effort a group of its own, of which so many tasks run at once, 1 to 64. Else it shares that of other work.
    pub fn background(mut self, limit: u32) -> Builder {
        self.options.background = limit;
        self
    }
    /// How long a scope that may block is open before it counts. Unless it is said, a second.
    pub fn may_block_threshold(mut self, threshold: Duration) -> Builder {
        self.options.may_block_threshold = microseconds(threshold);
        self
    }
    /// How often something can be posted at all, what is refused included; 65,536 at most, as it is unless another number is said.
    pub fn posts(mut self, count: u32) -> Builder {
        self.options.posts = count;
        self
    }
    /// How many sequenced runners there are at once, of each behaviour, with and without `may_block`. Unless it is said, 64.
    pub fn sequenced_runners(mut self, count: u32) -> Builder {
        self.options.sequenced_runners = count;
        self
    }
    /// How many single-thread runners there are at once, of each behaviour, with and without `may_block`, on each worker. Unless it
    /// is said, 2.
    pub fn single_thread_runners(mut self, count: u32) -> Builder {
        self.options.single_thread_runners = count;
        self
    }
    /// How many main queues can be made at all, beside the first one, 255 at most. Unless it is said, 8.
    pub fn main_queues(mut self, count: u32) -> Builder {
        self.options.main_queues = count;
        self
    }
    /// How many voters there are at once of each main queue, 16 at most. Unless it is said, 4.
    pub fn voters(mut self, count: u32) -> Builder {
        self.options.voters = count;
        self
    }
    /// Which jobs can be posted, each of them once: 256 at most, with 262,144 items in all. Unless it is said, [`JobSlots::of`] each
    /// priority and behaviour.
    pub fn jobs(mut self, slots: impl IntoIterator<Item = JobSlots>) -> Builder {
        self.options.jobs = slots.into_iter().collect();
        self
    }
    /// Has time pass only by [`Environment::fast_forward_by`].
    pub fn mock_clock(mut self) -> Builder {
        self.options.has_mock_clock = true;
        self
    }
    /// What is kept of what happens, for [`Handle::recording`](crate::Handle::recording). Unless it is said, nothing.
    pub fn record(mut self, record: Record) -> Builder {
        self.options.record = record;
        self
    }
    /// Has this called, on the task's thread, with what a task or an item of a job panicked with. Without it the process ends. A
    /// handler that panics itself ends it too.
    pub fn on_panic(mut self, handler: impl Fn(Box<dyn Any + Send>) + Send + Sync + 'static) -> Builder {
        self.options.on_panic = Some(Arc::new(handler));
        self
    }
    /// Opens the environment, and starts its threads. This thread is its main thread.
    pub fn open(self) -> Result<Environment, OpenError> {
        Environment::open(self.options)
    }
}

fn usual_jobs() -> Vec<JobSlots> {
    let priorities = [Priority::BestEffort, Priority::UserVisible, Priority::UserBlocking];
    let behaviours = [Behaviour::ContinueOnShutdown, Behaviour::SkipOnShutdown, Behaviour::BlockShutdown];
    priorities.into_iter().flat_map(|priority| behaviours.map(|behaviour| JobSlots::of(priority, behaviour))).collect()
}

/// The longest delay or threshold, some 11 days: longer ones are as this one.
const LONGEST: u128 = 1_000_000_000_000;

/// A duration in microseconds, rounded up, so that nothing comes too early.
pub(crate) fn microseconds(duration: Duration) -> u64 {
    duration.as_nanos().div_ceil(1000).min(LONGEST) as u64
}
