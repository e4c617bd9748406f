//! The plan of some options: its text (docs/formats.md), and where its runners and jobs lie.
//!
//! First come the parallel runners, one for each traits; then the slots of sequenced runners; then those of each worker's
//! single-thread runners. Slots have all three priorities in turn. Each task has the step `add 1`, so it finds in its cell how many
//! tasks of its sequence ended before it.

use crate::builder::Options;
use crate::words::{Behaviour, JobSlots, JobTraits, MOST_INSIDE_A_JOB, Priority, Traits};
use std::cmp::Reverse;

/// How many sorts of slots there are: a behaviour, and whether it may block.
const SORTS: usize = 6;
/// The class of each main queue at first.
pub(crate) const FIRST_CLASS: u32 = 3;

const PRIORITIES: [Priority; 3] = [Priority::BestEffort, Priority::UserVisible, Priority::UserBlocking];

/// The runners of one sort that are free to be handed out.
#[derive(Default)]
pub(crate) struct Slots {
    free: Vec<u32>,
}

impl Slots {
    /// Takes a free runner: one of this priority where there is one.
    pub(crate) fn take(&mut self, wanted: Priority, priorities: &[Priority]) -> Option<u32> {
        let found = self.free.iter().position(|&runner| priorities[runner as usize] == wanted);
        if self.free.is_empty() { None } else { Some(self.free.swap_remove(found.unwrap_or(0))) }
    }
    pub(crate) fn give_back(&mut self, runner: u32) {
        self.free.push(runner);
    }
}

/// A job of the plan: its number, and what it is declared with.
#[derive(Clone, Copy)]
pub(crate) struct JobSlot {
    pub(crate) number: u32,
    pub(crate) traits: JobTraits,
}

impl JobSlot {
    /// On how many of its items threads work at once.
    fn at_once(&self) -> u32 {
        self.traits.most_at_once.min(MOST_INSIDE_A_JOB)
    }
}

/// The jobs that were not handed out. The first ones are those on which the most threads work at once, and of these the smallest.
#[derive(Default)]
pub(crate) struct JobsLeft {
    left: Vec<JobSlot>,
}

impl JobsLeft {
    /// Takes the first one that has this priority and behaviour, room for so many items, and no more threads at once.
    pub(crate) fn take(&mut self, wanted: &JobTraits) -> Option<JobSlot> {
        let fits = |slot: &JobSlot| {
            let JobTraits { priority, behaviour, items, .. } = slot.traits;
            (priority, behaviour) == (wanted.priority, wanted.behaviour)
                && items >= wanted.items
                && slot.at_once() <= wanted.most_at_once
        };
        self.left.iter().position(fits).map(|found| self.left.remove(found))
    }
    /// Notes a job that was not handed out, or not posted.
    pub(crate) fn add(&mut self, slot: JobSlot) {
        let key = |slot: &JobSlot| (Reverse(slot.at_once()), slot.traits.items, slot.number);
        let place = self.left.partition_point(|other| key(other) < key(&slot));
        self.left.insert(place, slot);
    }
}

/// A plan.
#[derive(Default)]
pub(crate) struct Plan {
    pub(crate) text: String,
    /// The slots of sequenced runners, a sort each, and then those of each worker's single-thread runners.
    pub(crate) slots: Vec<Slots>,
    /// Of each runner.
    pub(crate) priorities: Vec<Priority>,
    pub(crate) jobs_left: JobsLeft,
    /// How many jobs there are.
    pub(crate) jobs: u32,
}

impl Plan {
    /// The plan of these options. Of what a plan can't have so much of it has one too much, which the core then refuses.
    pub(crate) fn of(options: &Options) -> Plan {
        let mut plan = Plan::default();
        plan.configure(options);
        for priority in PRIORITIES {
            (0..SORTS).for_each(|sort| plan.runner("parallel", priority, sort));
        }
        for sort in 0..SORTS {
            plan.declare_slots("sequenced", sort, options.sequenced_runners.min(4097));
        }
        for worker in 1..=options.worker_threads.min(64) {
            (0..SORTS)
                .for_each(|sort| plan.declare_slots(&format!("single:{worker}"), sort, options.single_thread_runners.min(4097)));
        }
        for queue in 0..=options.main_queues.min(256) {
            plan.line(format_args!("queue {queue} {FIRST_CLASS} {}", options.voters));
        }
        (0..options.posts.min(65_537)).for_each(|task| plan.line(format_args!("task {task} add 1")));
        options.jobs.iter().for_each(|slots| plan.declare_jobs(slots));
        plan
    }

    /// The parallel runner of these traits.
    pub(crate) fn parallel_runner(traits: Traits) -> u32 {
        traits.priority as u32 * SORTS as u32 + sort_of(traits) as u32
    }
    /// Where the slots of sequenced runners of these traits are.
    pub(crate) fn sequenced_slots(traits: Traits) -> usize {
        sort_of(traits)
    }
    /// Where the slots of single-thread runners of these traits and this worker are. Workers are counted from 0 here.
    pub(crate) fn single_thread_slots(traits: Traits, worker: usize) -> usize {
        (worker + 1) * SORTS + sort_of(traits)
    }

    fn configure(&mut self, options: &Options) {
        let (workers, foreground) = (options.worker_threads, options.foreground.unwrap_or(options.worker_threads));
        let best_effort = options.foreground_best_effort.unwrap_or(foreground.min(2));
        self.line(format_args!("workers {}", u64::from(workers) + 1)); // the last seat is the guest's
        self.line(format_args!("groups {foreground} {best_effort} {}", options.background));
        self.line(format_args!("threshold {}", options.may_block_threshold));
    }
    fn declare_slots(&mut self, kind: &str, sort: usize, count: u32) {
        let mut slots = Slots::default();
        for priority in PRIORITIES.into_iter().cycle().take(count as usize) {
            slots.give_back(self.priorities.len() as u32);
            self.runner(kind, priority, sort);
        }
        self.slots.push(slots);
    }
    fn runner(&mut self, kind: &str, priority: Priority, sort: usize) {
        let behaviour = [Behaviour::ContinueOnShutdown, Behaviour::SkipOnShutdown, Behaviour::BlockShutdown][sort / 2];
        let may_block = if sort % 2 == 1 { " mayblock" } else { "" };
        let number = self.priorities.len();
        self.line(format_args!("runner {number} {kind} {} {}{may_block}", priority_word(priority), behaviour_word(behaviour)));
        self.priorities.push(priority);
    }
    /// Jobs whose sizes double.
    fn declare_jobs(&mut self, slots: &JobSlots) {
        let JobSlots { priority, behaviour, most_at_once, .. } = *slots;
        let mut items = slots.least.max(1).min(slots.most);
        loop {
            (0..slots.of_each.min(257)).for_each(|_| self.job(JobTraits { priority, behaviour, items, most_at_once }));
            if items == slots.most {
                return;
            }
            items = items.saturating_mul(2).min(slots.most);
        }
    }
    fn job(&mut self, traits: JobTraits) {
        let (number, JobTraits { items, most_at_once, .. }) = (self.jobs, traits);
        let (priority, behaviour) = (priority_word(traits.priority), behaviour_word(traits.behaviour));
        self.line(format_args!("job {number} {priority} {behaviour} {items} {most_at_once}"));
        self.jobs_left.add(JobSlot { number, traits });
        self.jobs += 1;
    }
    fn line(&mut self, words: std::fmt::Arguments<'_>) {
        self.text += &format!("{words}\n");
    }
}

/// The sort of traits: a behaviour, and whether it may block.
fn sort_of(traits: Traits) -> usize {
    traits.behaviour as usize * 2 + usize::from(traits.may_block)
}

/// A priority's word in plans.
fn priority_word(priority: Priority) -> &'static str {
    match priority {
        Priority::BestEffort => "best_effort",
        Priority::UserVisible => "user_visible",
        Priority::UserBlocking => "user_blocking",
    }
}

fn behaviour_word(behaviour: Behaviour) -> &'static str {
    match behaviour {
        Behaviour::ContinueOnShutdown => "continue",
        Behaviour::SkipOnShutdown => "skip",
        Behaviour::BlockShutdown => "block",
    }
}
