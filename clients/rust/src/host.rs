//! The core, its lock, who sleeps, and what waits. Handles share it, so it is there as long as somebody may ask it something.

use crate::abi::{Answer, Call, Core, Opened, Request, kind, opening, status};
use crate::builder::{OnPanic, Options};
use crate::current::{Current, this_thread};
use crate::held::{Held, Parker, Trash, Wakes};
use crate::job::Work;
use crate::plan::{FIRST_CLASS, JobSlot, JobsLeft, Plan, Slots};
use crate::recorder::Recorder;
use crate::words::{Behaviour, JobTraits, NoRoom, OpenError, Priority, Refused, Scope, Traits};
use std::cmp::Reverse;
use std::collections::BinaryHeap;
use std::panic::{AssertUnwindSafe, catch_unwind};
use std::process::abort;
use std::sync::atomic::{AtomicBool, AtomicU64, Ordering};
use std::sync::{Arc, Condvar, Mutex, MutexGuard, PoisonError};
use std::time::Instant;

/// The moment that never comes.
pub(crate) const NEVER: u64 = u64::MAX;

pub(crate) type Closure = Box<dyn FnOnce() + Send>;

/// Which kind of place a home is.
#[derive(Clone, Copy, PartialEq, Eq)]
pub(crate) enum Sort {
    Parallel,
    Sequence,
    MainQueue,
}

/// Where tasks are posted: a runner, or a main queue. Each task that waits or runs holds its home, so a runner's slot comes free when
/// nobody holds the runner and all its tasks have ended, or are gone. It is never dropped while the lock is held.
pub(crate) struct Home {
    pub(crate) host: Arc<Host>,
    pub(crate) sort: Sort,
    /// Of the runner or main queue.
    pub(crate) number: u32,
    /// Where its slot goes back to.
    slots: Option<usize>,
}

impl Drop for Home {
    fn drop(&mut self) {
        if let Some(slots) = self.slots {
            self.host.hold().state.slots[slots].give_back(self.number);
        }
    }
}

/// What is kept beside a task's number, from its post to its end. The closure of a task that was cancelled is none.
pub(crate) struct Task {
    pub(crate) closure: Option<Closure>,
    pub(crate) home: Arc<Home>,
}

/// A job of the plan that was posted.
pub(crate) struct PostedJob {
    /// Until nobody can enter any more.
    pub(crate) work: Option<Work>,
    /// How many items of the plan's job have not ended.
    pub(crate) left: u32,
    behaviour: Behaviour,
}

/// See the module.
pub(crate) struct Host {
    options: Options,
    plan_text: String,
    /// Of each job of the plan: what is left of its items is not wanted any more.
    pub(crate) yields: Vec<AtomicBool>,
    has_begun_shutdown: AtomicBool,
    /// Of each seat.
    pub(crate) parkers: Vec<Parker>,
    main_thread: u64,
    pub(crate) beginning: Instant,
    /// The mock clock's moment.
    mock_now: AtomicU64,
    on_panic: Option<OnPanic>,
    pub(crate) main_changed: Condvar,
    pub(crate) time_changed: Condvar,
    state: Mutex<State>,
}

/// What is looked at and changed under the lock.
pub(crate) struct State {
    /// Gone once the environment has ended.
    pub(crate) core: Option<Core>,
    pub(crate) recorder: Option<Recorder>,
    /// By number, from the post to the take.
    pub(crate) waiting: Vec<Option<Task>>,
    handed_out: u32,
    slots: Vec<Slots>,
    /// Of each runner, as it was asked for last.
    priorities: Vec<Priority>,
    /// The ripe moments of delayed tasks; and of each seat the moment when its scope comes to count, or never.
    moments: BinaryHeap<Reverse<u64>>,
    scope_moments: Vec<u64>,
    jobs_left: JobsLeft,
    /// By number, from the post on.
    pub(crate) jobs: Vec<Option<PostedJob>>,
    /// Of each main queue.
    free_voters: Vec<Vec<u32>>,
    main_queues_made: u32,
    single_runners_made: usize,
    /// It runs a main task, or an item of a job; and the driver's calls that came meanwhile.
    pub(crate) driver_works: bool,
    pub(crate) kept: Vec<Request>,
    /// There may be a main task to take.
    pub(crate) main_is_poked: bool,
    /// Shutdown is done.
    pub(crate) is_over: bool,
}

impl State {
    /// That of an environment of which nothing was asked yet.
    fn new(core: Core, plan: Plan, recorder: Option<Recorder>, seats: usize, options: &Options) -> State {
        let Plan { slots, priorities, jobs_left, jobs, .. } = plan;
        let voters: Vec<u32> = (0..options.voters).rev().collect();
        State {
            core: Some(core),
            recorder,
            waiting: (0..options.posts).map(|_| None).collect(),
            handed_out: 0,
            slots,
            priorities,
            moments: BinaryHeap::with_capacity(options.posts as usize),
            scope_moments: vec![NEVER; seats],
            jobs_left,
            jobs: (0..jobs).map(|_| None).collect(),
            free_voters: vec![voters; options.main_queues as usize + 1],
            main_queues_made: 0,
            single_runners_made: 0,
            driver_works: false,
            kept: Vec::new(),
            main_is_poked: false,
            is_over: false,
        }
    }
    /// The work of a job, for a seat that is inside.
    pub(crate) fn work_of(&self, job: u32) -> Option<Work> {
        self.jobs[job as usize].as_ref()?.work.clone()
    }
    /// An item of the job has ended. Answers its work, to be dropped once the lock is free, where it was the last one.
    pub(crate) fn end_item(&mut self, job: u32) -> Option<Work> {
        let job = self.jobs[job as usize].as_mut()?;
        job.left -= 1;
        job.work.take_if(|_| job.left == 0)
    }
    /// Nobody enters the job any more. Answers its work, to be dropped once the lock is free.
    pub(crate) fn end_job(&mut self, job: u32) -> Option<Work> {
        self.jobs[job as usize].as_mut()?.work.take()
    }
    pub(crate) fn note_priority(&mut self, runner: u32, priority: Priority) {
        self.priorities[runner as usize] = priority;
    }
    /// The next moment at which a delayed task is ripe, or a scope that may block comes to count.
    pub(crate) fn next_moment(&self) -> u64 {
        let ripe = self.moments.peek().map_or(NEVER, |moment| moment.0);
        self.scope_moments.iter().copied().fold(ripe, u64::min)
    }
    /// The moments up to this one have passed. Answers whether a task has become ripe.
    pub(crate) fn pass(&mut self, now: u64) -> bool {
        let waited = self.moments.len();
        while self.moments.peek().is_some_and(|moment| moment.0 <= now) {
            self.moments.pop();
        }
        self.scope_moments.iter_mut().filter(|moment| **moment <= now).for_each(|moment| *moment = NEVER);
        self.moments.len() < waited
    }
}

impl Host {
    /// Opens the core of these options. This thread is the main thread.
    pub(crate) fn open(mut options: Options) -> Result<Host, OpenError> {
        if options.worker_threads == 0 {
            return Err(OpenError::NoWorkers);
        }
        let mut plan = Plan::of(&options);
        let text = std::mem::take(&mut plan.text);
        let core = Core::open(&text).map_err(|refusal| error_of(&refusal, &text))?;
        let recorder = Recorder::new(options.record)?;
        let seats = options.worker_threads as usize + 2;
        Ok(Host {
            plan_text: text,
            yields: (0..plan.jobs).map(|_| AtomicBool::new(false)).collect(),
            has_begun_shutdown: AtomicBool::new(false),
            parkers: (0..seats).map(|_| Parker::default()).collect(),
            main_thread: this_thread(),
            beginning: Instant::now(),
            mock_now: AtomicU64::new(0),
            on_panic: options.on_panic.take(),
            main_changed: Condvar::new(),
            time_changed: Condvar::new(),
            state: Mutex::new(State::new(core, plan, recorder, seats, &options)),
            options,
        })
    }

    /// The lock, for what asks the core nothing. No user's code runs under it, so it is never poisoned by one.
    pub(crate) fn lock(&self) -> MutexGuard<'_, State> {
        self.state.lock().unwrap_or_else(PoisonError::into_inner)
    }
    /// The lock, for calls of the core.
    pub(crate) fn hold(&self) -> Held<'_> {
        Held { state: self.lock(), wakes: Wakes::of(&self.parkers), trash: Trash::of(self), host: self }
    }

    // ---- who asks

    /// The guest's seat, under which those post who have none.
    pub(crate) fn guest(&self) -> u32 {
        self.options.worker_threads + 1
    }
    /// The seat of this thread.
    pub(crate) fn own_seat(&self) -> u32 {
        let current = Current::of(self).map(|current| current.seat);
        current.unwrap_or(if self.is_main_thread() { 0 } else { self.guest() })
    }
    /// The seat under which this thread posts: a worker's only where it runs a task.
    fn posting_seat(&self) -> u32 {
        let seat = self.own_seat();
        if seat == 0 || Current::of(self).is_some_and(|current| current.runs_task) { seat } else { self.guest() }
    }
    pub(crate) fn is_main_thread(&self) -> bool {
        this_thread() == self.main_thread
    }
    /// Types see to it that only the main thread comes here, but not that none of its tasks does, as by a thread-local value.
    pub(crate) fn require_driver(&self) {
        let is_free = self.is_main_thread() && !self.lock().driver_works;
        assert!(is_free, "taskenv: only the main thread may do this, outside of its tasks");
    }

    // ---- posts

    /// Posts a closure, and answers the number of its task. A closure that is refused is destroyed here.
    pub(crate) fn post(&self, home: &Arc<Home>, closure: Closure, delay: u64) -> Result<u32, Refused> {
        // It is declared before the lock is taken, so where it is refused, it is dropped after the lock is free.
        let task = Task { closure: Some(closure), home: Arc::clone(home) };
        let is_main = home.sort == Sort::MainQueue;
        let mut held = self.hold();
        // The core takes posts to main queues at any time, but nobody runs them once shutdown is done.
        if held.state.core.is_none() || (is_main && held.state.is_over) {
            return Err(Refused::ShutDown);
        }
        let ripe = if delay == 0 { NEVER } else { held.tick() + delay };
        let call = if is_main { Call::Main } else { Call::Post };
        let did = held.must(Request::of(call).seat(self.posting_seat()).place(home.number).time(delay), &[status::FULL]);
        if did.status == status::FULL {
            return Err(Refused::NoNumberLeft);
        }
        held.state.handed_out += 1;
        if did.ok == 0 {
            return Err(if is_main { Refused::QueueClosed } else { Refused::ShutDown });
        }
        held.state.waiting[did.task as usize] = Some(task);
        if delay > 0 {
            self.await_moment(&held.state, ripe);
            held.state.moments.push(Reverse(ripe));
        }
        if is_main {
            held.poke_main();
        }
        Ok(did.task)
    }
    /// Destroys the closure of a task that has not started, whose run is an empty one then. Answers whether there was one.
    pub(crate) fn cancel(&self, task: u32) -> bool {
        let dropped = self.lock().waiting[task as usize].as_mut().and_then(|task| task.closure.take());
        dropped.is_some() // it is dropped here: the lock is free
    }
    pub(crate) fn is_waiting(&self, task: u32) -> bool {
        self.lock().waiting[task as usize].as_ref().is_some_and(|task| task.closure.is_some())
    }
    pub(crate) fn posts_left(&self) -> u32 {
        self.options.posts - self.lock().handed_out
    }

    // ---- runners and main queues

    /// A home that is there from the beginning.
    pub(crate) fn home(self: &Arc<Host>, sort: Sort, number: u32) -> Arc<Home> {
        Arc::new(Home { host: Arc::clone(self), sort, number, slots: None })
    }
    pub(crate) fn parallel_runner(self: &Arc<Host>, traits: Traits) -> Arc<Home> {
        self.home(Sort::Parallel, Plan::parallel_runner(traits))
    }
    pub(crate) fn sequenced_runner(self: &Arc<Host>, traits: Traits) -> Result<Arc<Home>, NoRoom> {
        let slots = Plan::sequenced_slots(traits);
        self.take_slot(slots, traits.priority).ok_or(NoRoom::SequencedRunners)
    }
    /// The workers have their turn: each next runner is the next one's that has a free slot.
    pub(crate) fn single_thread_runner(self: &Arc<Host>, traits: Traits) -> Result<Arc<Home>, NoRoom> {
        let workers = self.options.worker_threads as usize;
        let first = self.lock().single_runners_made;
        let mut turns = (first..first + workers).map(|turn| (turn, Plan::single_thread_slots(traits, turn % workers)));
        let found = turns.find_map(|(turn, slots)| Some((turn, self.take_slot(slots, traits.priority)?)));
        let (turn, home) = found.ok_or(NoRoom::SingleThreadRunners)?;
        self.lock().single_runners_made = turn + 1;
        Ok(home)
    }
    /// Takes a free slot, whose priority becomes the wanted one.
    fn take_slot(self: &Arc<Host>, slots: usize, wanted: Priority) -> Option<Arc<Home>> {
        let mut held = self.hold();
        let State { slots: all, priorities, .. } = &mut *held.state;
        let number = all[slots].take(wanted, priorities)?;
        if priorities[number as usize] != wanted {
            held.reprioritize(number, wanted);
        }
        drop(held);
        Some(Arc::new(Home { host: Arc::clone(self), sort: Sort::Sequence, number, slots: Some(slots) }))
    }
    pub(crate) fn update_priority(&self, runner: &Home, priority: Priority) {
        assert!(runner.slots.is_some(), "taskenv: only a sequenced or single-thread runner can be given another priority");
        self.hold().reprioritize(runner.number, priority);
    }
    pub(crate) fn make_main_queue(self: &Arc<Host>, class: u32) -> Result<Arc<Home>, NoRoom> {
        let mut held = self.hold();
        if held.state.main_queues_made == self.options.main_queues {
            return Err(NoRoom::MainQueues);
        }
        held.state.main_queues_made += 1;
        let number = held.state.main_queues_made; // 0 is the first one, which is there from the beginning
        if class != FIRST_CLASS {
            held.drive(Request::of(Call::Rank).place(number).word(class));
        }
        drop(held);
        Ok(self.home(Sort::MainQueue, number))
    }
    pub(crate) fn take_voter(&self, queue: u32) -> Result<u32, NoRoom> {
        self.lock().free_voters[queue as usize].pop().ok_or(NoRoom::Voters)
    }
    /// The voter votes on, as all do at the beginning, and can be taken again.
    pub(crate) fn give_back_voter(&self, queue: u32, voter: u32) {
        let mut held = self.hold();
        held.drive(Request { on: 1, ..Request::of(Call::Vote).place(queue).word(voter) });
        held.state.free_voters[queue as usize].push(voter);
    }

    // ---- jobs and scopes

    pub(crate) fn take_job(&self, wanted: &JobTraits) -> Result<JobSlot, NoRoom> {
        self.lock().jobs_left.take(wanted).ok_or(NoRoom::Jobs)
    }
    pub(crate) fn give_back_job(&self, slot: JobSlot) {
        self.lock().jobs_left.add(slot);
    }
    /// Once shutdown is done the job isn't posted, and the work is dropped here, when the lock is free.
    pub(crate) fn post_job(&self, slot: JobSlot, work: Work) {
        let mut held = self.hold();
        if !held.state.is_over {
            let JobTraits { items, behaviour, .. } = slot.traits;
            held.state.jobs[slot.number as usize] = Some(PostedJob { work: Some(work), left: items, behaviour });
            held.drive(Request::of(Call::JobPost).place(slot.number));
        }
    }
    pub(crate) fn cancel_job(&self, job: u32) {
        let mut held = self.hold();
        if !held.state.is_over {
            held.drive(Request::of(Call::JobCancel).place(job));
            self.yields[job as usize].store(true, Ordering::Relaxed);
        }
    }
    /// Shutdown begins: what is left of items whose job it stops is not wanted any more.
    pub(crate) fn tell_of_shutdown(&self, state: &State) {
        self.has_begun_shutdown.store(true, Ordering::Relaxed);
        let is_stopped = |job: &Option<PostedJob>| job.as_ref().is_some_and(|job| job.behaviour != Behaviour::BlockShutdown);
        let stopped = self.yields.iter().zip(&state.jobs).filter(|(_, job)| is_stopped(job));
        stopped.for_each(|(yields, _)| yields.store(true, Ordering::Relaxed));
    }
    pub(crate) fn has_shutdown_started(&self) -> bool {
        self.has_begun_shutdown.load(Ordering::Relaxed)
    }
    /// This thread's task opens a scope. Answers whether its traits say that it may.
    pub(crate) fn open_scope(&self, seat: u32, scope: Scope) -> bool {
        let mut held = self.hold();
        let now = if scope == Scope::MayBlock { held.tick() } else { 0 };
        if held.call(Request::of(Call::Enter).seat(seat).word(scope as u32)).status != status::MADE {
            return false;
        }
        if scope == Scope::MayBlock && !held.state.is_over {
            let counts_from = now + self.options.may_block_threshold;
            self.await_moment(&held.state, counts_from);
            held.state.scope_moments[seat as usize] = counts_from;
        }
        true
    }
    pub(crate) fn close_scope(&self, seat: u32) {
        let mut held = self.hold();
        held.must(Request::of(Call::Leave).seat(seat), &[]);
        held.state.scope_moments[seat as usize] = NEVER;
    }

    // ---- time

    /// Microseconds since the beginning.
    pub(crate) fn now(&self) -> u64 {
        if self.options.has_mock_clock {
            return self.mock_now.load(Ordering::Relaxed);
        }
        u64::try_from(self.beginning.elapsed().as_micros()).unwrap_or(NEVER)
    }
    pub(crate) fn has_mock_clock(&self) -> bool {
        self.options.has_mock_clock
    }
    /// Moves the mock clock, and has the core read it.
    pub(crate) fn move_clock(&self, moment: u64) {
        let mut held = self.hold();
        self.mock_now.store(moment, Ordering::Relaxed);
        held.tick();
    }
    /// Has the service thread sleep no longer than to this moment, which is about to be noted.
    fn await_moment(&self, state: &State, moment: u64) {
        if moment < state.next_moment() {
            self.time_changed.notify_one();
        }
    }

    // ---- what the core's answers change, and users' code

    /// Notes an entry. Calls that name no seat are the driver's, which is seat 0. At the end, all that waits goes to the trash.
    pub(crate) fn enter(&self, state: &mut State, seat: u32, entry: &Answer, trash: &mut Trash<'_>) {
        if let Some(recorder) = &mut state.recorder {
            recorder.note(seat, *entry);
        }
        if entry.kind == kind::DONE {
            state.is_over = true;
            state.moments.clear();
            state.scope_moments.fill(NEVER);
            self.time_changed.notify_all();
            trash.extend(state.waiting.iter_mut().filter_map(Option::take));
        }
    }
    /// The plan, a line `%%`, and the log, where one is kept.
    pub(crate) fn recording(&self) -> Option<String> {
        let log = self.lock().recorder.as_ref()?.text();
        Some(format!("{}%%\n{log}", self.plan_text))
    }
    /// Calls what is a user's. What it panics with goes to the user's handler, or ends the process. (It has no hold of anything of
    /// this crate but by calls that leave it whole; in which state it leaves the user's own values, the user's handler answers for.)
    pub(crate) fn guarded(&self, call: impl FnOnce()) {
        let Err(panic) = catch_unwind(AssertUnwindSafe(call)) else { return };
        let Some(handler) = &self.on_panic else { abort() };
        if catch_unwind(AssertUnwindSafe(|| handler(panic))).is_err() {
            abort();
        }
    }
}

/// Why a plan was refused, with the line's own words.
fn error_of(refusal: &Opened, plan: &str) -> OpenError {
    if refusal.reason == opening::OUT_OF_MEMORY {
        return OpenError::OutOfMemory;
    }
    let line = (refusal.line as usize).checked_sub(1).and_then(|before| plan.lines().nth(before));
    OpenError::NoPlan { line: line.unwrap_or_default().to_owned(), reason: refusal.number }
}
