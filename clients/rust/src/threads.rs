//! What the threads do: workers, the one that reads the clock, and the main thread.

use crate::abi::{Answer, Call, Request, kind, status};
use crate::current::Doing;
use crate::host::{Host, NEVER, State, Task};
use crate::job::{JobItem, Work, reply_of};
use crate::words::JobReply;
use std::sync::PoisonError;
use std::sync::atomic::{AtomicBool, Ordering};
use std::time::Duration;

/// What came of asking for a main task.
#[derive(Clone, Copy, PartialEq, Eq)]
pub(crate) enum Turn {
    Ran,
    None,
    Over,
}

impl Host {
    /// What a worker thread does until shutdown is done: it takes, runs and ends, and sleeps where there is nothing to take.
    pub(crate) fn work(&self, seat: u32) {
        let _doing = Doing::new(self, seat, None);
        let take = Request::of(Call::Take).seat(seat);
        loop {
            let mut held = self.hold();
            let did = held.must(take, &[status::NOTHING, status::OVER]);
            match (did.status, did.kind) {
                (status::OVER, _) => return,
                (status::NOTHING, _) => {
                    let rests = held.rests(take);
                    drop(held);
                    if rests {
                        self.parkers[seat as usize].park();
                    }
                }
                (_, kind::JOB_TAKE) => {
                    let work = held.state.work_of(did.place);
                    drop(held);
                    self.work_on_job(seat, &did, work);
                }
                _ => {
                    let task = held.state.waiting[did.task as usize].take();
                    drop(held);
                    self.run_task(seat, task, Request::of(Call::End).seat(seat));
                }
            }
        }
    }

    /// Runs a task and says that it has ended; its closure is gone by then. Its home is let go of after that.
    fn run_task(&self, seat: u32, task: Option<Task>, end: Request) {
        let (closure, home) = task.map_or((None, None), |task| (task.closure, Some(task.home)));
        {
            let _doing = Doing::new(self, seat, home.as_ref());
            self.guarded(|| {
                if let Some(closure) = closure {
                    closure();
                }
            });
        }
        let mut held = self.hold();
        held.must(end, &[]);
        if seat == 0 {
            held.free_driver();
        }
    }

    /// Works on a job from the item that was taken on, until the core has this seat leave.
    fn work_on_job(&self, seat: u32, taken: &Answer, work: Option<Work>) {
        let _doing = Doing::new(self, seat, None);
        let yields = &self.yields[taken.place as usize];
        let mut item = taken.item;
        loop {
            if let Some(work) = work.as_ref().filter(|work| item < work.items) {
                self.guarded(|| work.call(&JobItem { index: item, worker: taken.id, yields }));
            }
            let mut held = self.hold();
            let did = held.must(Request::of(Call::JobStep).seat(seat), &[]);
            let last = held.state.end_item(taken.place);
            if did.ok == 0 {
                if seat == 0 {
                    held.free_driver();
                }
                drop(held);
                self.guarded(|| drop((last, work)));
                return;
            }
            item = did.next;
        }
    }

    /// What the service thread does until shutdown is done: it sleeps to the next moment that counts, and has the core read the clock.
    pub(crate) fn keep_time(&self) {
        loop {
            let mut state = self.lock();
            while !state.is_over && state.next_moment() > self.now() {
                let next = state.next_moment();
                state = if next == NEVER {
                    self.time_changed.wait(state).unwrap_or_else(PoisonError::into_inner)
                } else {
                    let left = Duration::from_micros(next.saturating_sub(self.now()));
                    self.time_changed.wait_timeout(state, left).unwrap_or_else(PoisonError::into_inner).0
                };
            }
            if state.is_over {
                return;
            }
            drop(state);
            self.hold().tick();
        }
    }

    /// Takes and runs one main task, if there is one to take.
    pub(crate) fn run_main_task(&self) -> Turn {
        let mut held = self.hold();
        if held.state.is_over {
            return Turn::Over;
        }
        held.state.main_is_poked = false;
        let did = held.must(Request::of(Call::MainTake), &[]);
        if did.kind == kind::MAIN_NONE {
            return Turn::None;
        }
        let task = held.state.waiting[did.task as usize].take();
        held.state.driver_works = true;
        drop(held);
        self.run_task(0, task, Request::of(Call::MainEnd));
        Turn::Ran
    }

    /// Runs main tasks, and sleeps where there are none, until it is told to quit. The core can't say when a main task may be taken,
    /// so whatever may make one ready pokes the main thread: a post to a main queue, a ripe moment, and each driver's call.
    pub(crate) fn run_until(&self, quits: &AtomicBool) {
        self.require_driver();
        while !quits.load(Ordering::Relaxed) {
            match self.run_main_task() {
                Turn::Over => return,
                Turn::Ran => {}
                Turn::None => {
                    let is_idle = |state: &mut State| !state.main_is_poked && !quits.load(Ordering::Relaxed);
                    drop(self.main_changed.wait_while(self.lock(), is_idle).unwrap_or_else(PoisonError::into_inner));
                }
            }
        }
    }
    pub(crate) fn quit(&self, quits: &AtomicBool) {
        let mut held = self.hold();
        quits.store(true, Ordering::Relaxed);
        held.poke_main();
    }
    /// Runs main tasks and waits for the pool, until neither has anything to do.
    pub(crate) fn run_until_idle(&self) {
        self.require_driver();
        loop {
            while self.run_main_task() == Turn::Ran {}
            self.await_entry(Request::of(Call::Idle));
            let state = self.lock();
            if state.is_over || !state.main_is_poked {
                return;
            }
        }
    }
    /// Moves the mock clock, from one moment to the next at which there is something to do, and does that.
    pub(crate) fn fast_forward_by(&self, delta: u64) {
        let last = self.now().saturating_add(delta);
        self.run_until_idle();
        loop {
            let next = self.lock().next_moment();
            self.move_clock(next.min(last));
            self.run_until_idle();
            if next > last {
                return;
            }
        }
    }

    /// Makes a call of the driver that waits until what it asks for has come. Once shutdown is done it is not made.
    pub(crate) fn await_entry(&self, wanted: Request) {
        loop {
            let mut held = self.hold();
            if held.state.is_over || held.must(wanted, &[status::NOT_YET, status::BLOCKED]).status == status::MADE {
                return;
            }
            let rests = held.rests(wanted);
            drop(held);
            if rests {
                self.parkers[0].park();
            }
        }
    }
    /// Cancels a job, and waits until nobody is inside.
    pub(crate) fn cancel_job_and_wait(&self, job: u32) {
        self.require_driver();
        self.cancel_job(job);
        self.await_entry(Request::of(Call::Cancelled).place(job));
        let mut state = self.lock();
        let work = if state.is_over { None } else { state.end_job(job) };
        drop(state);
        self.guarded(|| drop(work));
    }
    /// The main thread works on the job too, until it has its reply. There is none once shutdown is done.
    pub(crate) fn join_job(&self, job: u32) -> Option<JobReply> {
        self.require_driver();
        let joined = Request::of(Call::Joined).place(job);
        loop {
            let mut held = self.hold();
            if held.state.is_over {
                return None;
            }
            let did = held.must(joined, &[status::NOT_YET]);
            if did.status == status::MADE {
                let work = held.state.end_job(job); // nobody enters a job that has a reply
                drop(held);
                self.guarded(|| drop(work));
                return Some(reply_of(did.word));
            }
            if did.ready != 0 {
                let item = held.must(Request::of(Call::JobTake).place(job), &[]);
                let work = held.state.work_of(job);
                held.state.driver_works = true;
                drop(held);
                self.work_on_job(0, &item, work);
            } else if held.rests(joined) {
                drop(held);
                self.parkers[0].park();
            }
        }
    }
    /// Begins shutdown, and waits until it is done.
    pub(crate) fn shutdown(&self) {
        self.require_driver();
        let mut held = self.hold();
        if held.state.is_over {
            return;
        }
        held.must(Request::of(Call::Shutdown), &[]);
        self.tell_of_shutdown(&held.state);
        drop(held);
        self.await_entry(Request::of(Call::Done));
    }
    /// All threads have ended: the core is closed, and what jobs own is destroyed.
    pub(crate) fn close(&self) {
        let mut held = self.hold();
        let core = held.state.core.take();
        let jobs = std::mem::take(&mut held.state.jobs);
        drop(held);
        drop(core);
        self.guarded(|| drop(jobs));
    }
}
