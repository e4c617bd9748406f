//! The lock, while it is held: each call of the core is made by `Held::call`. At the end the lock is let go; then who was named is
//! woken; and last, what never runs is destroyed.

use crate::abi::{Answer, Call, Request, status, wake};
use crate::host::{Host, Sort, State, Task};
use crate::words::Priority;
use std::process::abort;
use std::sync::{Condvar, Mutex, MutexGuard, PoisonError};

/// See the module. Fields are dropped in the order in which they stand here.
pub(crate) struct Held<'h> {
    pub(crate) state: MutexGuard<'h, State>,
    pub(crate) wakes: Wakes<'h>,
    pub(crate) trash: Trash<'h>,
    pub(crate) host: &'h Host,
}

impl Held<'_> {
    /// Makes a call of the core by this thread's seat, and notes its entry and whom it names.
    pub(crate) fn call(&mut self, wanted: Request) -> Answer {
        let wanted = Request { by: self.host.own_seat(), ..wanted };
        let Some(core) = &mut self.state.core else { return Answer { status: status::OVER, ..Answer::default() } };
        let answer = core.call(&wanted);
        self.wakes.name(&answer);
        if answer.status == status::MADE {
            self.host.enter(&mut self.state, wanted.seat, &answer, &mut self.trash);
        }
        answer
    }
    /// A call that is made, or is answered one of these. Any other answer comes only where this crate breaks a rule of the core, or
    /// after 2^32 - 1 entries: there the process ends.
    pub(crate) fn must(&mut self, wanted: Request, or_else: &[u32]) -> Answer {
        let answer = self.call(wanted);
        if answer.status != status::MADE && !or_else.contains(&answer.status) {
            eprintln!("taskenv: call {} of seat {} was answered {}", wanted.call, wanted.seat, answer.status);
            abort();
        }
        answer
    }
    /// Whether the call's seat rests for it, so that its thread is to sleep once the lock is free.
    pub(crate) fn rests(&mut self, wanted: Request) -> bool {
        self.call(Request { rests: 1, ..wanted }).status == status::RESTS
    }
    /// Has the core read the clock, and answers the moment. Delays and thresholds are counted from the last reading.
    pub(crate) fn tick(&mut self) -> u64 {
        if self.state.is_over {
            return 0;
        }
        let now = self.must(Request::of(Call::Tick).time(self.host.now()), &[]).value;
        if self.state.pass(now) {
            self.poke_main();
        }
        now
    }
    /// A driver's call, now or when the driver is free. Once shutdown is done none has an effect.
    pub(crate) fn drive(&mut self, wanted: Request) {
        match (self.state.is_over, self.state.driver_works) {
            (true, _) => {}
            (false, true) => self.state.kept.push(wanted),
            (false, false) => self.make(wanted),
        }
    }
    /// Gives a runner another priority.
    pub(crate) fn reprioritize(&mut self, runner: u32, priority: Priority) {
        self.state.note_priority(runner, priority);
        self.drive(Request::of(Call::Reprio).place(runner).word(priority as u32));
    }
    /// The driver has ended its task or item: what was kept for it is done.
    pub(crate) fn free_driver(&mut self) {
        self.state.driver_works = false;
        for wanted in std::mem::take(&mut self.state.kept) {
            self.make(wanted);
        }
    }
    /// There may be a main task to take.
    pub(crate) fn poke_main(&mut self) {
        self.state.main_is_poked = true;
        self.host.main_changed.notify_one();
    }

    fn make(&mut self, wanted: Request) {
        self.must(wanted, &[]);
        if wanted.call == Call::Close as u32 {
            let in_queue = |task: &mut Task| task.home.sort == Sort::MainQueue && task.home.number == wanted.place;
            self.trash.extend(self.state.waiting.iter_mut().filter_map(|task| task.take_if(in_queue)));
        }
        self.poke_main();
    }
}

/// Those whom the core's answers named. They are woken at its end, when the lock is free.
pub(crate) struct Wakes<'h> {
    parkers: &'h [Parker],
    /// A bit for each seat, of which there are 65 at most.
    named: u128,
}

impl<'h> Wakes<'h> {
    pub(crate) fn of(parkers: &'h [Parker]) -> Wakes<'h> {
        Wakes { parkers, named: 0 }
    }
    fn name(&mut self, answer: &Answer) {
        match answer.wake {
            wake::ONE => self.named |= 1 << answer.woken,
            wake::EVERYONE => self.named = u128::MAX,
            _ => {}
        }
    }
}

impl Drop for Wakes<'_> {
    fn drop(&mut self) {
        let named = |seat: &usize| self.named >> seat & 1 == 1;
        (0..self.parkers.len()).filter(named).for_each(|seat| self.parkers[seat].unpark());
    }
}

/// Tasks that never run. They are destroyed at its end, when the lock is free.
pub(crate) struct Trash<'h> {
    host: &'h Host,
    tasks: Vec<Task>,
}

impl<'h> Trash<'h> {
    pub(crate) fn of(host: &'h Host) -> Trash<'h> {
        Trash { host, tasks: Vec::new() }
    }
    pub(crate) fn extend(&mut self, tasks: impl Iterator<Item = Task>) {
        self.tasks.extend(tasks);
    }
}

impl Drop for Trash<'_> {
    fn drop(&mut self) {
        self.tasks.drain(..).for_each(|task| self.host.guarded(|| drop(task)));
    }
}

/// Where a seat's thread sleeps. A wake that comes before the sleep is kept. (Those of the standard library's threads won't do: a
/// user's code may take what is kept.)
#[derive(Default)]
pub(crate) struct Parker {
    is_woken: Mutex<bool>,
    changed: Condvar,
}

impl Parker {
    pub(crate) fn park(&self) {
        let is_woken = self.is_woken.lock().unwrap_or_else(PoisonError::into_inner);
        let mut is_woken = self.changed.wait_while(is_woken, |is_woken| !*is_woken).unwrap_or_else(PoisonError::into_inner);
        *is_woken = false;
    }
    fn unpark(&self) {
        *self.is_woken.lock().unwrap_or_else(PoisonError::into_inner) = true;
        self.changed.notify_one();
    }
}
