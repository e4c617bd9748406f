//! What this thread does for an environment: whose seat it has, and the home of the task that it runs, if it runs one.
//!
//! Posts may come as late as from the destructor of another thread-local value. So the seat is kept in a value without destructor,
//! and where the home is gone already, the thread is one that runs no task.

use crate::host::{Home, Host};
use crate::words::Scope;
use std::cell::{Cell, RefCell};
use std::sync::Arc;
use std::sync::atomic::{AtomicU64, Ordering};

/// The seat of a thread, and the scopes that its task has open.
#[derive(Clone, Copy)]
pub(crate) struct Current {
    /// The address of the environment's host; 0 is none. It is there as long as the thread does something for it.
    host: usize,
    pub(crate) seat: u32,
    pub(crate) runs_task: bool,
    /// How many blocking scopes are open, and as what the core counts them.
    pub(crate) scopes: u32,
    pub(crate) scope: Scope,
}

const NOTHING: Current = Current { host: 0, seat: 0, runs_task: false, scopes: 0, scope: Scope::MayBlock };

thread_local! {
    static CURRENT: Cell<Current> = const { Cell::new(NOTHING) };
    static HOME: RefCell<Option<Arc<Home>>> = const { RefCell::new(None) };
    static THREAD: Cell<u64> = const { Cell::new(0) };
}

impl Current {
    /// What this thread does, for whichever environment.
    pub(crate) fn get() -> Current {
        CURRENT.get()
    }
    /// What this thread does for this environment.
    pub(crate) fn of(host: &Host) -> Option<Current> {
        Some(CURRENT.get()).filter(|current| current.host == address(host))
    }
    pub(crate) fn set_scopes(scopes: u32, scope: Scope) {
        CURRENT.set(Current { scopes, scope, ..CURRENT.get() });
    }
}

fn address(host: &Host) -> usize {
    std::ptr::from_ref(host).addr()
}

/// The home of the task that this thread runs.
pub(crate) fn home() -> Option<Arc<Home>> {
    HOME.try_with(|home| home.borrow().clone()).ok().flatten()
}

/// A number of this thread that no other one has, also later.
pub(crate) fn this_thread() -> u64 {
    static NEXT: AtomicU64 = AtomicU64::new(1);
    if THREAD.get() == 0 {
        THREAD.set(NEXT.fetch_add(1, Ordering::Relaxed));
    }
    THREAD.get()
}

/// While it lives, this thread does something for an environment; then it does what it did before.
pub(crate) struct Doing {
    before: (Current, Option<Arc<Home>>),
}

impl Doing {
    /// The thread has this seat, and runs a task of this home, or none.
    pub(crate) fn new(host: &Host, seat: u32, home: Option<&Arc<Home>>) -> Doing {
        let current = Current { host: address(host), seat, runs_task: home.is_some(), ..NOTHING };
        Doing { before: exchange(current, home.cloned()) }
    }
}

impl Drop for Doing {
    fn drop(&mut self) {
        let (current, home) = &mut self.before;
        exchange(*current, home.take());
    }
}

fn exchange(current: Current, home: Option<Arc<Home>>) -> (Current, Option<Arc<Home>>) {
    (CURRENT.replace(current), HOME.try_with(|now| now.replace(home)).ok().flatten())
}
