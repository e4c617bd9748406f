//! Sequences with a state, which each of their tasks borrows.

use crate::runner::{DelayedTask, Runner, replying};
use crate::words::Refused;
use std::cell::UnsafeCell;
use std::sync::Arc;
use std::sync::atomic::{AtomicBool, Ordering};
use std::time::Duration;

/// A runner whose tasks run one after the other, in order, and a state that each of them borrows. Clones are the same sequence. The
/// state is destroyed, on whichever thread, when nobody holds the sequence and all its tasks have ended, or are gone. A task after
/// one that panicked finds the state as that one left it.
///
/// ```
/// # use taskenv::{Environment, Traits};
/// # use std::sync::mpsc::channel;
/// let environment = Environment::builder().open()?;
/// let words = environment.sequence(Traits::new(), Vec::new())?;
/// for word in ["one", "after", "another"] {
///     words.post(move |list| list.push(word))?;
/// }
/// let (send, receive) = channel();
/// words.post(move |list| drop(send.send(list.join(" "))))?;
/// assert_eq!(receive.recv()?, "one after another");
/// # Ok::<(), Box<dyn std::error::Error>>(())
/// ```
pub struct Sequence<S> {
    runner: Runner,
    state: Arc<State<S>>,
}

struct State<S> {
    value: UnsafeCell<S>,
    /// Whether a task has it: looked at in debug builds only.
    is_borrowed: AtomicBool,
}

// SAFETY: one task at a time has the state, wherever it runs: see `State::borrowed_by`. So it is handed from thread to thread, which a
// `Send` state may be, and never shared.
unsafe impl<S: Send> Sync for State<S> {}

impl<S> State<S> {
    /// Has a task borrow the state. It is to be a task of the sequence that the state belongs to.
    fn borrowed_by<R>(&self, task: impl FnOnce(&mut S) -> R) -> R {
        let was_borrowed = cfg!(debug_assertions) && self.is_borrowed.swap(true, Ordering::Acquire);
        debug_assert!(!was_borrowed, "taskenv: two tasks of one sequence run at once");
        let _borrow = Borrow(&self.is_borrowed);
        // SAFETY: nobody else has the state. Only closures that this module posts come here, and all of one state go to one runner,
        // whose tasks run singly: between the core's answer that a seat takes such a task and the call by which the seat says that
        // it has ended, the core has nobody take another one (docs/model.md, "Sequences, seats and cells"; it is proved of every
        // history). The closure is called after the former and is gone before the latter (`Host::run_task`), and in it the state
        // is borrowed once. What a task wrote the next one sees, since both calls are made under the environment's lock.
        task(unsafe { &mut *self.value.get() })
    }
}

/// Says at its end that nobody has the state.
struct Borrow<'s>(&'s AtomicBool);

impl Drop for Borrow<'_> {
    fn drop(&mut self) {
        self.0.store(false, Ordering::Release);
    }
}

impl<S: Send + 'static> Sequence<S> {
    /// The runner's tasks run one after the other.
    pub(crate) fn new(runner: Runner, state: S) -> Sequence<S> {
        Sequence { runner, state: Arc::new(State { value: UnsafeCell::new(state), is_borrowed: AtomicBool::new(false) }) }
    }
    /// The runner, for tasks that need no state. They too run one after the other with the sequence's tasks.
    pub fn runner(&self) -> &Runner {
        &self.runner
    }
    /// Posts a task, which borrows the state.
    pub fn post(&self, task: impl FnOnce(&mut S) + Send + 'static) -> Result<(), Refused> {
        self.runner.post(self.with_state(task))
    }
    /// The same, to start no earlier than after the delay: see [`Runner::post_delayed`].
    pub fn post_delayed(&self, task: impl FnOnce(&mut S) + Send + 'static, delay: Duration) -> Result<DelayedTask, Refused> {
        self.runner.post_delayed(self.with_state(task), delay)
    }
    /// Posts a task, which borrows the state, and then, from its end, a reply with its result: see [`Runner::post_and_reply`].
    pub fn post_and_reply<R: Send + 'static>(
        &self,
        task: impl FnOnce(&mut S) -> R + Send + 'static,
        back: &Runner,
        reply: impl FnOnce(R) + Send + 'static,
    ) -> Result<(), Refused> {
        self.runner.post(replying(self.with_state(task), back.clone(), reply))
    }

    fn with_state<R>(&self, task: impl FnOnce(&mut S) -> R + Send + 'static) -> impl FnOnce() -> R + Send + 'static {
        let state = Arc::clone(&self.state);
        move || state.borrowed_by(task)
    }
}

impl<S> Clone for Sequence<S> {
    fn clone(&self) -> Sequence<S> {
        Sequence { runner: self.runner.clone(), state: Arc::clone(&self.state) }
    }
}
