//! Runners, to which closures are posted, and what posts give back.

use crate::builder::microseconds;
use crate::current;
use crate::host::{Home, Host, Sort};
use crate::words::{Priority, Refused};
use std::fmt;
use std::sync::Arc;
use std::time::Duration;

/// Where tasks are posted, from any thread. Clones are the same runner. A runner may outlive its environment: then it refuses posts.
#[derive(Clone)]
pub struct Runner {
    home: Arc<Home>,
}

impl Runner {
    pub(crate) fn new(home: Arc<Home>) -> Runner {
        Runner { home }
    }
    /// The runner of the task that this thread runs. There is none in tasks of parallel runners, in jobs, and outside of tasks.
    pub fn current() -> Option<Runner> {
        current::home().filter(|home| home.sort != Sort::Parallel).map(Runner::new)
    }

    /// Posts a closure.
    pub fn post(&self, closure: impl FnOnce() + Send + 'static) -> Result<(), Refused> {
        self.home.host.post(&self.home, Box::new(closure), 0).map(drop)
    }
    /// Posts a closure, to start no earlier than after the delay. Of a delay above 0, shutdown treats a task that blocks it as one
    /// that it skips. Where the handle is dropped, the task runs all the same.
    pub fn post_delayed(&self, closure: impl FnOnce() + Send + 'static, delay: Duration) -> Result<DelayedTask, Refused> {
        let number = self.home.host.post(&self.home, Box::new(closure), microseconds(delay))?;
        Ok(DelayedTask { host: Arc::clone(&self.home.host), number })
    }
    /// Posts a task, and then, from its end, a reply with its result to another runner. Where that one refuses it, the reply and the
    /// result are destroyed on the task's thread.
    pub fn post_and_reply<R: Send + 'static>(
        &self,
        task: impl FnOnce() -> R + Send + 'static,
        back: &Runner,
        reply: impl FnOnce(R) + Send + 'static,
    ) -> Result<(), Refused> {
        self.post(replying(task, back.clone(), reply))
    }
    /// Whether what this thread does now runs one after the other with this runner's tasks: it is one of them; or it is the main
    /// thread, of a main queue. Tasks of a parallel runner never do.
    pub fn runs_tasks_in_current_sequence(&self) -> bool {
        match self.home.sort {
            Sort::MainQueue => self.home.host.is_main_thread(),
            Sort::Sequence => current::home().is_some_and(|home| Arc::ptr_eq(&home, &self.home)),
            Sort::Parallel => false,
        }
    }
    /// Gives the runner another priority, also for what waits. This is a driver's call.
    ///
    /// # Panics
    /// Where the runner is a parallel one, or a main queue's.
    pub fn update_priority(&self, priority: Priority) {
        self.home.host.update_priority(&self.home, priority);
    }
}

impl PartialEq for Runner {
    fn eq(&self, other: &Runner) -> bool {
        let (one, two) = (&self.home, &other.home);
        Arc::ptr_eq(&one.host, &two.host) && one.sort == two.sort && one.number == two.number
    }
}

impl Eq for Runner {}

impl fmt::Debug for Runner {
    fn fmt(&self, out: &mut fmt::Formatter<'_>) -> fmt::Result {
        let kind = match self.home.sort {
            Sort::Parallel => "parallel",
            Sort::Sequence => "sequence",
            Sort::MainQueue => "main queue",
        };
        write!(out, "Runner({kind} {})", self.home.number)
    }
}

/// A task that posts its reply.
pub(crate) fn replying<R: Send + 'static>(
    task: impl FnOnce() -> R + Send,
    back: Runner,
    reply: impl FnOnce(R) + Send + 'static,
) -> impl FnOnce() + Send {
    move || {
        let result = task();
        // Nobody is there to be told that the reply was refused, and nothing is to be done: it is gone.
        let _ = back.post(move || reply(result));
    }
}

/// What was posted with a delay.
pub struct DelayedTask {
    host: Arc<Host>,
    number: u32,
}

impl DelayedTask {
    /// Whether the task has neither started nor been cancelled, nor was dropped by shutdown or its queue's end.
    pub fn is_waiting(&self) -> bool {
        self.host.is_waiting(self.number)
    }
    /// Destroys the closure, on this thread, unless its task has started or is gone; answers whether it did. Its task is an empty
    /// run.
    pub fn cancel(&self) -> bool {
        self.host.cancel(self.number)
    }
}
