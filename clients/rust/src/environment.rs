//! Environments: what is the main thread's, and what any thread may ask for.

use crate::abi::{Call, Request};
use crate::builder::{Builder, Options, microseconds};
use crate::host::{Home, Host, Sort};
use crate::job::{Job, JobHandle, JobItem};
use crate::main_queue::{MainQueue, require_class};
use crate::runner::Runner;
use crate::sequence::Sequence;
use crate::words::{JobTraits, NoRoom, OpenError, Policy, Refused, Traits};
use std::marker::PhantomData;
use std::ops::Deref;
use std::process::abort;
use std::sync::Arc;
use std::sync::atomic::AtomicBool;
use std::thread::{self, JoinHandle};
use std::time::Duration;

/// An environment. The thread that opens it is its main thread, and alone may run loops, wait, shut it down and drop it, which it does
/// outside of main tasks; so it can't be sent to another one. What any thread may ask for, its [`Handle`] has. When it is dropped, it
/// shuts down, and waits for all threads, also for running tasks that shutdown doesn't wait for. (Dropped by one of its own main tasks
/// it would wait for itself: there the process ends.)
///
/// ```compile_fail,E0277
/// let environment = taskenv::Environment::builder().open().unwrap();
/// std::thread::spawn(move || environment.run_until_idle());
/// ```
pub struct Environment {
    handle: Handle,
    threads: Vec<JoinHandle<()>>,
    /// Pointers are neither `Send` nor `Sync`.
    stays_here: PhantomData<*const ()>,
}

/// What any thread may ask an environment for. Clones are of the same one. It may outlive its environment: then all posts are refused.
///
/// Some calls are the main thread's, and the core takes them only while the main thread runs no main task and no item of a job: a new
/// priority for a runner (which making one may need), the policy, all that is done to a main queue but posts, and the post and the
/// cancel of a job. Any thread may ask for these **driver's calls**. While the main thread is at work they are kept in a list, in
/// order, and made as soon as its task or item has ended. Once shutdown is done they have no effect.
#[derive(Clone)]
pub struct Handle {
    host: Arc<Host>,
}

impl Handle {
    /// Posts to tasks that may run at the same time as each other, in any order.
    pub fn runner(&self, traits: Traits) -> Runner {
        Runner::new(self.host.parallel_runner(traits))
    }
    /// Posts to tasks that run one after the other, in order.
    pub fn sequenced_runner(&self, traits: Traits) -> Result<Runner, NoRoom> {
        self.host.sequenced_runner(traits).map(Runner::new)
    }
    /// The same, all on one worker thread.
    pub fn single_thread_runner(&self, traits: Traits) -> Result<Runner, NoRoom> {
        self.host.single_thread_runner(traits).map(Runner::new)
    }
    /// A sequenced runner with a state that its tasks borrow.
    pub fn sequence<S: Send + 'static>(&self, traits: Traits, state: S) -> Result<Sequence<S>, NoRoom> {
        Ok(Sequence::new(self.sequenced_runner(traits)?, state))
    }
    /// A single-thread runner with a state that its tasks borrow.
    pub fn single_thread_sequence<S: Send + 'static>(&self, traits: Traits, state: S) -> Result<Sequence<S>, NoRoom> {
        Ok(Sequence::new(self.single_thread_runner(traits)?, state))
    }
    /// Posts a closure to the parallel runner of these traits.
    pub fn post(&self, traits: Traits, closure: impl FnOnce() + Send + 'static) -> Result<(), Refused> {
        self.runner(traits).post(closure)
    }
    /// The main thread's first queue, of class 3.
    pub fn main_queue(&self) -> MainQueue {
        MainQueue::new(self.first_queue())
    }
    /// The runner of the main thread's first queue.
    pub fn main_runner(&self) -> Runner {
        Runner::new(self.first_queue())
    }
    /// Another queue of the main thread, of a class from 0, which goes first, to 7. It is not given back.
    ///
    /// # Panics
    /// Where the class is above 7.
    pub fn make_main_queue(&self, class: u32) -> Result<MainQueue, NoRoom> {
        require_class(class);
        self.host.make_main_queue(class).map(MainQueue::new)
    }
    /// A job, to be posted: the smallest one of the plan that has this priority and behaviour, room for so many items, and no more
    /// threads that work on it at once. Each can be posted once.
    pub fn take_job(&self, traits: JobTraits) -> Result<Job, NoRoom> {
        self.host.take_job(&traits).map(|slot| Job::new(Arc::clone(&self.host), slot, traits.items))
    }
    /// Takes a job and starts it: see [`Job::start`]. This is a driver's call.
    pub fn post_job(&self, traits: JobTraits, work: impl Fn(&JobItem<'_>) + Send + Sync + 'static) -> Result<JobHandle, NoRoom> {
        self.take_job(traits).map(|job| job.start(work))
    }
    /// Says which work of the pool may start. From the start of shutdown on it has no effect. This is a driver's call.
    pub fn set_policy(&self, policy: Policy) {
        self.host.hold().drive(Request::of(Call::Policy).word(policy as u32));
    }
    /// The time since the environment was opened.
    pub fn now(&self) -> Duration {
        Duration::from_micros(self.host.now())
    }
    /// How often something can still be posted.
    pub fn posts_left(&self) -> u32 {
        self.host.posts_left()
    }
    /// Whether shutdown has begun, as for a task that may end early.
    pub fn has_shutdown_started(&self) -> bool {
        self.host.has_shutdown_started()
    }
    /// The plan, a line `%%`, and the log of all that happened so far: what `check --open` reads. Of [`Record::Last`](crate::Record)
    /// it is no log once entries were dropped. There is none without [`Builder::record`].
    pub fn recording(&self) -> Option<String> {
        self.host.recording()
    }

    fn first_queue(&self) -> Arc<Home> {
        self.host.home(Sort::MainQueue, 0)
    }
}

impl Deref for Environment {
    type Target = Handle;
    fn deref(&self) -> &Handle {
        &self.handle
    }
}

impl Environment {
    /// What there is room for, as it is unless something else is said.
    pub fn builder() -> Builder {
        Builder::new()
    }
    pub(crate) fn open(options: Options) -> Result<Environment, OpenError> {
        let host = Arc::new(Host::open(options)?);
        // Where a thread can't be started, this is dropped: the seats that have none have nothing to do, as nothing was posted.
        let mut environment =
            Environment { handle: Handle { host: Arc::clone(&host) }, threads: Vec::new(), stays_here: PhantomData };
        for seat in 1..host.guest() {
            environment.start(format!("taskenv {seat}"), move |host| host.work(seat))?;
        }
        if !host.has_mock_clock() {
            environment.start("taskenv time".to_owned(), |host| host.keep_time())?;
        }
        Ok(environment)
    }
    fn start(&mut self, name: String, work: impl FnOnce(&Host) + Send + 'static) -> Result<(), OpenError> {
        let host = Arc::clone(&self.host);
        let thread = thread::Builder::new().name(name).spawn(move || work(&host)).map_err(OpenError::NoThread)?;
        self.threads.push(thread);
        Ok(())
    }
    pub(crate) fn host(&self) -> &Arc<Host> {
        &self.handle.host
    }

    /// What any thread may ask for. (An environment also derefs to it.)
    pub fn handle(&self) -> &Handle {
        &self.handle
    }
    /// Waits until no task of the pool runs and none may start. It waits neither for delays nor for what the policy holds back.
    ///
    /// # Panics
    /// Where a main task calls it, as all that waits or runs main tasks here.
    pub fn flush(&self) {
        self.host.require_driver();
        self.host.await_entry(Request::of(Call::Idle));
    }
    /// Runs main tasks and waits for the pool, until neither has anything to do.
    pub fn run_until_idle(&self) {
        self.host.run_until_idle();
    }
    /// Moves the mock clock, from one moment to the next at which there is something to do, and does that.
    ///
    /// # Panics
    /// Without a [`Builder::mock_clock`].
    pub fn fast_forward_by(&self, delta: Duration) {
        assert!(self.host.has_mock_clock(), "taskenv: only a mock clock can be moved");
        self.host.fast_forward_by(microseconds(delta));
    }
    /// Begins shutdown, and waits until all is done that blocks it. No task starts after that, and no post is accepted. Once more is
    /// nothing.
    pub fn shutdown(&self) {
        self.host.shutdown();
    }
}

impl Drop for Environment {
    fn drop(&mut self) {
        if self.host.lock().driver_works {
            eprintln!("taskenv: an environment is dropped by one of its own main tasks");
            abort();
        }
        self.host.shutdown();
        for thread in self.threads.drain(..) {
            if thread.join().is_err() {
                abort(); // it has said why: a task's panic doesn't come this far
            }
        }
        self.host.close();
    }
}

/// Runs main tasks on the main thread, and sleeps where there are none. A main task can't run another loop.
pub struct RunLoop<'e> {
    environment: &'e Environment,
    quit: Quit,
}

/// Ends a loop, from any thread. Clones end the same one.
#[derive(Clone)]
pub struct Quit {
    host: Arc<Host>,
    is_asked: Arc<AtomicBool>,
}

impl<'e> RunLoop<'e> {
    /// A loop that has not been run.
    pub fn new(environment: &'e Environment) -> RunLoop<'e> {
        RunLoop { environment, quit: Quit { host: Arc::clone(environment.host()), is_asked: Arc::default() } }
    }
    /// What ends the loop.
    pub fn quit(&self) -> Quit {
        self.quit.clone()
    }
    /// Runs main tasks until it is told to quit, or shutdown is done.
    pub fn run(&self) {
        self.environment.host.run_until(&self.quit.is_asked);
    }
}

impl Quit {
    /// The loop returns after the main task that it runs, or at once.
    pub fn quit(&self) {
        self.host.quit(&self.is_asked);
    }
}
