//! Jobs: so many items, which several threads take one by one. Each is a job of the plan that has room for them, which is posted once.
//! Where the plan's job has more items, those after the last one that was asked for are empty runs.

use crate::abi::reply;
use crate::environment::Environment;
use crate::host::Host;
use crate::plan::JobSlot;
use crate::words::JobReply;
use std::process::abort;
use std::sync::Arc;
use std::sync::atomic::{AtomicBool, Ordering};

/// What the work of a job sees of the item that it is called for.
#[derive(Debug)]
pub struct JobItem<'w> {
    pub(crate) index: u32,
    pub(crate) worker: u32,
    pub(crate) yields: &'w AtomicBool,
}

impl JobItem<'_> {
    /// Which item it is, from 0.
    pub fn index(&self) -> usize {
        self.index as usize
    }
    /// A number that nobody else has who works on the job at this moment, the least one that was free.
    pub fn worker(&self) -> usize {
        self.worker as usize
    }
    /// Whether what is left of the item is not wanted any more: the job was cancelled, or is one that shutdown stops. (Whether the
    /// thread makes way for work of a higher priority, the core decides between items.)
    pub fn should_yield(&self) -> bool {
        self.yields.load(Ordering::Relaxed)
    }
}

/// What a job does with each item, and how many there are.
#[derive(Clone)]
pub(crate) struct Work {
    function: Function,
    pub(crate) items: u32,
}

#[derive(Clone)]
enum Function {
    Owned(Arc<dyn Fn(&JobItem<'_>) + Send + Sync>),
    Borrowed(Borrowed),
}

impl Work {
    pub(crate) fn call(&self, item: &JobItem<'_>) {
        match &self.function {
            Function::Owned(work) => work(item),
            // SAFETY: `Job::run` says why what is borrowed is there.
            Function::Borrowed(borrowed) => unsafe { (borrowed.call)(borrowed.work, item) },
        }
    }
}

/// A work that lies on the stack of who runs the job, and how it is called.
#[derive(Clone, Copy)]
pub(crate) struct Borrowed {
    work: *const (),
    call: unsafe fn(*const (), &JobItem<'_>),
}

// SAFETY: it is made of a work that is `Sync`, so other threads may call it.
unsafe impl Send for Borrowed {}

impl Borrowed {
    fn of<W: Fn(&JobItem<'_>) + Sync>(work: &W) -> Borrowed {
        /// Its first argument is a work that is there.
        unsafe fn call<W: Fn(&JobItem<'_>)>(work: *const (), item: &JobItem<'_>) {
            // SAFETY: as it says.
            unsafe { (*work.cast::<W>())(item) }
        }
        Borrowed { work: std::ptr::from_ref(work).cast(), call: call::<W> }
    }
}

/// A job that has not been posted: [`Handle::take_job`](crate::Handle::take_job) makes it. Where it is dropped, the plan's job can be
/// taken again.
pub struct Job {
    host: Arc<Host>,
    slot: JobSlot,
    items: u32,
    is_posted: bool,
}

impl Drop for Job {
    fn drop(&mut self) {
        if !self.is_posted {
            self.host.give_back_job(self.slot);
        }
    }
}

impl Job {
    pub(crate) fn new(host: Arc<Host>, slot: JobSlot, items: u32) -> Job {
        Job { host, slot, items, is_posted: false }
    }
    fn post(&mut self, function: Function) {
        self.is_posted = true;
        self.host.post_job(self.slot, Work { function, items: self.items });
    }

    /// Does all items, and returns when nobody works on the job any more. The work is called once for each item, by several threads
    /// at once, of which this one is one. It may borrow from the caller's stack. The environment is the job's own.
    ///
    /// ```
    /// # use taskenv::{Environment, JobReply, JobTraits};
    /// # use std::sync::atomic::{AtomicU64, Ordering};
    /// let environment = Environment::builder().open()?;
    /// let (numbers, sum) = ((0..100).collect::<Vec<u64>>(), AtomicU64::new(0));
    /// let reply = environment.take_job(JobTraits::of_items(100))?.run(&environment, |item| {
    ///     sum.fetch_add(numbers[item.index()], Ordering::Relaxed);
    /// });
    /// assert_eq!((reply, sum.into_inner()), (JobReply::Done, 4950));
    /// # Ok::<(), Box<dyn std::error::Error>>(())
    /// ```
    ///
    /// # Panics
    /// Where a main task runs it, or the environment is another one.
    pub fn run(mut self, environment: &Environment, work: impl Fn(&JobItem<'_>) + Sync) -> JobReply {
        require_same(&self.host, environment);
        self.host.require_driver();
        // Why what is borrowed is there whenever it is called. Only a seat calls it that the core counts as inside the job, which
        // it is from its take of an item to the step by which it leaves. That the job is joined, the core says only where nobody is
        // inside, and with a reply after which nobody enters: all items are done, or it was refused, cancelled or stopped
        // (docs/model.md, "Jobs"). No reply comes where shutdown was done before, since only this thread, which is here, ends one:
        // there the job wasn't posted. By then the work is gone from the table. No panic leaves this function earlier: those of items
        // are caught, and where another one came, `guard` would end the process.
        let guard = AbortOnUnwind;
        self.post(Function::Borrowed(Borrowed::of(&work)));
        let reply = self.host.join_job(self.slot.number);
        std::mem::forget(guard);
        reply.unwrap_or(JobReply::Refused)
    }

    /// Starts the job: the work is called once for each item, by several threads at once. This is a driver's call. The work is dropped
    /// when the last item has ended, or the job is joined, or cancelled and waited for, and at the latest with the environment.
    pub fn start(mut self, work: impl Fn(&JobItem<'_>) + Send + Sync + 'static) -> JobHandle {
        self.post(Function::Owned(Arc::new(work)));
        JobHandle { host: Arc::clone(&self.host), number: self.slot.number }
    }
}

/// Ends the process where it is dropped, which only unwinding does.
struct AbortOnUnwind;

impl Drop for AbortOnUnwind {
    fn drop(&mut self) {
        abort();
    }
}

/// A job that was posted.
#[derive(Clone)]
pub struct JobHandle {
    host: Arc<Host>,
    number: u32,
}

impl JobHandle {
    /// The main thread works on the job too, until it has its reply. There is none to be had once shutdown is done.
    ///
    /// # Panics
    /// Where a main task calls it, or the environment is another one.
    pub fn join(&self, environment: &Environment) -> Option<JobReply> {
        require_same(&self.host, environment);
        self.host.join_job(self.number)
    }
    /// No further item is begun. This is a driver's call.
    pub fn cancel(&self) {
        self.host.cancel_job(self.number);
    }
    /// The same, and the main thread waits until nobody works on the job.
    ///
    /// # Panics
    /// Where a main task calls it, or the environment is another one.
    pub fn cancel_and_wait(&self, environment: &Environment) {
        require_same(&self.host, environment);
        self.host.cancel_job_and_wait(self.number);
    }
}

fn require_same(host: &Arc<Host>, environment: &Environment) {
    assert!(Arc::ptr_eq(host, environment.host()), "taskenv: the job is of another environment");
}

pub(crate) fn reply_of(word: u32) -> JobReply {
    match word {
        reply::FINISHED => JobReply::Done,
        reply::CANCELLED => JobReply::Cancelled,
        reply::STOPPED => JobReply::Stopped,
        _ => JobReply::Refused,
    }
}
