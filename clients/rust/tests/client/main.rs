//! Tests of the client: one for each feature, misuse, and a random program. Where `TASKENV_LOGS` names a folder, each environment's
//! recording is written to it, for the judge.

mod features;
mod misuses;
mod random;

use std::fs;
use std::ops::Deref;
use std::path::Path;
use std::sync::atomic::{AtomicU32, Ordering};
use std::sync::{Arc, Condvar, Mutex};
use std::time::{Duration, Instant};
use taskenv::{Behaviour, Builder, Environment, Handle, JobSlots, JobTraits, Priority, Record, Traits};

/// Usual traits.
pub const SKIPS: Traits = Traits::new().priority(Priority::UserVisible);
/// Those of a task that blocks shutdown, and may block.
pub const BLOCKS: Traits = SKIPS.behaviour(Behaviour::BlockShutdown).may_block();

/// Small options: what most tests need.
pub fn small(worker_threads: u32) -> Builder {
    let builder = Environment::builder().worker_threads(worker_threads).posts(2048);
    builder.sequenced_runners(8).single_thread_runners(1).main_queues(4)
}

/// Jobs like those of `JobTraits::of_items`: one of each size, from the least up to the most, which double.
pub fn slots(least: u32, most: u32, most_at_once: u32) -> JobSlots {
    let JobTraits { priority, behaviour, .. } = JobTraits::of_items(0);
    JobSlots { priority, behaviour, least, most, of_each: 1, most_at_once }
}

/// An environment whose recording is kept at its end, if `TASKENV_LOGS` says so.
pub struct Kept {
    environment: Option<Environment>,
    handle: Handle,
    name: String,
}

pub fn open(builder: Builder) -> Kept {
    static OPENED: AtomicU32 = AtomicU32::new(0);
    let test = std::thread::current().name().unwrap_or("test").replace("::", "-");
    open_as(builder, &format!("{test}-{}", OPENED.fetch_add(1, Ordering::Relaxed)))
}

/// The same with this name in place of the test's.
pub fn open_as(builder: Builder, name: &str) -> Kept {
    let builder = if std::env::var_os("TASKENV_LOGS").is_some() { builder.record(Record::All) } else { builder };
    let environment = builder.open().unwrap();
    Kept { handle: environment.handle().clone(), environment: Some(environment), name: name.to_owned() }
}

impl Deref for Kept {
    type Target = Environment;
    fn deref(&self) -> &Environment {
        self.environment.as_ref().unwrap()
    }
}

impl Drop for Kept {
    fn drop(&mut self) {
        drop(self.environment.take());
        if let (Some(folder), Some(recording)) = (std::env::var_os("TASKENV_LOGS"), self.handle.recording()) {
            fs::write(Path::new(&folder).join(format!("{}.open", self.name)), recording).unwrap();
        }
    }
}

/// Opens once for all who wait.
#[derive(Clone, Default)]
pub struct Gate(Arc<(Mutex<bool>, Condvar)>);

impl Gate {
    pub fn open(&self) {
        *self.0.0.lock().unwrap() = true;
        self.0.1.notify_all();
    }
    pub fn wait(&self) {
        drop(self.0.1.wait_while(self.0.0.lock().unwrap(), |is_open| !*is_open).unwrap());
    }
}

/// A list that several threads add to.
#[derive(Clone, Default)]
pub struct Seen(Arc<Mutex<Vec<u64>>>);

impl Seen {
    pub fn see(&self, what: u64) {
        self.0.lock().unwrap().push(what);
    }
    /// A closure that adds to the list.
    pub fn sees(&self, what: u64) -> impl FnOnce() + Send + 'static {
        let seen = self.clone();
        move || seen.see(what)
    }
    /// What was added since it was asked last.
    pub fn take(&self) -> Vec<u64> {
        std::mem::take(&mut self.0.lock().unwrap())
    }
}

/// Waits until it holds; fails where that takes long.
pub fn until(holds: impl Fn() -> bool) {
    let start = Instant::now();
    while !holds() {
        assert!(start.elapsed() < Duration::from_secs(60), "it doesn't come");
        std::thread::sleep(Duration::from_millis(1));
    }
}

/// Whether a call panics, as misuse does.
pub fn panics(call: impl FnOnce()) -> bool {
    std::panic::catch_unwind(std::panic::AssertUnwindSafe(call)).is_err()
}
