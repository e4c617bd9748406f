//! A task environment for Rust. The notions are those of Chromium's `base/task`. A proved core, after `taskenv.h`, decides which task
//! may start, what is refused, and whom to wake. This crate brings the rest: threads, one lock, sleep, and closures.
//!
//! ```
//! use taskenv::{Environment, RunLoop, Traits};
//!
//! let environment = Environment::builder().open()?;
//! let run_loop = RunLoop::new(&environment);
//! let quit = run_loop.quit();
//! environment.runner(Traits::new()).post_and_reply(
//!     || 6 * 7,
//!     &environment.main_runner(),
//!     move |answer| {
//!         assert_eq!(answer, 42);
//!         quit.quit();
//!     },
//! )?;
//! run_loop.run();
//! # Ok::<(), Box<dyn std::error::Error>>(())
//! ```
//!
//! # What there is
//!
//! - [`Environment::builder`] says what there is room for, and opens an [`Environment`]. Its thread is the main thread, and its drop
//!   shuts down. What other threads may ask for is in its [`Handle`].
//! - [`Runner`]s are what closures are posted to: parallel, sequenced, on a single thread, or a [`MainQueue`]'s. A [`Sequence`] is one
//!   with a state that each task borrows.
//! - [`blocking`] says that a task blocks, so that another one may run meanwhile. A [`Job`] has as many items as one asks for, which
//!   several threads take. [`Record`] says what is kept of what happens.
//! - [`RunLoop`], [`Environment::run_until_idle`], [`Environment::flush`] and a mock clock are the main thread's.
//!
//! # What always holds
//!
//! - No closure runs, and none is destroyed, while the lock is held. A closure's task has its number from the core; it is run by the
//!   thread whose seat took that number, and is destroyed before that seat says that the task has ended.
//! - A panic that leaves a task or an item of a job goes to the handler of [`Builder::on_panic`], or ends the process.
//! - A call that nobody may make, and that types can't refuse, panics: each says so under "Panics".
//!
//! # How to build it
//!
//! It needs nothing but the standard library and the core. The environment variable `TASKENV_LIBRARY` names the folder with the core,
//! `libtaskenv.a`, which `./taskenv --library` makes. `cargo test` writes each test's recording to the folder that `TASKENV_LOGS` names,
//! if it is set: logs to `NAME.open`, as `check --open` reads them, and last entries, which it refuses, to `NAME.refused`.
//! `TASKENV_SEEDS` says how many random programs there are.
//!
//! # How to read it
//!
//! `abi` is the C interface, and has all its `extern` calls. `plan` writes which runners there are, `recorder` the log. `host` holds the
//! core; `held` makes each call of it, which it can only while the lock is held; `threads` has the loops. The other modules are what
//! users hold. Besides `abi`, `sequence` and `job` have what is `unsafe`, and say why it is sound; it rests on what is proved of the core.

#![warn(missing_docs)]

mod abi;
mod blocking;
mod builder;
mod current;
mod environment;
mod held;
mod host;
mod job;
mod main_queue;
mod plan;
mod recorder;
mod runner;
mod sequence;
mod threads;
mod words;

pub use blocking::blocking;
pub use builder::Builder;
pub use environment::{Environment, Handle, Quit, RunLoop};
pub use job::{Job, JobHandle, JobItem};
pub use main_queue::{MainQueue, Voter};
pub use runner::{DelayedTask, Runner};
pub use sequence::Sequence;
pub use words::{
    Behaviour, FenceAt, JobReply, JobSlots, JobTraits, MOST_INSIDE_A_JOB, NoRoom, OpenError, Policy, Priority, Record,
};
pub use words::{Refused, Scope, Traits};
