//! Queues of the main thread, and their voters.

use crate::abi::{Call, Request};
use crate::host::Home;
use crate::runner::Runner;
use crate::sequence::Sequence;
use crate::words::{FenceAt, NoRoom};
use std::sync::Arc;

/// A queue of the main thread. Clones are the same queue. All but posts are driver's calls: asked for within a main task they are made
/// at its end, so a fence at [`FenceAt::Now`] that a main task sets is also before what the rest of the task posts.
#[derive(Clone)]
pub struct MainQueue {
    home: Arc<Home>,
}

impl MainQueue {
    pub(crate) fn new(home: Arc<Home>) -> MainQueue {
        MainQueue { home }
    }
    /// The runner that posts to the queue.
    pub fn runner(&self) -> Runner {
        Runner::new(Arc::clone(&self.home))
    }
    /// A state that tasks of this queue borrow. (All main tasks run on one thread, one after the other.)
    pub fn sequence<S: Send + 'static>(&self, state: S) -> Sequence<S> {
        Sequence::new(self.runner(), state)
    }
    /// Sets a fence: what is after it doesn't start. A later fence is in place of an earlier one.
    pub fn insert_fence(&self, at: FenceAt) {
        self.drive(Request::of(Call::Fence).word(at as u32));
    }
    /// Removes the fence, if there is one.
    pub fn remove_fence(&self) {
        self.drive(Request::of(Call::Unfence));
    }
    /// Puts the queue in another class, from 0, which goes first, to 7.
    ///
    /// # Panics
    /// Where the class is above 7.
    pub fn set_class(&self, class: u32) {
        require_class(class);
        self.drive(Request::of(Call::Rank).word(class));
    }
    /// Has the queue refuse all posts from then on. Tasks that have not started never run, and are destroyed by the thread that makes
    /// the call.
    pub fn close(&self) {
        self.drive(Request::of(Call::Close));
    }
    /// A voter of the queue, which votes that it is enabled.
    pub fn create_voter(&self) -> Result<Voter, NoRoom> {
        let number = self.home.host.take_voter(self.home.number)?;
        Ok(Voter { home: Arc::clone(&self.home), number })
    }

    fn drive(&self, wanted: Request) {
        self.home.host.hold().drive(wanted.place(self.home.number));
    }
}

/// There are 8 classes.
pub(crate) fn require_class(class: u32) {
    assert!(class <= 7, "taskenv: a main queue's class is 0 to 7");
}

/// A voter of a main queue, which runs tasks only while all its voters vote that it does. At its end it votes so.
pub struct Voter {
    home: Arc<Home>,
    number: u32,
}

impl Voter {
    /// Votes whether the queue runs tasks. This is a driver's call.
    pub fn vote(&self, on: bool) {
        let wanted = Request { on: u32::from(on), ..Request::of(Call::Vote).place(self.home.number).word(self.number) };
        self.home.host.hold().drive(wanted);
    }
}

impl Drop for Voter {
    fn drop(&mut self) {
        self.home.host.give_back_voter(self.home.number, self.number);
    }
}
