//! The interface of the core, `taskenv.h`: its codes, what is asked and answered, and the core itself. All `extern` calls are here.

use std::mem::MaybeUninit;
use std::os::raw::c_uchar;

/// What is asked of the core, by the codes of `live_call_code`.
#[derive(Clone, Copy, Debug)]
#[repr(u32)]
pub(crate) enum Call {
    Post = 1,
    Main,
    Tick,
    Take,
    End,
    Enter,
    Leave,
    Policy,
    Reprio,
    Fence,
    Unfence,
    Vote,
    Rank,
    Close,
    MainTake,
    MainEnd,
    JobPost,
    JobTake,
    JobStep,
    JobCancel,
    Cancelled,
    Joined,
    Idle,
    Shutdown,
    Done,
}

/// What came of a request, by the codes of `live_status`.
pub(crate) mod status {
    pub(crate) const MADE: u32 = 0;
    pub(crate) const FULL: u32 = 2;
    pub(crate) const NOTHING: u32 = 3;
    pub(crate) const OVER: u32 = 4;
    pub(crate) const NOT_YET: u32 = 5;
    pub(crate) const BLOCKED: u32 = 6;
    pub(crate) const RESTS: u32 = 7;
}

/// The kinds of entries, by the codes of `live_kind`.
pub(crate) mod kind {
    pub(crate) const POST: u32 = 1;
    pub(crate) const MAIN: u32 = 2;
    pub(crate) const TICK: u32 = 3;
    pub(crate) const TAKE: u32 = 4;
    pub(crate) const END: u32 = 5;
    pub(crate) const ENTER: u32 = 6;
    pub(crate) const LEAVE: u32 = 7;
    pub(crate) const POLICY: u32 = 8;
    pub(crate) const REPRIO: u32 = 9;
    pub(crate) const FENCE: u32 = 10;
    pub(crate) const UNFENCE: u32 = 11;
    pub(crate) const VOTE: u32 = 12;
    pub(crate) const RANK: u32 = 13;
    pub(crate) const CLOSE: u32 = 14;
    pub(crate) const MAIN_TAKE: u32 = 15;
    pub(crate) const MAIN_END: u32 = 16;
    pub(crate) const MAIN_NONE: u32 = 17;
    pub(crate) const JOB_POST: u32 = 18;
    pub(crate) const JOB_TAKE: u32 = 19;
    pub(crate) const JOB_STEP: u32 = 20;
    pub(crate) const JOB_CANCEL: u32 = 21;
    pub(crate) const CANCELLED: u32 = 22;
    pub(crate) const JOINED: u32 = 23;
    pub(crate) const IDLE: u32 = 24;
    pub(crate) const SHUTDOWN: u32 = 25;
    pub(crate) const DONE: u32 = 26;
}

/// Whom to wake, by the codes of `live_wake`.
pub(crate) mod wake {
    pub(crate) const ONE: u32 = 1;
    pub(crate) const EVERYONE: u32 = 2;
}

/// The reply of a job that is finished, of `live_reply`, and the ones after it.
pub(crate) mod reply {
    pub(crate) const FINISHED: u32 = 1;
    pub(crate) const CANCELLED: u32 = 2;
    pub(crate) const STOPPED: u32 = 3;
}

/// No task, where a request could name one.
const NO_TASK: u32 = u32::MAX;

/// `struct live_request`.
#[derive(Clone, Copy, Debug)]
#[repr(C)]
pub(crate) struct Request {
    pub(crate) call: u32,
    pub(crate) rests: u32,
    pub(crate) by: u32,
    pub(crate) seat: u32,
    pub(crate) task: u32,
    pub(crate) place: u32,
    pub(crate) word: u32,
    pub(crate) on: u32,
    pub(crate) time: u64,
}

impl Request {
    /// The driver's request of this call, which names nothing yet.
    pub(crate) const fn of(call: Call) -> Request {
        Request { call: call as u32, rests: 0, by: 0, seat: 0, task: NO_TASK, place: 0, word: 0, on: 0, time: 0 }
    }
    pub(crate) const fn seat(self, seat: u32) -> Request {
        Request { seat, ..self }
    }
    pub(crate) const fn place(self, place: u32) -> Request {
        Request { place, ..self }
    }
    pub(crate) const fn word(self, word: u32) -> Request {
        Request { word, ..self }
    }
    pub(crate) const fn time(self, time: u64) -> Request {
        Request { time, ..self }
    }
}

/// `struct live_answer`.
#[derive(Clone, Copy, Debug, Default)]
#[repr(C)]
pub(crate) struct Answer {
    pub(crate) status: u32,
    pub(crate) kind: u32,
    pub(crate) task: u32,
    pub(crate) place: u32,
    pub(crate) id: u32,
    pub(crate) item: u32,
    pub(crate) next: u32,
    pub(crate) word: u32,
    pub(crate) ok: u32,
    pub(crate) count: u32,
    pub(crate) ready: u32,
    pub(crate) wake: u32,
    pub(crate) woken: u32,
    pub(crate) value: u64,
}

/// `struct live_opened`: why a plan was not opened.
#[derive(Clone, Copy, Debug, Default)]
#[repr(C)]
pub(crate) struct Opened {
    pub(crate) reason: u32,
    pub(crate) line: u32,
    pub(crate) number: u32,
}

/// The reasons of `live_opening` that are told apart.
pub(crate) mod opening {
    pub(crate) const OPENED: u32 = 0;
    pub(crate) const OUT_OF_MEMORY: u32 = 1;
}

// As a C compiler lays them out: numbers of 32 bits, then one of 64 that is aligned to 8.
const _: () = assert!(size_of::<Request>() == 40 && size_of::<Answer>() == 64 && size_of::<Opened>() == 12);

unsafe extern "C" {
    fn live_size() -> usize;
    fn live_open(room: *mut c_uchar, plan: *const c_uchar, length: usize, opened: *mut Opened) -> u32;
    fn live_call(core: *mut c_uchar, request: *const Request, answer: *mut Answer);
    fn live_close(core: *mut c_uchar);
}

/// Sixteen bytes of a core's memory, aligned as it has to be.
#[repr(C, align(16))]
struct Chunk([u8; 16]);

/// A core that is open. It is memory that is its own, so any thread may have it, one at a time.
pub(crate) struct Core {
    room: Box<[MaybeUninit<Chunk>]>,
}

impl Core {
    /// Opens the environment of a plan, or tells why it doesn't.
    pub(crate) fn open(plan: &str) -> Result<Core, Opened> {
        // SAFETY: it has no conditions.
        let size = unsafe { live_size() };
        let mut room = Box::new_uninit_slice(size.div_ceil(size_of::<Chunk>()));
        let mut opened = Opened::default();
        // SAFETY: the memory has `live_size` bytes, aligned to 16, and is nobody else's; the plan and `opened` lie apart from it.
        let reason = unsafe { live_open(room.as_mut_ptr().cast(), plan.as_ptr(), plan.len(), &raw mut opened) };
        if reason == opening::OPENED { Ok(Core { room }) } else { Err(Opened { reason, ..opened }) }
    }

    /// Does what is asked, and answers it.
    pub(crate) fn call(&mut self, request: &Request) -> Answer {
        let mut answer = Answer::default();
        // SAFETY: the core is open as long as `self` lives; `&mut` has calls come one at a time; what lies beside is of this call.
        unsafe { live_call(self.room.as_mut_ptr().cast(), request, &raw mut answer) };
        answer
    }
}

impl Drop for Core {
    fn drop(&mut self) {
        // SAFETY: the core is open, and nothing comes after its drop.
        unsafe { live_close(self.room.as_mut_ptr().cast()) };
    }
}
