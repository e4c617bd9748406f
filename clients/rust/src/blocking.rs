//! Blocking scopes.

use crate::current::{self, Current};
use crate::host::Host;
use crate::words::Scope;

/// Has this thread's task be in a blocking scope while the body runs, so that another task may run meanwhile. Within another scope it
/// changes nothing, but one that will block makes the other one count as such. In main tasks, in jobs and outside of tasks it has no
/// effect.
///
/// # Panics
/// Where the task's traits don't say that it may block.
pub fn blocking<R>(scope: Scope, body: impl FnOnce() -> R) -> R {
    let _open = Open::new(scope);
    body()
}

/// A scope that is open, if it counts.
struct Open {
    counts: bool,
}

impl Open {
    fn new(scope: Scope) -> Open {
        let now = Current::get();
        let Some(home) = current::home().filter(|_| now.seat != 0) else { return Open { counts: false } };
        let rises = now.scopes > 0 && scope == Scope::WillBlock && now.scope == Scope::MayBlock;
        if rises {
            home.host.close_scope(now.seat);
        }
        let opens = rises || now.scopes == 0;
        if opens {
            open(&home.host, now.seat, scope);
        }
        Current::set_scopes(now.scopes + 1, if opens { scope } else { now.scope });
        Open { counts: true }
    }
}

fn open(host: &Host, seat: u32, scope: Scope) {
    assert!(host.open_scope(seat, scope), "taskenv: a task with a blocking scope has traits that say it may block");
}

impl Drop for Open {
    fn drop(&mut self) {
        let now = Current::get();
        if !self.counts {
            return;
        }
        Current::set_scopes(now.scopes - 1, now.scope);
        if let Some(home) = current::home().filter(|_| now.scopes == 1) {
            home.host.close_scope(now.seat);
        }
    }
}
