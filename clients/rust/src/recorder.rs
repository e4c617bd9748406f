//! The flight recorder: keeps the entries, all of them or the last ones, as the core's answers tell them, and writes them as a log
//! (docs/formats.md, version 2).

use crate::abi::{Answer, kind, reply};
use crate::words::{OpenError, Record};
use std::iter;

pub(crate) struct Recorder {
    keeps_all: bool,
    /// Where not all are kept, a ring: each place lies at its remainder.
    entries: Vec<(u32, Answer)>,
    noted: usize,
    /// There was no memory for an entry: the log ends before it, and lacks its total, so that it is known as cut.
    is_cut: bool,
}

impl Recorder {
    /// One that keeps what is wanted. It takes the memory for its ring.
    pub(crate) fn new(record: Record) -> Result<Option<Recorder>, OpenError> {
        let mut entries = Vec::new();
        if let Record::Last(count) = record {
            entries.try_reserve_exact(count).map_err(|_| OpenError::OutOfMemory)?;
            entries.extend(iter::repeat_n((0, Answer::default()), count));
        }
        let recorder = Recorder { keeps_all: record == Record::All, entries, noted: 0, is_cut: false };
        Ok(Some(recorder).filter(|_| record != Record::Off))
    }

    pub(crate) fn note(&mut self, seat: u32, entry: Answer) {
        if self.keeps_all {
            self.is_cut |= self.entries.try_reserve(1).is_err();
            if self.is_cut {
                return;
            }
            self.entries.push((seat, entry));
        } else if !self.entries.is_empty() {
            let place = self.noted % self.entries.len();
            self.entries[place] = (seat, entry);
        }
        self.noted += 1;
    }

    /// A log. Where entries were dropped it is none: the first line says so, the others keep their places, and there is no total.
    pub(crate) fn text(&self) -> String {
        let (first, noted) = (self.noted.saturating_sub(self.entries.len()), self.noted);
        let is_whole = first == 0;
        let mut log = if is_whole {
            String::from("taskenv log 2\n")
        } else {
            format!("taskenv last {} of {noted} entries\n", noted - first)
        };
        for place in first..noted {
            let (seat, entry) = &self.entries[place % self.entries.len()];
            log += &format!("{place} {seat} {}\n", words_of(entry));
        }
        if is_whole && !self.is_cut {
            log += &format!("total {noted}\n");
        }
        log
    }
}

/// The word of an entry, and its arguments.
fn words_of(did: &Answer) -> String {
    let Answer { task, place, id, item, next, word, value, .. } = *did;
    let ok = if did.ok == 0 { "no" } else { "ok" };
    match did.kind {
        kind::POST => format!("post {task} {place} {value} {ok}"),
        kind::MAIN => format!("main {task} {place} {value} {ok}"),
        kind::TICK => format!("tick {value}"),
        kind::TAKE => format!("take {task} {place} {value}"),
        kind::END => format!("end {task} {value}"),
        kind::ENTER => format!("block {task} {}", nth(["may", "will"], word)),
        kind::LEAVE => format!("unblock {task}"),
        kind::POLICY => format!("policy {}", nth(["all", "foreground", "none"], word)),
        kind::REPRIO => format!("reprio {place} {}", nth(["best_effort", "user_visible", "user_blocking"], word)),
        kind::FENCE => format!("fence {place} {}", nth(["now", "start"], word)),
        kind::UNFENCE => format!("unfence {place}"),
        kind::VOTE => format!("vote {place} {word} {}", if did.ok == 0 { "off" } else { "on" }),
        kind::RANK => format!("rank {place} {word}"),
        kind::CLOSE => format!("close {place}"),
        kind::MAIN_TAKE => format!("maintake {task} {place} {value}"),
        kind::MAIN_END => format!("mainend {task} {value}"),
        kind::MAIN_NONE => String::from("mainnone"),
        kind::JOB_POST => format!("startjob {place} {ok}"),
        kind::JOB_TAKE => format!("jobtake {place} {id} {item}"),
        kind::JOB_STEP if did.ok == 0 => format!("jobstep {place} {id} {item} {value} -"),
        kind::JOB_STEP => format!("jobstep {place} {id} {item} {value} {next}"),
        kind::JOB_CANCEL => format!("cancel {place}"),
        kind::CANCELLED => format!("cancelled {place}"),
        kind::JOINED if word == reply::FINISHED => format!("joined {place} done {value}"),
        kind::JOINED => format!("joined {place} {}", nth(["refused", "done", "cancelled", "stopped"], word)),
        kind::IDLE => String::from("idle"),
        kind::SHUTDOWN => String::from("shutdown"),
        kind::DONE => String::from("done"),
        _ => String::from("?"),
    }
}

/// The word that a number stands for. What no core answers is `?`.
fn nth<const N: usize>(words: [&'static str; N], number: u32) -> &'static str {
    words.get(number as usize).copied().unwrap_or("?")
}
