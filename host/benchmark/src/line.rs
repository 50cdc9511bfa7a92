//! A capture heard in runs, as a serial line hands it over, with a listener for
//! each exchange. It goes as in examples/listen.rs: each listener begins at a
//! byte that is no SYN, is fed no further than the next SYN, and is dropped
//! where that is no answer; behind a refusal the bytes through SYN are passed
//! over.

use moortinker::sys;
use second::Listener;

use crate::feed;
use crate::judge::{Answer, Buffers};
use crate::walk::Tell;

const SYN: u8 = 0xAA;

/// A listener of either side.
pub trait Ear {
    type Answer;
    fn fresh() -> Self;
    fn feed(&mut self, run: &[u8]) -> usize;
    fn has_answered(&self) -> bool;
    fn close(&mut self, buffers: &mut Buffers) -> Self::Answer;
}

impl Ear for sys::Listening {
    type Answer = sys::Judged;

    fn fresh() -> Self {
        // SAFETY: no pointer is handed over.
        unsafe { sys::moor_listen() }
    }

    fn feed(&mut self, run: &[u8]) -> usize {
        // SAFETY: the pointer comes with its length.
        let fed = unsafe { sys::moor_feed(*self, run.as_ptr(), run.len()) };
        *self = fed.state;
        fed.used
    }

    fn has_answered(&self) -> bool {
        // SAFETY: no pointer is handed over.
        unsafe { sys::moor_has_answered(*self) }
    }

    fn close(&mut self, buffers: &mut Buffers) -> sys::Judged {
        feed::close(*self, buffers)
    }
}

impl Ear for Listener {
    type Answer = Answer;

    fn fresh() -> Self {
        Listener::new()
    }

    fn feed(&mut self, run: &[u8]) -> usize {
        Listener::feed(self, run)
    }

    fn has_answered(&self) -> bool {
        Listener::has_answered(self)
    }

    fn close(&mut self, buffers: &mut Buffers) -> Answer {
        Listener::close(
            self,
            &mut buffers.command,
            &mut buffers.reply_1,
            &mut buffers.reply_2,
        )
    }
}

/// What is going on on the line.
enum Hearing<E> {
    Idle,
    /// An exchange that started at this byte of the capture.
    Exchange(usize, E),
    /// What is left of an exchange that was refused.
    Rest,
}

/// Hears a capture in runs of this length and tells of each exchange.
pub fn hear_in_runs<E: Ear, const LENGTH: usize>(capture: &[u8], tell: Tell<E::Answer>) {
    let mut buffers = Buffers::default();
    let mut hearing = Hearing::Idle;
    let mut heard = 0;
    for run in capture.chunks(LENGTH) {
        let mut run = run;
        while !run.is_empty() {
            let used = match &mut hearing {
                Hearing::Idle => {
                    let syns = run.iter().take_while(|&&byte| byte == SYN).count();
                    if syns < run.len() {
                        hearing = Hearing::Exchange(heard + syns, E::fresh());
                    }
                    syns
                }
                Hearing::Exchange(start, ear) => {
                    let used = ear.feed(&run[..through_syn(run)]);
                    let answered = ear.has_answered();
                    if answered {
                        tell(*start, ear.close(&mut buffers), &buffers);
                    }
                    if run[used - 1] == SYN {
                        hearing = Hearing::Idle;
                    } else if answered {
                        hearing = Hearing::Rest;
                    }
                    used
                }
                Hearing::Rest => {
                    let passed = through_syn(run);
                    if run[passed - 1] == SYN {
                        hearing = Hearing::Idle;
                    }
                    passed
                }
            };
            heard += used;
            run = &run[used..];
        }
    }
    if let Hearing::Exchange(start, mut ear) = hearing {
        tell(start, ear.close(&mut buffers), &buffers);
    }
}

/// How many bytes there are through the next SYN; all where there is none.
fn through_syn(run: &[u8]) -> usize {
    let before = run.iter().take_while(|&&byte| byte != SYN).count();
    run.len().min(before + 1)
}
