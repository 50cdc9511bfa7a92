//! Prints the answer to each exchange of a serial dump: the raw bytes of an
//! eBUS, read from standard input in runs of 64, as a serial line hands them
//! over.
//!
//!     cargo run --example listen <dump
//!
//! A listener hears one exchange. Behind the bytes that it used the next begins
//! afresh: after an exchange that was accepted that is behind its SYN; after a
//! refusal the bytes through the next SYN AA are passed over first, since no
//! exchange begins before it. That SYN may be the refused byte itself.
//!
//! A dump may start and end in idle time, and an initiator that gave way to
//! another leaves its address there. A listener passes over both by itself. Here
//! each begins at a byte that is no SYN, and is dropped where a SYN is no answer:
//! so each line names where in the dump its exchange starts, and idle time at
//! the end is no exchange that was cut off. The place of a refusal counts from
//! the start named.
//!
//! A dump that is in memory as a whole is walked by `ebus::exchanges`, which
//! gives the same starts and answers.

use std::io::{self, Read};

use moortinker::ebus::{Exchange, Listener};
use moortinker::Refusal;

const SYN: u8 = 0xAA;

fn main() -> io::Result<()> {
    let mut input = io::stdin().lock();
    let mut line = Line::new();
    let mut run = [0; 64];
    loop {
        match input.read(&mut run)? {
            0 => break,
            length => line.hear(&run[..length]),
        }
    }
    line.end();
    Ok(())
}

/// What is going on on the line.
enum Hearing {
    /// No exchange: it begins with the next byte that is no SYN.
    Idle,
    /// An exchange that started at this byte of the dump.
    Exchange(usize, Listener),
    /// What is left of an exchange that was refused.
    Rest,
}

/// The line, as far as it was heard.
struct Line {
    heard: usize,
    hearing: Hearing,
}

impl Line {
    fn new() -> Line {
        Line {
            heard: 0,
            hearing: Hearing::Idle,
        }
    }

    /// Hears a run, which may hold the end of one exchange and the start of
    /// another.
    fn hear(&mut self, mut run: &[u8]) {
        while !run.is_empty() {
            let used = match &mut self.hearing {
                Hearing::Idle => self.idle(run),
                Hearing::Exchange(start, listener) => {
                    let used = listener.feed(&run[..through_syn(run)]);
                    let answered = listener.has_answered();
                    if answered {
                        print(*start, listener.close());
                    }
                    // A SYN that is no answer has found no more than a source.
                    if run[used - 1] == SYN {
                        self.hearing = Hearing::Idle;
                    } else if answered {
                        self.hearing = Hearing::Rest;
                    }
                    used
                }
                Hearing::Rest => self.rest(run),
            };
            self.heard += used;
            run = &run[used..];
        }
    }

    /// Passes over SYN, and gives how many there were.
    fn idle(&mut self, run: &[u8]) -> usize {
        let syns = run.iter().take_while(|&&byte| byte == SYN).count();
        if syns < run.len() {
            self.hearing = Hearing::Exchange(self.heard + syns, Listener::new());
        }
        syns
    }

    /// Passes over bytes through the next SYN, and gives how many there were.
    fn rest(&mut self, run: &[u8]) -> usize {
        let passed = through_syn(run);
        if run[passed - 1] == SYN {
            self.hearing = Hearing::Idle;
        }
        passed
    }

    /// The dump has ended, and an exchange that goes on with it.
    fn end(self) {
        if let Hearing::Exchange(start, mut listener) = self.hearing {
            print(start, listener.close());
        }
    }
}

/// How many bytes there are through the next SYN; all where there is none.
fn through_syn(run: &[u8]) -> usize {
    let before = run.iter().take_while(|&&byte| byte != SYN).count();
    run.len().min(before + 1)
}

fn print(start: usize, answer: Result<Exchange, Refusal>) {
    match answer {
        Ok(exchange) => {
            let (kind, command) = (exchange.kind(), exchange.command());
            let attempts = (exchange.command_attempts(), exchange.reply_attempts());
            println!(
                "{start}: {kind} {command:02X?} data {:02X?} attempts {attempts:?}",
                exchange.data()
            );
        }
        Err(refusal) => println!("{start}: {refusal}"),
    }
}
