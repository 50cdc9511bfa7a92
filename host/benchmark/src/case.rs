//! A case: candidates that do the same work on the same inputs.

use std::hint::black_box;

/// The name of the first candidate of each case.
pub const OURS: &str = "archive";
/// The name of the second implementation.
pub const SECOND: &str = "rust";

/// One case at one size, its candidates held to the same answers.
pub struct Case {
    pub name: &'static str,
    pub size: usize,
    /// How many calls are made in going over all inputs once.
    pub calls: usize,
    /// The archive stands first.
    pub candidates: Vec<Candidate>,
}

impl Case {
    /// The archive and the second implementation, each with one call on each of
    /// its own inputs.
    pub fn beside_second<I: Clone + 'static, R: 'static, S: 'static>(
        name: &'static str,
        size: usize,
        ours: fn(&mut I) -> R,
        theirs: fn(&mut I) -> S,
        inputs: Vec<I>,
    ) -> Self {
        let calls = inputs.len();
        let candidates = vec![
            Candidate::on_each(OURS, ours, inputs.clone()),
            Candidate::on_each(SECOND, theirs, inputs),
        ];
        Case {
            name,
            size,
            calls,
            candidates,
        }
    }
}

/// One way to do the work.
pub struct Candidate {
    pub name: &'static str,
    pass: Box<dyn FnMut()>,
}

impl Candidate {
    /// `pass` goes over all inputs once.
    pub fn new(name: &'static str, pass: impl FnMut() + 'static) -> Self {
        let pass = Box::new(pass);
        Candidate { name, pass }
    }

    /// A candidate that makes one call on each of its own inputs.
    pub fn on_each<I: 'static, R: 'static>(
        name: &'static str,
        call: fn(&mut I) -> R,
        mut inputs: Vec<I>,
    ) -> Self {
        Candidate::new(name, move || {
            let call = black_box(call);
            for input in &mut inputs {
                black_box(call(black_box(input)));
            }
        })
    }

    /// Goes so many times over all inputs.
    pub fn run(&mut self, passes: usize) {
        for _ in 0..passes {
            (self.pass)();
        }
    }
}
