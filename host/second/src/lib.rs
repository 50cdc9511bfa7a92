//! The rules written a second time, in plain Rust, from the papers, and from
//! `moortinker.h` where they have no say. The archive is held against this
//! crate, input by input, and is measured beside it. There is one function here
//! for each function of `moortinker.h`, over slices, with `Result<_, Refusal>`
//! for the answer. A [`Listener`] judges an exchange whose bytes arrive one by
//! one; [`capture`] tells what a capture of many exchanges holds.

#![forbid(unsafe_code)]

pub mod capture;
pub mod checks;
pub mod devices;
pub mod ebus;
pub mod events;
pub mod exchange;
pub mod frames;
pub mod listener;
pub mod queues;
pub mod railbus;
pub mod refusal;
pub mod relay;

pub use listener::Listener;
pub use refusal::Refusal;
