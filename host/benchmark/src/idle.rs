//! Idle time before an exchange, judged at once or fed in runs: the archive and
//! the second implementation.

use second::Listener;

use crate::case::Case;
use crate::exchanges;
use crate::feed::feed_in_runs;
use crate::judge::{
    beside_second, judge_ours, judge_second, Answer, Buffers, Judging, SecondJudging,
};

pub const IDLE: &str = "idle";

/// So many SYN stand before the exchange. The size of a case is the length of
/// the runs that are fed; this one is a recording that is judged at once.
pub const SYNS: usize = 1 << 20;

pub fn idle(size: usize) -> Result<Case, String> {
    let (ours, theirs): (Judging, SecondJudging) = match size {
        64 => (feed_in_runs::<64>, second_in_runs::<64>),
        4096 => (feed_in_runs::<4096>, second_in_runs::<4096>),
        SYNS => (judge_ours, judge_second),
        _ => return Err(format!("idle time is not fed in runs of {size}")),
    };
    let exchange = exchanges::of(exchanges::SHORT)?.swap_remove(0);
    let recording = [vec![0xAA; SYNS], exchange].concat();
    beside_second(IDLE, size, ours, theirs, vec![recording])
}

fn second_in_runs<const LENGTH: usize>(recording: &[u8], buffers: &mut Buffers) -> Answer {
    let mut listener = Listener::new();
    for run in recording.chunks(LENGTH) {
        listener.feed(run);
    }
    listener.close(
        &mut buffers.command,
        &mut buffers.reply_1,
        &mut buffers.reply_2,
    )
}
