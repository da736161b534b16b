//! The Rust's `SharedProgress`, with its clock and its waking of the task, beside the project's cell: lists of calls on a paused clock.

use original::client::worker::{reach, SharedProgress};
use original::lsn::Lsn;
use rufflesquash::{Moment, ProgressCell};
use runs::draw::Draw;
use std::time::Duration;
use tokio::runtime::Builder;
use tokio::time::{advance, Instant};

const POSITIONS: &[u64] = &[0, 1, 2, 3, 0x100, u64::MAX - 1, u64::MAX];

/// A millisecond of the list as a moment; the cell's 0 is none.
fn moment(millis: u64) -> Moment {
    Moment((millis + 1) * 1_000_000)
}

async fn agree(draw: &mut Draw) {
    let begun = Instant::now();
    let (start, timed) = (draw.pick(POSITIONS), draw.once_in(2));
    let rust = SharedProgress::with_timing(Lsn(start), timed);
    let mut ours = ProgressCell::new(rufflesquash::Lsn(start), timed);
    let mut woken = rust.subscribe();
    let mut now = 0;
    for _ in 0..1 + draw.below(12) {
        let p = draw.pick(POSITIONS);
        match draw.below(6) {
            0 => {
                let time = draw.below(4);
                advance(Duration::from_millis(time)).await;
                now += time;
            }
            1 => assert_eq!(reach::take_signal(&rust).0, ours.take_signal().0),
            2 => assert_eq!(reach::take_pending(&rust, Lsn(p)), ours.take_pending(rufflesquash::Lsn(p), moment(now)).is_some()),
            3 => {
                let since = draw.below(9);
                rust.carry_pending((begun + Duration::from_millis(since)).into_std());
                ours.carry_pending(moment(since));
            }
            _ => {
                rust.update_applied(Lsn(p));
                let wakes = ours.raise(rufflesquash::Lsn(p), moment(now));
                assert_eq!(woken.has_changed().unwrap(), wakes);
                woken.mark_unchanged();
            }
        }
        assert_eq!(rust.load_applied().0, ours.load().0);
        let since = rust.pending_since().map(|since| Moment(since.duration_since(begun.into_std()).as_nanos() as u64 + 1_000_000));
        assert_eq!(since, ours.pending_since());
    }
}

#[test]
fn the_shared_progress_is_the_cell_on_a_clock() {
    let mut draw = Draw::new(1);
    for _ in 0..20_000 {
        Builder::new_current_thread().enable_time().start_paused(true).build().unwrap().block_on(agree(&mut draw));
    }
}
