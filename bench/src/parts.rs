//! Where the time of checking a full script goes: the best times of scripts that go one part further each, the first
//! three with a text of no bytes, which is judged in no time. The checksums of packets cannot be cut off from their
//! writes: they are reckoned, byte for byte, from what the region's checksum takes at the start of the last script,
//! which the one before it does not reach; the rest of the writes is what is left.

use crate::scripts::{self, Script, HEAD, START, WRITES_AT};
use crate::texts::SIZE;
use crate::watch::{best, Beside, RUNS};
use std::rc::Rc;

const STAGES: usize = 8;

fn stages(full: &Script) -> [Script; STAGES] {
    let bare = scripts::bare();
    let none = Rc::clone(&bare.text);
    let end = full.bytes.len() - START;
    let packets = full.packets();
    [
        full.cut(&none, HEAD, 0),
        full.cut(&none, WRITES_AT, 2),
        full.cut(&none, end, packets - 1),
        full.cut(&full.text, end, packets - 1),
        full.with_bad_start(),
        full.clone(),
        bare.with_bad_start(),
        bare,
    ]
}

/// What each part takes, by the best times of the stages.
fn parts(full: &Script, best: [f64; STAGES]) -> [(&'static str, f64); 8] {
    let around = 5 * (full.packets() - 3);
    let cores = (full.bytes.len() - START - WRITES_AT - around) as f64;
    let sums = cores / SIZE as f64 * (best[7] - best[6]);
    [
        ("region and known bits filled", best[0]),
        ("password, and both erased", best[1] - best[0]),
        ("checksums of the writes (reckoned)", sums),
        ("the rest of the writes", best[2] - best[1] - sums),
        ("the text judged", best[3] - best[2]),
        ("region compared, unknown bytes counted", best[4] - best[3]),
        ("checksum of the region", best[5] - best[4]),
        ("all", best[5]),
    ]
}

pub fn show(full: &Script, mut check: impl FnMut(&Script, &mut Beside)) {
    let stages = stages(full);
    let mut times: [Beside; STAGES] = std::array::from_fn(|_| Beside::default());
    for _ in 0..RUNS {
        for (stage, times) in stages.iter().zip(&mut times) {
            check(stage, times);
        }
    }
    let proved = parts(full, times.each_ref().map(|times| best(&times.proved)));
    let plain = parts(full, times.each_ref().map(|times| best(&times.plain)));
    println!("\nwhere the time of the full script goes           proved             plain");
    println!("                                                   ms   share        ms");
    for (proved_part, plain_part) in proved.iter().zip(&plain) {
        let share = 100.0 * proved_part.1 / proved[STAGES - 1].1;
        let (name, took, beside) = (proved_part.0, proved_part.1 / 1e6, plain_part.1 / 1e6);
        println!("{name:<44} {took:>8.2}  {share:>4.0} %  {beside:>8.2}");
    }
}
