//! The checksum timed beside the plain implementation's, which goes by a table, and beside every form in which Rust does
//! it bit by bit (document 02, T-05); then two checksums joined.

use crate::texts;
use crate::watch::{best, timed, Beside, Spread, Table, Told, RUNS};
use reference::bit_loops::{Form, FORMS};
use reference::START;
use std::hint::black_box;

/// The core of a range checksum, that of a full write, the smallest region and the greatest.
const LENGTHS: [usize; 4] = [7, 261, 4_096, texts::SIZE];

/// A form of the checksum with its name, and its times for one input.
struct Way {
    name: &'static str,
    form: Form,
    times: Vec<f64>,
}

/// The proved function first, then the plain one by its table, then the bit loops.
fn ways() -> Vec<Way> {
    let first: [(&str, Form); 2] = [
        ("proved", zlatopysk::checksum),
        ("plain, by a table of 256", reference::checksum),
    ];
    let all = first.into_iter().chain(FORMS);
    all.map(|(name, form)| Way {
        name,
        form,
        times: Vec::new(),
    })
    .collect()
}

/// Nanoseconds for each byte of all ways, run in turn; short inputs as often as they make a long one.
fn time_ways(bytes: &[u8]) -> Vec<Way> {
    let mut ways = ways();
    let sum = reference::checksum(START, bytes);
    let times = texts::SIZE / bytes.len();
    for _ in 0..RUNS {
        for way in &mut ways {
            let (all_right, took) =
                timed(|| (0..times).all(|_| (way.form)(black_box(START), black_box(bytes)) == sum));
            assert!(all_right, "{}: another checksum", way.name);
            way.times.push(took / (times * bytes.len()) as f64);
        }
    }
    ways
}

/// The least time of the bit loops.
fn fastest_loop(ways: &[Way]) -> f64 {
    let loops = ways[2..].iter().map(|way| best(&way.times));
    loops.fold(f64::INFINITY, f64::min)
}

fn show(length: usize, ways: &[Way]) {
    let proved = best(&ways[0].times);
    println!("\n{:<38}  ns per byte     times that of", "");
    println!(
        "{:<38}  best  median   the proved one",
        format!("checksum of {length} bytes")
    );
    for way in ways {
        let Spread { best, median } = Spread::of(&way.times);
        let (name, beside) = (way.name, best / proved);
        println!("{name:<38} {best:>5.2}  {median:>6.2} {beside:>8.2}");
    }
    println!(
        "{:<38} {:>5.2} {:>16.2}",
        "the fastest bit loop",
        fastest_loop(ways),
        fastest_loop(ways) / proved
    );
}

fn tell(length: usize, ways: &[Way]) {
    let input = match length {
        texts::SIZE => String::new(),
        _ => format!(" of {length} bytes"),
    };
    let tell = |name: &str, plain: f64| {
        let ratio = best(&ways[0].times) / plain;
        println!("checksum{input}, {name}: {ratio:.2}");
    };
    for way in &ways[1..] {
        tell(way.name, best(&way.times));
    }
    tell("fastest Rust bit loop", fastest_loop(ways));
}

pub fn time_checksum(told: Told) {
    let bytes = texts::image(0);
    for length in LENGTHS {
        let ways = time_ways(&bytes[..length]);
        match told {
            Told::Tables => show(length, &ways),
            Told::Ratios => tell(length, &ways),
        }
    }
}

/// Two checksums joined, over as many bytes behind as a range checksum can cover.
pub fn time_joined(told: Told) {
    let table = Table::begin(told, "checksums joined");
    let [first, second, count] = black_box([0x1234, 0xABCD, u16::MAX]);
    let mut times = Beside::default();
    for _ in 0..RUNS {
        let answer = times.proved(|| zlatopysk::joined(first, second, count));
        let beside = times.plain(|| reference::joined(first, second, count));
        assert_eq!(answer, beside, "another joined checksum");
    }
    table.tell("the most bytes behind", count.into(), "", &times);
}
