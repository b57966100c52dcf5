//! The proved functions of `libzlatopysk.a` timed beside a plain implementation in Rust, in one process, both
//! optimised, the runs of the two in turn, by the time for which a processor ran them. What they answer and every byte
//! that they are lent are compared each time. `bench/run` runs it and shows tables; `bench/run ratios` prints a line for
//! each of their rows, for other programs to read; `bench/run hostile` checks the scripts that ask the most of a loader,
//! once each.

mod checks;
mod clock;
mod parts;
mod programs;
mod scripts;
mod sums;
mod texts;
mod watch;

use scripts::{ENTRY, LONGEST};
use std::process::exit;
use texts::{Text, SIZE};
use watch::{Beside, Table, Told, RUNS};

/// What lent buffers hold before each run, which is no part of the time.
const FILL: u8 = 0xA5;

fn ours(refused: zlatopysk::Refused) -> (u8, usize) {
    (refused.number, refused.place)
}

fn theirs(refused: reference::Refused) -> (u8, usize) {
    (refused.number, refused.place)
}

/// A refusal as the tables show it, else what is said of a success.
fn said(refused: Option<(u8, usize)>, success: &str) -> String {
    match refused {
        Some((number, place)) => format!("{number} at {place}"),
        None => success.to_string(),
    }
}

fn time_reader(table: &Table, text: &Text) {
    let mut times = Beside::default();
    let (mut region, mut other) = (vec![0; SIZE], vec![0; SIZE]);
    for _ in 0..RUNS {
        region.fill(FILL);
        let answer = times.proved(|| zlatopysk::read(&text.bytes, SIZE, &mut region));
        other.fill(FILL);
        let beside = times.plain(|| reference::read(&text.bytes, SIZE, &mut other));
        assert_eq!(
            answer.map_err(ours),
            beside.map_err(theirs),
            "{}",
            text.name
        );
        assert_eq!(answer.map_err(ours).err(), text.refused, "{}", text.name);
        assert!(region == other, "{}: another region", text.name);
    }
    let answer = said(text.refused, "filled");
    table.tell(text.name, text.bytes.len(), &answer, &times);
}

fn time_planner(table: &Table, text: &Text) {
    let mut times = Beside::default();
    let (mut out, mut other) = (vec![0; LONGEST], vec![0; LONGEST]);
    let mut length = None;
    for _ in 0..RUNS {
        out.fill(FILL);
        let secret = scripts::password();
        let answer = times.proved(|| zlatopysk::plan(&text.bytes, &secret, ENTRY, SIZE, &mut out));
        other.fill(FILL);
        let beside = times.plain(|| reference::plan(&text.bytes, &secret, ENTRY, SIZE, &mut other));
        assert_eq!(
            answer.map_err(ours),
            beside.map_err(theirs),
            "{}",
            text.name
        );
        assert_eq!(answer.map_err(ours).err(), text.refused, "{}", text.name);
        assert!(out == other, "{}: another output", text.name);
        length = answer.ok();
    }
    let written = length.map_or(String::new(), |length| format!("{length} bytes"));
    let answer = said(text.refused, &written);
    table.tell(text.name, text.bytes.len(), &answer, &times);
}

fn time_usual(told: Told) {
    if told == Told::Tables {
        println!(
            "Best and median of {RUNS} runs, by the time for which a processor ran the thread;"
        );
        println!(
            "the proved function and the plain one run in turn. Before each run lent buffers are"
        );
        println!("filled with {FILL:#04X}, outside the time. Answers and every lent byte are compared each time.");
    }
    sums::time_checksum(told);
    sums::time_joined(told);
    let (full, scattered, longest) = (texts::full(), texts::scattered(), texts::longest());
    let (ends, malformed) = (texts::with_carriage_returns(), texts::malformed());
    let table = Table::begin(told, "reader");
    for text in [&full, &scattered, &longest, &ends, &malformed] {
        time_reader(&table, text);
    }
    let table = Table::begin(told, "planner");
    for text in [&full, &scattered, &longest, &malformed] {
        time_planner(&table, text);
    }
    checks::time_usual(told);
    if told == Told::Tables {
        programs::show(&[&full, &scattered, &ends, &malformed]);
    }
}

fn main() {
    let words: Vec<String> = std::env::args().skip(1).collect();
    match words.iter().map(String::as_str).collect::<Vec<_>>()[..] {
        [] => time_usual(Told::Tables),
        ["ratios"] => time_usual(Told::Ratios),
        ["hostile"] => checks::time_hostile(),
        _ => {
            eprintln!("usage: bench/run [ratios | hostile]");
            exit(2);
        }
    }
}
