//! The bounded run with a fixed seed: for every public function the library is compared with the
//! reference, and with every deliberately wrong reference, which must be found.

use differential::accepted::{self, Premises};
use differential::compare::Sides;
use differential::implementation::{Implementation, LIBRARY, REFERENCE};
use differential::in_two;
use differential::inputs::scripts;
use differential::listed;
use differential::random::Random;
use differential::recovery::{self, Steps};
use differential::run::{bounded_cases, try_case, Function, Tally};
use differential::wrong::{self, Wrong, WrongAcceptance, WrongRecovery};
use reference::script::frames;
use std::io::Write;

const SEED: u64 = 20_260_101;

/// Prints a line even where the test's own output is held back.
fn print(line: &str) {
    let mut out = std::io::stdout().lock();
    writeln!(out, "{line}").expect("standard output");
}

fn agrees(function: Function) {
    let sides = Sides {
        left: &LIBRARY,
        right: &REFERENCE,
    };
    let mut tally = Tally::default();
    for case in bounded_cases(SEED, function) {
        tally.add(sides, function, case);
    }
    print(&tally.report(function));
    assert_eq!(tally.differences, 0, "{:?}", tally.first);
    let missing = tally.missing(function);
    assert!(missing.is_empty(), "never answered: {missing:?}");
}

#[test]
fn checksum_agrees() {
    agrees(Function::Checksum);
}

#[test]
fn joined_agrees() {
    agrees(Function::Joined);
}

#[test]
fn call_agrees() {
    agrees(Function::Call);
}

#[test]
fn read_agrees() {
    agrees(Function::Read);
}

#[test]
fn plan_agrees() {
    agrees(Function::Plan);
}

#[test]
fn check_agrees() {
    agrees(Function::Check);
}

#[test]
fn read_record_agrees() {
    agrees(Function::ReadRecord);
}

#[test]
fn write_record_agrees() {
    agrees(Function::WriteRecord);
}

#[test]
fn total_power_agrees() {
    agrees(Function::TotalPower);
}

#[test]
fn cut_agrees() {
    agrees(Function::Cut);
}

#[test]
fn restart_agrees() {
    agrees(Function::Restart);
}

/// The page's own scripts pass, as demand 3 asks.
#[test]
fn scripts_by_the_page_pass() {
    for index in 0..3_000 {
        let random = &mut Random::new(SEED + index);
        let input = scripts::by_the_page(random);
        let (checked, _) = input.checked_by(&LIBRARY);
        assert_eq!(checked.answer, Ok(()), "{index}");
        let packets = frames(&input.script).map(|frames| frames.len());
        assert_eq!(Some(checked.packets), packets, "{index}");
    }
}

/// Whether a case of the bounded run finds a wrong reference.
fn is_found(wrong: &Wrong) -> bool {
    let sides = Sides {
        left: &LIBRARY,
        right: &wrong.implementation,
    };
    bounded_cases(SEED, wrong.function).any(|case| try_case(sides, wrong.function, case).is_err())
}

/// Prints how many of the wrong ones are found, which must be all of them.
fn expect_all_found<'a>(what: &str, wrong: impl Iterator<Item = (&'a str, bool)>) {
    let wrong: Vec<(&str, bool)> = wrong.collect();
    let missed = wrong.iter().filter(|(_, is_found)| !is_found);
    let missed: Vec<&str> = missed.map(|(name, _)| *name).collect();
    let found = wrong.len() - missed.len();
    print(&format!("wrong {what}: {found} of {} found", wrong.len()));
    assert!(missed.is_empty(), "not found: {missed:?}");
}

#[test]
fn every_wrong_reference_is_found() {
    let all = wrong::all();
    expect_all_found(
        "references",
        all.iter().map(|wrong| (wrong.name, is_found(wrong))),
    );
}

/// The first of the page's own small scripts for which a recovery from cuts fails.
fn fails_at(side: &Implementation, steps: Steps) -> Option<u64> {
    (0..500).find(|&index| {
        let random = &mut Random::new(SEED + index);
        let input = scripts::by_the_page(random);
        input.size <= 8_192 && recovery::holds(side, &input, random, steps).is_err()
    })
}

/// No step between a cut and the script sent afresh can be left out.
#[test]
fn every_wrong_recovery_is_found() {
    assert_eq!(fails_at(&LIBRARY, recovery::STEPS), None);
    let all = wrong::recoveries();
    let found = |wrong: &WrongRecovery| fails_at(&wrong.side, wrong.steps).is_some();
    expect_all_found(
        "recoveries",
        all.iter().map(|wrong| (wrong.name, found(wrong))),
    );
}

/// The first listed script for which T-08's claim fails.
fn parts_at(side: &Implementation, premises: Premises) -> Option<usize> {
    listed::claimed().position(|input| accepted::holds(side, &input, premises).is_err())
}

/// T-08's claim needs the loader's own rules, the picture test, and that no start comes before.
#[test]
fn every_wrong_acceptance_is_found() {
    assert_eq!(parts_at(&LIBRARY, accepted::PREMISES), None);
    let all = wrong::acceptances();
    let found = |wrong: &WrongAcceptance| parts_at(&wrong.side, wrong.premises).is_some();
    expect_all_found(
        "acceptances",
        all.iter().map(|wrong| (wrong.name, found(wrong))),
    );
}

/// The first listed script for which T-09's claim fails.
fn departs_at(side: &Implementation) -> Option<usize> {
    listed::claimed().position(|input| in_two::holds(side, &input).is_err())
}

/// T-09's claim holds of both checkers over one region, and needs each rule of the known bits: the
/// two buffers alone find what the comparison with the reference finds.
#[test]
fn every_wrong_known_bit_is_found() {
    let direct = Implementation {
        check: reference::check_directly,
        ..REFERENCE
    };
    assert_eq!(departs_at(&LIBRARY), None);
    assert_eq!(departs_at(&direct), None);
    let all = wrong::known_bits();
    let found = |wrong: &Wrong| departs_at(&wrong.implementation).is_some();
    expect_all_found(
        "known bits by two buffers alone",
        all.iter().map(|wrong| (wrong.name, found(wrong))),
    );
}

#[test]
fn every_function_has_a_wrong_reference() {
    let all = wrong::all();
    for function in Function::ALL {
        assert!(all.iter().any(|wrong| wrong.function == function));
    }
}
