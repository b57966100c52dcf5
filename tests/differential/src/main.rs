//! The longer run: `cargo run --release -p differential -- [--seconds S] [--seed N] [--case CASE]`.

use differential::compare::Sides;
use differential::implementation::{LIBRARY, REFERENCE};
use differential::listed;
use differential::run::{case_seed, try_case, Case, Function, Tally};
use std::process::ExitCode;
use std::time::{Duration, Instant};

const USAGE: &str = "usage: differential [--seconds S] [--seed N] [--case FUNCTION:listed:INDEX] \
                     [--case FUNCTION:seed:SEED]";
const SIDES: Sides = Sides {
    left: &LIBRARY,
    right: &REFERENCE,
};

struct Options {
    seconds: u64,
    seed: u64,
    case: Option<(Function, Case)>,
}

fn main() -> ExitCode {
    let Some(options) = options(std::env::args().skip(1)) else {
        eprintln!("{USAGE}");
        return ExitCode::from(2);
    };
    let agree = match options.case {
        Some((function, case)) => one_case(function, case),
        None => long_run(&options),
    };
    if agree {
        ExitCode::SUCCESS
    } else {
        ExitCode::FAILURE
    }
}

fn options(mut arguments: impl Iterator<Item = String>) -> Option<Options> {
    let mut options = Options {
        seconds: 60,
        seed: 1,
        case: None,
    };
    while let Some(name) = arguments.next() {
        let value = arguments.next()?;
        match name.as_str() {
            "--seconds" => options.seconds = value.parse().ok()?,
            "--seed" => options.seed = value.parse().ok()?,
            "--case" => options.case = Some(case(&value)?),
            _ => return None,
        }
    }
    Some(options)
}

/// A case as a difference names it.
fn case(name: &str) -> Option<(Function, Case)> {
    let mut parts = name.split(':');
    let function = Function::named(parts.next()?)?;
    let case = match (parts.next()?, parts.next()?) {
        ("listed", index) => {
            let index = index.parse().ok()?;
            (index < listed::count(function)).then_some(Case::Listed(index))?
        }
        ("seed", seed) => Case::Seed(seed.parse().ok()?),
        _ => return None,
    };
    Some((function, case))
}

fn one_case(function: Function, case: Case) -> bool {
    match try_case(SIDES, function, case) {
        Ok(classes) => {
            let classes: Vec<String> = classes.iter().map(ToString::to_string).collect();
            println!("both agree: {}", classes.join(", "));
            true
        }
        Err(difference) => {
            println!("{difference}");
            false
        }
    }
}

/// The listed cases, then random ones, each function getting its part of the time.
fn long_run(options: &Options) -> bool {
    let mut agree = true;
    println!("seed {}, {} seconds", options.seed, options.seconds);
    for function in Function::ALL {
        let part = Duration::from_secs(options.seconds) * function.part() / 100;
        let end = Instant::now() + part;
        let mut tally = Tally::default();
        for index in 0..listed::count(function) {
            tally.add(SIDES, function, Case::Listed(index));
        }
        let mut index = 0;
        while Instant::now() < end {
            let seed = case_seed(options.seed, function, index);
            tally.add(SIDES, function, Case::Seed(seed));
            index += 1;
        }
        println!("{}", tally.report(function));
        agree &= tally.differences == 0;
    }
    agree
}
