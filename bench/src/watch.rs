//! Times, and how they are shown.

use crate::clock::thread_time;
use std::hint::black_box;

/// How often each input is timed.
pub const RUNS: usize = 30;

/// What a piece of work gives, and the nanoseconds for which a processor ran it.
pub fn timed<T>(work: impl FnOnce() -> T) -> (T, f64) {
    let start = thread_time();
    let given = black_box(work());
    (given, thread_time() - start)
}

/// The best of some times, and the median.
pub struct Spread {
    pub best: f64,
    pub median: f64,
}

impl Spread {
    pub fn of(times: &[f64]) -> Spread {
        let mut rising = times.to_vec();
        rising.sort_by(f64::total_cmp);
        let (low, high) = ((rising.len() - 1) / 2, rising.len() / 2);
        Spread {
            best: rising[0],
            median: (rising[low] + rising[high]) / 2.0,
        }
    }
}

/// The best of some times.
pub fn best(times: &[f64]) -> f64 {
    Spread::of(times).best
}

/// To whom the times are told: to people, as tables, or to other programs, as one line for each input, with its name and
/// the time of the proved function over that of the plain one.
#[derive(Clone, Copy, PartialEq)]
pub enum Told {
    Tables,
    Ratios,
}

/// The times of the proved function and of the plain one on one input, run in turn.
#[derive(Default)]
pub struct Beside {
    pub proved: Vec<f64>,
    pub plain: Vec<f64>,
}

impl Beside {
    pub fn proved<T>(&mut self, work: impl FnOnce() -> T) -> T {
        let (given, took) = timed(work);
        self.proved.push(took);
        given
    }

    pub fn plain<T>(&mut self, work: impl FnOnce() -> T) -> T {
        let (given, took) = timed(work);
        self.plain.push(took);
        given
    }
}

/// Best and median in milliseconds, and in nanoseconds for each byte.
fn show_times(times: &[f64], bytes: usize) {
    let spread = Spread::of(times);
    print!("  {:>7.3} {:>7.3}", spread.best / 1e6, spread.median / 1e6);
    let each = bytes as f64;
    print!(" {:>7.2} {:>7.2}", spread.best / each, spread.median / each);
}

const UNITS: &str = "       ms per run     ns per byte";
const SPREADS: &str = "     best  median    best  median";

/// The inputs of one function, told one by one.
pub struct Table {
    told: Told,
    what: &'static str,
}

impl Table {
    pub fn begin(told: Told, what: &'static str) -> Table {
        if told == Told::Tables {
            println!("\n{:<54}  {:<33}plain", "", "proved");
            println!("{:<54}{UNITS:<33}{UNITS}", "");
            println!(
                "{what:<30} {:>8}  {:<13}{SPREADS}{SPREADS}",
                "bytes", "answer"
            );
        }
        Table { told, what }
    }

    /// One input: for people best and median of both, for a run and for a byte.
    pub fn tell(&self, input: &str, bytes: usize, answer: &str, times: &Beside) {
        if self.told == Told::Ratios {
            return self.tell_ratio(input, best(&times.proved), best(&times.plain));
        }
        print!("{input:<30} {bytes:>8}  {answer:<13}");
        show_times(&times.proved, bytes);
        show_times(&times.plain, bytes);
        println!();
    }

    /// Many inputs of one length, each run once: as one, and for people also what all of them took, in milliseconds.
    pub fn tell_all(&self, inputs: &str, bytes: usize, answer: &str, times: &Beside) {
        let [proved, plain] = [&times.proved, &times.plain].map(|times| times.iter().sum::<f64>());
        if self.told == Told::Ratios {
            return self.tell_ratio(inputs, proved, plain);
        }
        self.tell(inputs, bytes, answer, times);
        let (proved, plain) = (proved / 1e6, plain / 1e6);
        println!(
            "{:<53}  {proved:>7.1} {:>25}  {plain:>7.1}",
            "  all of them, ms", ""
        );
    }

    /// A line for other programs.
    fn tell_ratio(&self, input: &str, proved: f64, plain: f64) {
        println!("{}, {input}: {:.2}", self.what, proved / plain);
    }
}
