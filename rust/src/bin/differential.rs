//! The differential test: two machines are given the same images and the same steps, and every number, value and word
//! that comes of it is compared.
//!
//! `differential [--seed N] [--steps N] [--show]`
//!
//! The library is compared with the plain machine. In a build with the feature `self-test`, copies of the plain machine
//! with one slip each take the library's place, and all of them have to be found; `--show` prints the smallest case of
//! each. Exit status: 0 no difference (or every slip found), 1 otherwise, 2 bad usage.

use std::process::ExitCode;
use std::time::{SystemTime, UNIX_EPOCH};

/// How many steps a run compares at least.
const STEPS: usize = 1_000_000;

#[cfg_attr(not(any(feature = "library", feature = "self-test")), allow(dead_code))]
struct Options {
    seed: u64,
    steps: usize,
    show: bool,
}

fn main() -> ExitCode {
    match read_options(std::env::args().skip(1)) {
        Some(options) => compare(&options),
        None => {
            eprintln!("usage: differential [--seed N] [--steps N] [--show]");
            ExitCode::from(2)
        }
    }
}

fn read_options(mut arguments: impl Iterator<Item = String>) -> Option<Options> {
    let mut options = Options {
        seed: seed_of_time(),
        steps: STEPS,
        show: false,
    };
    while let Some(argument) = arguments.next() {
        match argument.as_str() {
            "--seed" => options.seed = arguments.next()?.parse().ok()?,
            "--steps" => options.steps = arguments.next()?.parse().ok()?,
            "--show" => options.show = true,
            _ => return None,
        }
    }
    Some(options)
}

fn seed_of_time() -> u64 {
    let time = SystemTime::now().duration_since(UNIX_EPOCH).unwrap_or_default();
    time.as_micros() as u64
}

#[cfg(feature = "self-test")]
fn compare(options: &Options) -> ExitCode {
    self_test::run(options)
}

#[cfg(all(feature = "library", not(feature = "self-test")))]
fn compare(options: &Options) -> ExitCode {
    library::run(options)
}

#[cfg(not(any(feature = "library", feature = "self-test")))]
fn compare(_: &Options) -> ExitCode {
    eprintln!("differential: built without the library: there is nothing to compare");
    ExitCode::from(2)
}

#[cfg(all(feature = "library", not(feature = "self-test")))]
mod library {
    use super::Options;
    use ernuvald::machine::{Library, Plain};
    use ernuvald::plain::Idiomatic;
    use ernuvald::testing::{campaign, case::Pair, shrink::shrink};
    use std::process::ExitCode;

    pub fn run(options: &Options) -> ExitCode {
        let believed = Plain::<Idiomatic>::new();
        let pair = Pair {
            believed: &believed,
            tested: &Library,
        };
        let seed = options.seed;
        let (tally, result) = campaign::run(pair, seed, options.steps);
        let Err(found) = result else {
            println!(
                "differential: {} steps, {} list questions, {} set-ups compared, seed {seed}: no difference",
                tally.steps, tally.questions, tally.set_ups
            );
            return ExitCode::SUCCESS;
        };
        let (case, difference) = shrink(pair, &found);
        println!(
            "differential: difference after {} steps, seed {seed}: {}; the smallest case found:",
            tally.steps, difference.0
        );
        print!("{case}");
        ExitCode::FAILURE
    }
}

#[cfg(feature = "self-test")]
mod self_test {
    use super::Options;
    use ernuvald::machine::Plain;
    use ernuvald::plain::Idiomatic;
    use ernuvald::slips::{Slip, SLIPS};
    use ernuvald::testing::campaign::{self, Outcome};
    use ernuvald::testing::{case::Pair, shrink::shrink};
    use std::process::ExitCode;

    pub fn run(options: &Options) -> ExitCode {
        let found = SLIPS.iter().filter(|slip| find(slip, options)).count();
        println!(
            "self-test: {found} of {} slips found, seed {}",
            SLIPS.len(),
            options.seed
        );
        match found == SLIPS.len() {
            true => ExitCode::SUCCESS,
            false => ExitCode::FAILURE,
        }
    }

    /// Whether the differential test finds a slip, where it has to by schedules alone as well. A line for each.
    fn find(slip: &Slip, options: &Options) -> bool {
        let by_any_means = find_by("found", campaign::run, slip, options);
        let by_schedule = !slip.by_schedule || find_by("by schedule", campaign::run_schedules, slip, options);
        by_any_means && by_schedule
    }

    fn find_by(how: &str, campaign: fn(Pair, u64, usize) -> Outcome, slip: &Slip, options: &Options) -> bool {
        let believed = Plain::<Idiomatic>::new();
        let pair = Pair {
            believed: &believed,
            tested: slip,
        };
        let (tally, result) = campaign(pair, options.seed, options.steps);
        let Err(found) = result else {
            println!("{}: {how}: NOT FOUND in {} steps", slip.name, tally.steps);
            return false;
        };
        let (case, difference) = shrink(pair, &found);
        let (before, after) = (found.actions.len(), case.actions.len());
        println!(
            "{}: {how} after {} steps, case of {before} shrunk to {after}: {}",
            slip.name, tally.steps, difference.0
        );
        if options.show {
            print!("{case}");
        }
        true
    }
}
