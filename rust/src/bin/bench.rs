//! The benchmark: the same schedules through the library and through the plain machine with each form of its damage
//! check, on images of three sizes.
//!
//! `bench [ROUNDS]`
//!
//! In each round all machines run the schedule once, in an order that moves on from round to round; the best round of
//! each counts. `bench/README.md` says how to read the table.

use ernuvald::layout::Layout;
use ernuvald::machine::{Machine, Plain};
use ernuvald::plain::{Idiomatic, Vectorized};
use ernuvald::terms::{Settings, Step};
use ernuvald::testing::random::Random;
use ernuvald::testing::schedules::{useful_step, Turns};
use std::hint::black_box;
use std::process::ExitCode;
use std::time::Instant;

/// How many rounds there are if nothing else is asked for. Rounds are many and short, so that some of them meet a quiet
/// moment of the processor.
const ROUNDS: usize = 400;

/// How many steps lead to the image from which the measured schedule starts.
const STEPS_BEFORE: usize = 20_000;

/// A size of image: its name, settings, and how many steps its schedule has.
type Size = (&'static str, [u32; 6], usize);

const SIZES: [Size; 3] = [
    ("small", [1, 1, 1, 1, 1, 0], 10_000),
    ("middle", [4, 4, 32, 128, 32, 0], 4_000),
    ("largest", [16, 8, 256, 1024, 256, 0], 1_000),
];

/// A machine of the benchmark: its name, and how it runs a schedule. The function pointer is called once a schedule, so
/// that every step is a direct call.
type Contestant = (&'static str, fn(&mut [u32], &[Step]) -> u64);

const CONTESTANTS: &[Contestant] = &[
    ("idiomatic", run::<Plain<Idiomatic>>),
    ("vectorized", run::<Plain<Vectorized>>),
    #[cfg(feature = "library")]
    ("library", run::<ernuvald::machine::Library>),
];

/// Machines that can be had without an argument.
trait Ready: Machine {
    const READY: Self;
}

impl Ready for Plain<Idiomatic> {
    const READY: Self = Plain::new();
}

impl Ready for Plain<Vectorized> {
    const READY: Self = Plain::new();
}

#[cfg(feature = "library")]
impl Ready for ernuvald::machine::Library {
    const READY: Self = ernuvald::machine::Library;
}

/// Runs a schedule and mixes all its replies into one number.
#[inline(never)]
fn run<M: Ready>(image: &mut [u32], steps: &[Step]) -> u64 {
    let machine = M::READY;
    steps.iter().fold(0, |mixed: u64, &step| {
        let reply = machine.step(black_box(image), step);
        let words = u64::from(reply.number) << 32 | u64::from(reply.value);
        mixed.wrapping_mul(31).wrapping_add(words)
    })
}

fn main() -> ExitCode {
    let rounds = match std::env::args().nth(1).map(|text| text.parse()) {
        None => ROUNDS,
        Some(Ok(rounds)) if rounds > 0 => rounds,
        Some(_) => {
            eprintln!("usage: bench [ROUNDS]");
            return ExitCode::from(2);
        }
    };
    println!("best of {rounds} rounds, nanoseconds a step");
    println!("{}", header());
    for size in SIZES {
        measure(size, rounds);
    }
    ExitCode::SUCCESS
}

fn header() -> String {
    let names: String = CONTESTANTS.iter().map(|(name, _)| format!("{name:>12}")).collect();
    let ratios = match CONTESTANTS.len() {
        3 => "   library/idiomatic   library/vectorized",
        _ => "   (built without the library)",
    };
    format!("{:<8}{:>7}{:>9}{names}{ratios}", "image", "words", "steps")
}

/// Measures one size and prints its line.
fn measure((name, settings, count): Size, rounds: usize) {
    let settings = Settings::from_words(settings);
    let layout = Layout::of(&settings);
    let mut random = Random::of_seed(1);
    let mut image = first_image(&settings);
    schedule(&mut image, &layout, STEPS_BEFORE, &mut random);
    let steps = schedule(&mut image.clone(), &layout, count, &mut random);
    check_agreement(&image, &steps);
    let best = best_times(&image, &steps, rounds);
    let nanoseconds: Vec<f64> = best.iter().map(|time| time * 1e9 / count as f64).collect();
    println!("{name:<8}{:>7}{count:>9}{}", image.len(), figures(&nanoseconds));
}

/// The times and, with the library among them, its ratios to the others.
fn figures(nanoseconds: &[f64]) -> String {
    let times: String = nanoseconds.iter().map(|time| format!("{time:>12.1}")).collect();
    match *nanoseconds {
        [idiomatic, vectorized, library] => {
            format!("{times}{:>20.2}{:>21.2}", library / idiomatic, library / vectorized)
        }
        _ => times,
    }
}

fn first_image(settings: &Settings) -> Vec<u32> {
    let machine = Plain::<Idiomatic>::new();
    let mut image = vec![0; machine.words(settings) as usize];
    let number = machine.set_up(&mut image, settings);
    assert_eq!(number, 0, "the settings are within their limits");
    image
}

/// A schedule of steps that are useful where they stand; the image goes through them.
fn schedule(image: &mut [u32], layout: &Layout, count: usize, random: &mut Random) -> Vec<Step> {
    let machine = Plain::<Vectorized>::new();
    let mut turns = Turns::new();
    let mut next = || {
        let thread = turns.next(image, layout, random);
        let step = useful_step(image, layout, thread, random);
        machine.step(image, step);
        step
    };
    (0..count).map(|_| next()).collect()
}

/// Makes sure that all machines give the same replies and end with the same image.
fn check_agreement(first: &[u32], steps: &[Step]) {
    let outcome = |&(_, run): &Contestant| {
        let mut image = first.to_vec();
        let replies = run(&mut image, steps);
        (replies, image)
    };
    let mut outcomes = CONTESTANTS.iter().map(outcome);
    let expected = outcomes.next();
    assert!(
        outcomes.all(|outcome| Some(outcome) == expected),
        "the machines differ: the differential test says where"
    );
}

/// The best time of each machine, in seconds.
fn best_times(first: &[u32], steps: &[Step], rounds: usize) -> Vec<f64> {
    let mut best = vec![f64::INFINITY; CONTESTANTS.len()];
    for round in 0..rounds {
        for turn in 0..CONTESTANTS.len() {
            let at = (round + turn) % CONTESTANTS.len();
            let mut image = first.to_vec();
            let began = Instant::now();
            black_box(CONTESTANTS[at].1(&mut image, steps));
            best[at] = best[at].min(began.elapsed().as_secs_f64());
        }
    }
    best
}
