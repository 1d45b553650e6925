//! The differential test's own tests: both forms of the damage check agree, and its schedules and images reach what
//! they are meant to reach.

use ernuvald::layout::Layout;
use ernuvald::machine::{Machine, Plain};
use ernuvald::plain::{Idiomatic, Vectorized};
use ernuvald::terms::{Part, Reply, Settings, Step};
use ernuvald::testing::campaign;
use ernuvald::testing::case::Pair;
use std::cell::RefCell;
use std::collections::BTreeMap;

const STEPS: usize = 200_000;

#[test]
fn both_checks_agree() {
    let (believed, tested) = (Plain::<Idiomatic>::new(), Plain::<Vectorized>::new());
    let pair = Pair {
        believed: &believed,
        tested: &tested,
    };
    for seed in 1..=3 {
        let (tally, result) = campaign::run(pair, seed, STEPS);
        assert!(tally.steps >= STEPS);
        assert!(result.is_ok(), "seed {seed}: {}", result.unwrap_err());
    }
}

/// A machine that counts what it meets.
#[derive(Default)]
struct Witness {
    met: RefCell<BTreeMap<String, usize>>,
}

impl Witness {
    fn note(&self, what: String) {
        *self.met.borrow_mut().entry(what).or_default() += 1;
    }

    fn note_state(&self, image: &[u32], step: Step) {
        let settings = Settings::from_words(image[1..7].try_into().expect("six words"));
        let layout = Layout::of(&settings);
        let state = |thread: usize, word: usize| image[layout.thread(thread) + word];
        let count = |wanted: &dyn Fn(usize) -> bool| (0..layout.threads).filter(|&thread| wanted(thread)).count();
        let reclaimers = count(&|thread| state(thread, 0) >= 3);
        let handlers = count(&|thread| state(thread, 5) != 0);
        if reclaimers >= 3 {
            self.note("three reclaimers".to_string());
        }
        if handlers >= 2 && reclaimers >= 2 {
            self.note("two handlers during two reclaims".to_string());
        }
        if count(&|thread| state(thread, 4) == 1 && state(thread, 5) != 0) > 0 {
            self.note("a ping during a handler".to_string());
        }
        let me = step.thread as usize;
        if step.op == 10 && image[layout.count(me)] == 0 && state(me, 5) == 0 {
            self.note("a count that wraps".to_string());
        }
        if image[layout.list(me)] as usize == layout.room {
            self.note("a full list".to_string());
        }
        if image.len() == 8209 {
            self.note("the largest image".to_string());
        }
    }
}

impl Machine for Witness {
    fn words(&self, settings: &Settings) -> u32 {
        Plain::<Vectorized>::new().words(settings)
    }

    fn set_up(&self, image: &mut [u32], settings: &Settings) -> u32 {
        let number = Plain::<Vectorized>::new().set_up(image, settings);
        self.note(format!("set-up {number}"));
        number
    }

    fn step(&self, image: &mut [u32], step: Step) -> Reply {
        let reply = Plain::<Vectorized>::new().step(image, step);
        let Reply { number, value } = reply;
        self.note(format!("number {number}"));
        if number == 0 {
            self.note(format!("operation {}", step.op));
            self.note_state(image, step);
        }
        if number == 0 && step.op == 8 {
            self.note(format!("advance {value}"));
        }
        reply
    }

    fn retired(&self, image: &[u32], thread: u32) -> Part {
        let part = Plain::<Vectorized>::new().retired(image, thread);
        self.note(format!("question {}", part.number));
        part
    }

    fn damaged(&self, image: &[u32]) -> bool {
        Plain::<Vectorized>::new().damaged(image)
    }
}

/// What a run meets, as counts by name.
fn met(run: fn(Pair, u64, usize) -> campaign::Outcome) -> BTreeMap<String, usize> {
    let (believed, witness) = (Plain::<Idiomatic>::new(), Witness::default());
    let pair = Pair {
        believed: &believed,
        tested: &witness,
    };
    assert!(run(pair, 7, STEPS).1.is_ok());
    witness.met.into_inner()
}

fn assert_met(met: &BTreeMap<String, usize>, names: &[&str], least: usize) {
    for &name in names {
        let count = met.get(name).copied().unwrap_or(0);
        println!("{name}: {count}");
        assert!(count >= least, "'{name}' was met {count} times only");
    }
}

const DEEP: [&str; 6] = [
    "three reclaimers",
    "two handlers during two reclaims",
    "a ping during a handler",
    "a count that wraps",
    "a full list",
    "the largest image",
];

#[test]
fn a_run_meets_everything() {
    let met = met(campaign::run);
    let numbers = (0..=11).map(|number| format!("number {number}"));
    let operations = (0..=10).map(|op| format!("operation {op}"));
    let advances = (0..=3).map(|value| format!("advance {value}"));
    let set_ups = [0, 12, 13].map(|number| format!("set-up {number}"));
    let questions = [0, 1, 3].map(|number| format!("question {number}"));
    let names: Vec<String> = numbers
        .chain(operations)
        .chain(advances)
        .chain(set_ups)
        .chain(questions)
        .collect();
    assert_met(&met, &names.iter().map(String::as_str).collect::<Vec<_>>(), 100);
    assert_met(&met, &DEEP, 100);
}

#[test]
fn schedules_meet_deep_states() {
    assert_met(&met(campaign::run_schedules), &DEEP, 20);
}
