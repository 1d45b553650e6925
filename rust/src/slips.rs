//! Copies of the plain machine with one slip each, for the differential test to find.
//!
//! `slips.txt` lists them as replacements of one text of `plain.rs`; the build makes the copies.

use crate::machine::{number_of, part_of, Machine};
use crate::terms::{Part, Refusal, Reply, Settings, Step};
use std::ops::Range;

include!(concat!(env!("OUT_DIR"), "/slips.rs"));

/// A machine with a slip.
pub struct Slip {
    pub name: &'static str,
    /// Whether schedules alone have to find it.
    pub by_schedule: bool,
    words: fn(&Settings) -> Option<usize>,
    set_up: fn(&mut [u32], &Settings) -> Result<(), Refusal>,
    step: fn(&mut [u32], Step) -> Reply,
    retired: fn(&[u32], u32) -> Result<Range<usize>, Refusal>,
    damaged: fn(&[u32]) -> bool,
}

impl Machine for Slip {
    fn words(&self, settings: &Settings) -> u32 {
        (self.words)(settings).unwrap_or(0) as u32
    }

    fn set_up(&self, image: &mut [u32], settings: &Settings) -> u32 {
        number_of(&(self.set_up)(image, settings))
    }

    fn step(&self, image: &mut [u32], step: Step) -> Reply {
        (self.step)(image, step)
    }

    fn retired(&self, image: &[u32], thread: u32) -> Part {
        part_of(&(self.retired)(image, thread))
    }

    fn damaged(&self, image: &[u32]) -> bool {
        (self.damaged)(image)
    }
}
