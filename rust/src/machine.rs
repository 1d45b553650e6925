//! One trait over every machine of this package, in raw words, for comparing them.

use crate::plain::{self, Check};
use crate::terms::{Part, Refusal, Reply, Settings, Step};
use std::marker::PhantomData;
use std::ops::Range;

/// A machine, with its answers as raw words.
pub trait Machine {
    /// The length of an image with these settings, 0 if a setting is beyond its limit.
    fn words(&self, settings: &Settings) -> u32;
    /// Set-up; gives its number.
    fn set_up(&self, image: &mut [u32], settings: &Settings) -> u32;
    /// A step.
    fn step(&self, image: &mut [u32], step: Step) -> Reply;
    /// The question for a thread's retire list.
    fn retired(&self, image: &[u32], thread: u32) -> Part;
    /// Whether an image is damaged.
    fn damaged(&self, image: &[u32]) -> bool;
}

/// The number of a result: 0 if there is no refusal.
pub(crate) fn number_of<A>(result: &Result<A, Refusal>) -> u32 {
    result.as_ref().err().map_or(0, |refusal| refusal.number())
}

/// The raw form of an answer to the question for a retire list.
pub(crate) fn part_of(answer: &Result<Range<usize>, Refusal>) -> Part {
    let range = answer.clone().unwrap_or(0..0);
    Part {
        number: number_of(answer),
        from: range.start as u32,
        length: range.len() as u32,
    }
}

/// The plain machine with one form of the damage check.
pub struct Plain<C>(PhantomData<C>);

impl<C> Plain<C> {
    /// The machine; it has no state of its own.
    pub const fn new() -> Self {
        Plain(PhantomData)
    }
}

impl<C> Default for Plain<C> {
    fn default() -> Self {
        Self::new()
    }
}

impl<C: Check> Machine for Plain<C> {
    fn words(&self, settings: &Settings) -> u32 {
        plain::words(settings).unwrap_or(0) as u32
    }

    fn set_up(&self, image: &mut [u32], settings: &Settings) -> u32 {
        number_of(&plain::set_up(image, settings))
    }

    fn step(&self, image: &mut [u32], step: Step) -> Reply {
        plain::step::<C>(image, step)
    }

    fn retired(&self, image: &[u32], thread: u32) -> Part {
        part_of(&plain::retired::<C>(image, thread))
    }

    fn damaged(&self, image: &[u32]) -> bool {
        plain::damaged::<C>(image)
    }
}

/// The library.
#[cfg(feature = "library")]
pub struct Library;

#[cfg(feature = "library")]
impl Machine for Library {
    fn words(&self, settings: &Settings) -> u32 {
        crate::library::words(settings).unwrap_or(0) as u32
    }

    fn set_up(&self, image: &mut [u32], settings: &Settings) -> u32 {
        crate::library::set_up_raw(image, settings)
    }

    fn step(&self, image: &mut [u32], step: Step) -> Reply {
        crate::library::step_raw(image, step)
    }

    fn retired(&self, image: &[u32], thread: u32) -> Part {
        crate::library::retired_raw(image, thread)
    }

    fn damaged(&self, image: &[u32]) -> bool {
        crate::library::damaged(image)
    }
}
