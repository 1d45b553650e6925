//! Steps that lead into deep states: they are chosen by a look at the image, for the most part from what is allowed
//! and useful there.

use super::random::Random;
use crate::layout::{Layout, Section};
use crate::terms::{Operation, Step};

/// Chooses the threads that act: each goes on for a while before another takes over.
pub struct Turns {
    thread: u32,
    left: u32,
}

impl Turns {
    /// No thread has its turn yet.
    pub fn new() -> Turns {
        Turns { thread: 0, left: 0 }
    }

    /// The thread that acts next. One that waits for another often lets that one go on.
    pub fn next(&mut self, image: &[u32], layout: &Layout, random: &mut Random) -> u32 {
        if let Some(other) = waits_for(image, layout, self.thread as usize).filter(|_| random.percent(60)) {
            self.thread = other;
            self.left = layout.slots as u32 + 2;
        }
        if self.left == 0 {
            self.thread = random.below(layout.threads as u32);
            self.left = random.one_of(&[1, 1, 2, 4, 12, 40]);
        }
        self.left -= 1;
        self.thread
    }
}

/// The thread whose count a thread waits for in vain.
fn waits_for(image: &[u32], layout: &Layout, thread: usize) -> Option<u32> {
    let at = layout.thread(thread);
    let (phase, other) = (image[at], image[at + 1] as usize);
    let waits = phase == 5 && other != thread && image[layout.count(other)] == image[layout.collected(thread, other)];
    waits.then_some(other as u32)
}

impl Default for Turns {
    fn default() -> Self {
        Self::new()
    }
}

/// A step for a thread on an image of this shape. One in ten is any step at all.
pub fn step(image: &[u32], layout: &Layout, thread: u32, random: &mut Random) -> Step {
    if image.len() != layout.total() || random.percent(10) {
        return any_step(layout, random);
    }
    useful_step(image, layout, thread, random)
}

/// A step that is likely to be done.
pub fn useful_step(image: &[u32], layout: &Layout, thread: u32, random: &mut Random) -> Step {
    let chooser = Chooser {
        image,
        layout,
        thread: thread as usize,
        random,
    };
    Step::of(thread, chooser.operation())
}

/// A step with words near the bounds of an image of this shape.
pub fn any_step(layout: &Layout, random: &mut Random) -> Step {
    let mut words = [0; 5];
    words[0] = match random.below(20) {
        0 => random.one_of(&[layout.threads as u32, layout.threads as u32 + 1, u32::MAX]),
        _ => random.below(layout.threads as u32),
    };
    words[1] = match random.below(20) {
        0 => random.one_of(&[11, 12, 255, u32::MAX]),
        _ => random.below(11),
    };
    for word in &mut words[2..] {
        if random.percent(40) {
            *word = near_bound(layout, random);
        }
    }
    Step::from_words(words)
}

/// A word at a bound of an image of this shape, or one or two beside it; small and very large ones too.
pub fn near_bound(layout: &Layout, random: &mut Random) -> u32 {
    let slots = layout.threads * layout.slots;
    let bounds = [
        0,
        1,
        2,
        7,
        layout.threads,
        layout.slots,
        layout.cells,
        layout.records,
        layout.threshold,
        layout.room,
        slots,
    ];
    match random.below(20) {
        0 => random.one_of(&[u32::MAX, u32::MAX - 1, 0x7fff_ffff, 0x8000_0000, 0x8000_0001]),
        1 => random.word(),
        2..=6 => random.below(layout.records as u32 + 1),
        _ => {
            let bound = random.one_of(&bounds) as u32;
            bound.wrapping_add(random.below(4)).wrapping_sub(1)
        }
    }
}

/// A look at the image for one thread.
struct Chooser<'a> {
    image: &'a [u32],
    layout: &'a Layout,
    thread: usize,
    random: &'a mut Random,
}

impl Chooser<'_> {
    fn operation(mut self) -> Operation {
        let at = self.layout.thread(self.thread);
        let (phase, pending, handler) = (self.image[at], self.image[at + 4], self.image[at + 5]);
        if handler != 0 && self.random.percent(85) {
            return Operation::Handle;
        }
        if pending != 0 && self.random.percent(50) {
            return Operation::Deliver;
        }
        match phase {
            1 => Operation::Reserve,
            2 => Operation::Check,
            3..=7 => Operation::Advance,
            _ => self.idle_operation(),
        }
    }

    fn idle_operation(&mut self) -> Operation {
        match self.random.below(20) {
            0..=3 => Operation::Allocate,
            4..=7 => self.swap(),
            8..=11 => self.load(),
            12..=13 => Operation::Use { slot: self.held_slot() },
            14..=15 => Operation::Clear { slot: self.slot() },
            _ => self.retire(),
        }
    }

    fn slot(&mut self) -> u32 {
        self.random.below(self.layout.slots as u32)
    }

    fn cell(&mut self) -> u32 {
        self.random.below(self.layout.cells as u32)
    }

    fn record(&mut self) -> u32 {
        self.random.between(1, self.layout.records as u32)
    }

    /// A slot, rather one that is marked.
    fn held_slot(&mut self) -> u32 {
        let marked = |slot: &u32| {
            let at = self.layout.slot(Section::Marks, self.thread, *slot as usize);
            self.image[at] == 1
        };
        let held: Vec<u32> = (0..self.layout.slots as u32).filter(marked).collect();
        if held.is_empty() {
            return self.slot();
        }
        self.random.one_of(&held)
    }

    /// A record, found by a few tries for one that suits.
    fn record_that(&mut self, suits: impl Fn(&Self, u32) -> bool) -> u32 {
        let mut record = self.record();
        for _ in 0..12 {
            if suits(self, record) {
                break;
            }
            record = 1 + record % self.layout.records as u32;
        }
        record
    }

    fn is_live(&self, record: u32) -> bool {
        self.image[self.layout.record(record as usize)] == 1
    }

    fn is_named(&self, record: u32) -> bool {
        self.layout.part(self.image, Section::Cells).contains(&record)
    }

    fn swap(&mut self) -> Operation {
        let cell = self.cell();
        let expected = match self.random.percent(85) {
            true => self.image[self.layout.cell(cell as usize)],
            false => self.random.below(self.layout.records as u32 + 1),
        };
        let new = match self.random.percent(45) {
            true => 0,
            false => self.record_that(Self::is_live),
        };
        Operation::Swap { cell, expected, new }
    }

    fn load(&mut self) -> Operation {
        Operation::Load {
            slot: self.slot(),
            cell: self.cell(),
        }
    }

    fn retire(&mut self) -> Operation {
        let record = self.record_that(|chooser, record| chooser.is_live(record) && !chooser.is_named(record));
        Operation::Retire { record }
    }
}
