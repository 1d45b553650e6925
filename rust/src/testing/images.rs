//! Images made by hand: sound ones that no schedule need reach, and ones at every bound of the damage rules.

use super::random::Random;
use super::schedules::near_bound;
use crate::layout::{Layout, Section, THREAD_WORDS};
use crate::terms::Settings;

/// The image that set-up would write, for settings at most one beyond their limits.
pub fn first_image(settings: &Settings) -> Vec<u32> {
    let layout = Layout::of(settings);
    let mut image = vec![0; layout.total()];
    for section in Section::ALL {
        image[layout.start(section) - 1] = layout.length(section) as u32;
    }
    image[1..7].copy_from_slice(&settings.to_words());
    image[layout.range(Section::Counts)].fill(settings.start);
    image
}

/// A sound image with any words that its rules allow.
pub fn sound_image(settings: &Settings, random: &mut Random) -> Vec<u32> {
    let layout = Layout::of(settings);
    let mut image = first_image(settings);
    let records = layout.records as u32;
    for section in [Section::Cells, Section::Private, Section::Published, Section::Scanned] {
        fill(&mut image[layout.range(section)], records, random);
    }
    fill(&mut image[layout.range(Section::Records)], 2, random);
    fill_marks(&mut image, &layout, random);
    fill_counts(&mut image, &layout, random);
    for thread in 0..layout.threads {
        fill_thread(&mut image, &layout, thread, random);
    }
    image
}

/// Fills a part with words up to a bound; how many of them are 0 differs from part to part.
fn fill(part: &mut [u32], most: u32, random: &mut Random) {
    let nulls = random.one_of(&[0, 20, 50, 90]);
    for word in part {
        if !random.percent(nulls) {
            *word = random.below(most + 1);
        }
    }
}

fn fill_marks(image: &mut [u32], layout: &Layout, random: &mut Random) {
    for at in 0..layout.length(Section::Marks) {
        let held = image[layout.start(Section::Private) + at] != 0 && random.percent(60);
        image[layout.start(Section::Marks) + at] = u32::from(held);
    }
}

/// Publish counts, and collected counts that equal them, are one less, or are anything.
fn fill_counts(image: &mut [u32], layout: &Layout, random: &mut Random) {
    for thread in 0..layout.threads {
        let count = match random.percent(70) {
            true => random.one_of(&[0, 1, u32::MAX, u32::MAX - 1]),
            false => random.word(),
        };
        image[layout.count(thread)] = count;
        for reclaimer in 0..layout.threads {
            let less = random.one_of(&[0, 0, 0, 1, 1, 2, u32::MAX]);
            image[layout.collected(reclaimer, thread)] = count.wrapping_sub(less);
        }
    }
}

/// A thread's phase, pending, handler and retire list.
fn fill_thread(image: &mut [u32], layout: &Layout, thread: usize, random: &mut Random) {
    let length = list_length(layout, random);
    let least = if length == 0 { 3 } else { 8 };
    let phase = random.below(least);
    let [u, v, w] = operands(layout, phase, length, random);
    let pending = random.below(2);
    let handler = match random.percent(50) {
        true => 0,
        false => random.below(layout.slots as u32 + 2),
    };
    let at = layout.thread(thread);
    image[at..at + THREAD_WORDS].copy_from_slice(&[phase, u, v, w, pending, handler]);
    fill_list(image, layout, thread, [phase, u, v, length], random);
}

/// A length for a retire list: often at a bound.
fn list_length(layout: &Layout, random: &mut Random) -> u32 {
    let (room, threshold) = (layout.room as u32, layout.threshold as u32);
    let bounds = [0, 1, room, room - 1, threshold, threshold - 1];
    match random.percent(70) {
        true => random.one_of(&bounds),
        false => random.below(room + 1),
    }
}

/// The three words of a phase, within their bounds.
fn operands(layout: &Layout, phase: u32, length: u32, random: &mut Random) -> [u32; 3] {
    let mut below = |bound: usize| match random.percent(30) {
        true => bound as u32 - 1,
        false => random.below(bound as u32),
    };
    match phase {
        1 | 2 => [below(layout.slots), below(layout.cells), below(layout.records + 1)],
        3..=5 => [below(layout.threads), 0, 0],
        6 => [below(layout.threads * layout.slots), 0, 0],
        7 => {
            let u = below(length as usize);
            [u, below(u as usize + 1), 0]
        }
        _ => [0, 0, 0],
    }
}

/// Entries: no 0 where they are in use, anything up to the highest record elsewhere.
fn fill_list(image: &mut [u32], layout: &Layout, thread: usize, state: [u32; 4], random: &mut Random) {
    let [phase, u, v, length] = state;
    let records = layout.records as u32;
    let list = layout.list(thread);
    let stale = random.one_of(&[0, 30, 100]);
    image[list] = length;
    for at in 0..layout.room as u32 {
        let used = at < length && (phase != 7 || at < v || at >= u);
        image[list + 1 + at as usize] = match used {
            true => random.between(1, records),
            false if random.percent(stale) => random.below(records + 1),
            false => 0,
        };
    }
}

/// An image with the thread that it was made for.
pub struct Made {
    pub image: Vec<u32>,
    pub thread: u32,
}

/// Images at every bound of the damage rules and one beyond it, each made from a sound image of these settings.
pub fn at_every_bound(settings: &Settings, random: &mut Random) -> Vec<Made> {
    let mut maker = Maker {
        layout: Layout::of(settings),
        settings: *settings,
        made: Vec::new(),
        random,
    };
    maker.lengths();
    maker.counts();
    maker.settings_in_place();
    maker.record_words();
    maker.small_words();
    maker.marks();
    maker.handlers();
    maker.phases();
    maker.list_lengths();
    maker.entries();
    maker.made
}

/// Images laid out for settings at a limit and one beyond it.
pub fn at_every_limit(base: &Settings) -> Vec<Made> {
    let all = super::shapes::each_limit(base);
    all.iter()
        .map(|settings| Made {
            image: first_image(settings),
            thread: 0,
        })
        .collect()
}

struct Maker<'a> {
    layout: Layout,
    settings: Settings,
    made: Vec<Made>,
    random: &'a mut Random,
}

impl Maker<'_> {
    /// Makes an image: a sound one, then changed.
    fn make(&mut self, thread: usize, change: impl FnOnce(&mut Vec<u32>, &Layout)) {
        let mut image = sound_image(&self.settings, self.random);
        change(&mut image, &self.layout);
        self.made.push(Made {
            image,
            thread: thread as u32,
        });
    }

    /// Makes an image in which one word is changed.
    fn write(&mut self, at: usize, word: u32) {
        let thread = self.any_thread();
        self.make(thread, |image, _| image[at] = word);
    }

    fn any_thread(&mut self) -> usize {
        self.random.place(self.layout.threads)
    }

    /// First, last and one other place of a section.
    fn places(&mut self, section: Section) -> [usize; 3] {
        let range = self.layout.range(section);
        [range.start, range.end - 1, range.start + self.random.place(range.len())]
    }

    /// Images that are too long or too short, down to nothing.
    fn lengths(&mut self) {
        let total = self.layout.total();
        for length in [0, 1, 6, 7, 8, total - 1, total, total + 1, total + 2, 2 * total] {
            self.make(0, |image, _| image.resize(length, 0));
        }
        for section in Section::ALL {
            let start = self.layout.start(section);
            self.make(0, |image, _| image.truncate(start));
            self.make(0, |image, _| {
                image.remove(start);
            });
            self.make(0, |image, _| image.insert(start, 0));
        }
    }

    /// Counts that are wrong by one, alone or with the section grown or shrunk to match.
    fn counts(&mut self) {
        for section in Section::ALL {
            let start = self.layout.start(section);
            let count = self.layout.length(section) as u32;
            for word in [count - 1, count + 1, 0, u32::MAX, count | 0x8000_0000] {
                self.write(start - 1, word);
            }
            self.make(0, |image, _| {
                image[start - 1] += 1;
                image.insert(start, 0);
            });
            self.make(0, |image, _| {
                image[start - 1] -= 1;
                image.remove(start);
            });
        }
    }

    /// Settings that no longer fit the image around them.
    fn settings_in_place(&mut self) {
        for at in 0..6 {
            let most = Settings::LARGEST.to_words()[at];
            let word = self.settings.to_words()[at];
            let words = [
                0,
                1,
                most,
                most.wrapping_add(1),
                u32::MAX,
                word.wrapping_sub(1),
                word.wrapping_add(1),
            ];
            words.into_iter().for_each(|word| self.write(1 + at, word));
        }
    }

    /// Cells, slots, entries and scanned words at the highest record and beyond.
    fn record_words(&mut self) {
        let records = self.layout.records as u32;
        let sections = [Section::Cells, Section::Private, Section::Published, Section::Scanned];
        for section in sections {
            for at in self.places(section) {
                let words = [0, records, records + 1, u32::MAX, 0x8000_0000];
                words.into_iter().for_each(|word| self.write(at, word));
            }
        }
    }

    /// Statuses, marks and pending pings at their bounds and beyond; counts at theirs, which nothing bounds.
    fn small_words(&mut self) {
        for at in self.places(Section::Records) {
            [0, 1, 2, 3, u32::MAX, 0x8000_0000]
                .into_iter()
                .for_each(|word| self.write(at, word));
        }
        for thread in self.some_threads() {
            let at = self.layout.thread(thread) + 4;
            [0, 1, 2, u32::MAX, 0x8000_0001]
                .into_iter()
                .for_each(|word| self.write(at, word));
        }
        for section in [Section::Counts, Section::Collected] {
            for at in self.places(section) {
                [0, u32::MAX].into_iter().for_each(|word| self.write(at, word));
            }
        }
    }

    fn some_threads(&mut self) -> [usize; 3] {
        [0, self.layout.threads - 1, self.any_thread()]
    }

    /// Marks beside empty slots and others.
    fn marks(&mut self) {
        let (private, marks) = (self.layout.start(Section::Private), self.layout.start(Section::Marks));
        for at in self.places(Section::Marks).map(|place| place - marks) {
            for (slot, mark) in [
                (0, 0),
                (0, 1),
                (1, 0),
                (1, 1),
                (0, 2),
                (1, 2),
                (1, u32::MAX),
                (1, 0x8000_0001),
            ] {
                self.make(at / self.layout.slots, |image, _| {
                    image[private + at] = slot;
                    image[marks + at] = mark;
                });
            }
        }
    }

    /// Handlers in all their places and beyond.
    fn handlers(&mut self) {
        let slots = self.layout.slots as u32;
        for thread in self.some_threads() {
            let at = self.layout.thread(thread) + 5;
            for word in [0, 1, slots, slots + 1, slots + 2, u32::MAX] {
                self.make(thread, |image, _| image[at] = word);
            }
        }
    }

    /// Makes an image in which a thread has this state and a list of this length, all of whose entries are record 1.
    fn state(&mut self, phase: u32, operands: [u32; 3], length: u32) {
        let thread = self.any_thread();
        self.make(thread, |image, layout| {
            let (at, list) = (layout.thread(thread), layout.list(thread));
            image[at] = phase;
            image[at + 1..at + 4].copy_from_slice(&operands);
            image[at + 5] = 0;
            image[list] = length;
            image[list + 1..=list + layout.room].fill(1);
        });
    }

    /// Every phase with each of its words at its bound and beyond, and with a list that is empty and one that isn't.
    fn phases(&mut self) {
        let (room, length) = (self.layout.room as u32, 1 + self.random.below(self.layout.room as u32));
        for phase in 0..9 {
            for length in [0, 1, length, room] {
                self.state(phase, [0, 0, 0], length);
            }
            let bounds = self.operand_bounds(phase, length);
            for (at, bound) in bounds.into_iter().enumerate() {
                for word in [bound.saturating_sub(1), bound, bound + 1, u32::MAX, 0x8000_0000] {
                    let mut operands = [0; 3];
                    operands[at] = word;
                    self.state(phase, operands, length);
                }
            }
            self.state(phase, bounds.map(|bound| bound.saturating_sub(1)), length);
        }
        self.state(u32::MAX, [0, 0, 0], 1);
        self.freeing();
    }

    /// What each word of a phase has to be below.
    fn operand_bounds(&self, phase: u32, length: u32) -> [u32; 3] {
        let layout = &self.layout;
        match phase {
            1 | 2 => [layout.slots, layout.cells, layout.records + 1].map(|bound| bound as u32),
            3..=5 => [layout.threads as u32, 1, 1],
            6 => [(layout.threads * layout.slots) as u32, 1, 1],
            7 => [length, 1, 1],
            _ => [1, 1, 1],
        }
    }

    /// The last phase with its two places next to each other, apart, and crossed.
    fn freeing(&mut self) {
        let room = self.layout.room as u32;
        for length in [1, 2, room - 1, room] {
            for u in [0, 1, length - 1, length, length + 1] {
                for v in [0, u.saturating_sub(1), u, u + 1] {
                    self.state(7, [u, v, 0], length);
                }
            }
        }
    }

    /// List lengths at the room and beyond it, and at the threshold.
    fn list_lengths(&mut self) {
        let (room, threshold) = (self.layout.room as u32, self.layout.threshold as u32);
        for length in [
            0,
            1,
            threshold - 1,
            threshold,
            room - 1,
            room,
            room + 1,
            u32::MAX,
            0x8000_0000,
        ] {
            for phase in [0, 3] {
                self.state(phase, [0, 0, 0], length);
            }
        }
    }

    /// Entries of 0, of the highest record and beyond, inside and outside what is in use.
    fn entries(&mut self) {
        let (room, records) = (self.layout.room, self.layout.records as u32);
        for entry in [0, records, records + 1, u32::MAX, 0x8000_0000] {
            for length in [1, room / 2, room] {
                for at in [0, length.saturating_sub(1), length, room - 1] {
                    self.entry([0, 0, 0], length, at, entry);
                    self.entry([5, 0, 0], length, at, entry);
                }
            }
            let (v, u) = (room / 3, room / 2);
            for at in [0, v.saturating_sub(1), v, u.saturating_sub(1), u, room - 2, room - 1] {
                self.entry([7, u as u32, v as u32], room - 1, at, entry);
                self.entry([7, u as u32, u as u32], room - 1, at, entry);
                self.entry([7, u as u32, 0], room, at, entry);
            }
        }
    }

    /// Makes an image in which a thread's list has this entry.
    fn entry(&mut self, state: [u32; 3], length: usize, at: usize, entry: u32) {
        if at >= self.layout.room {
            return;
        }
        let [phase, u, v] = state;
        self.state(phase, [u, v, 0], length as u32);
        let made = self.made.last_mut().expect("an image was just made");
        made.image[self.layout.list(made.thread as usize) + 1 + at] = entry;
    }
}

/// A place of an image and a word near a bound for it.
pub fn stray_word(image: &[u32], layout: &Layout, random: &mut Random) -> (usize, u32) {
    let section = random.one_of(&Section::ALL);
    let at = match random.percent(70) {
        true => layout.start(section) + random.place(layout.length(section)),
        false => random.place(image.len()),
    };
    let word = match random.percent(25) {
        true => image[at].wrapping_add(random.one_of(&[1, u32::MAX])),
        false => near_bound(layout, random),
    };
    (at, word)
}
