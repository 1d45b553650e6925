//! Where the sections of an image are.

use crate::terms::Settings;
use std::ops::Range;

/// The sections in the order in which they stand.
#[derive(Clone, Copy, Debug, PartialEq, Eq)]
pub enum Section {
    Settings,
    Cells,
    Records,
    Private,
    Published,
    Marks,
    Counts,
    Threads,
    Collected,
    Lists,
    Scanned,
}

impl Section {
    /// Every section, first to last.
    pub const ALL: [Section; 11] = [
        Section::Settings,
        Section::Cells,
        Section::Records,
        Section::Private,
        Section::Published,
        Section::Marks,
        Section::Counts,
        Section::Threads,
        Section::Collected,
        Section::Lists,
        Section::Scanned,
    ];
}

/// How many words the state of a thread has.
pub const THREAD_WORDS: usize = 6;

/// The shape of an image: the settings as sizes, and where each section starts and how long it is.
#[derive(Clone, Copy, Debug)]
pub struct Layout {
    pub threads: usize,
    pub slots: usize,
    pub cells: usize,
    pub records: usize,
    pub threshold: usize,
    /// How many entries a retire list has room for.
    pub room: usize,
    starts: [usize; 11],
    lengths: [usize; 11],
}

impl Layout {
    /// The shape that settings give, for settings at most one beyond their limits: images with such settings are
    /// laid out in tests to be refused.
    pub fn of(settings: &Settings) -> Layout {
        let [threads, slots, cells, records, threshold, _] = settings.to_words().map(|word| word as usize);
        let all_slots = threads * slots;
        let room = threshold.max(all_slots + 1);
        let lengths = [
            6,
            cells,
            records,
            all_slots,
            all_slots,
            all_slots,
            threads,
            THREAD_WORDS * threads,
            threads * threads,
            threads * (room + 1),
            threads * all_slots,
        ];
        let mut starts = [1; 11];
        for at in 1..starts.len() {
            starts[at] = starts[at - 1] + lengths[at - 1] + 1;
        }
        Layout {
            threads,
            slots,
            cells,
            records,
            threshold,
            room,
            starts,
            lengths,
        }
    }

    /// How many words an image of this shape has.
    pub fn total(&self) -> usize {
        self.starts[10] + self.lengths[10]
    }

    /// The place of a section's first word; its count stands before it.
    pub fn start(&self, section: Section) -> usize {
        self.starts[section as usize]
    }

    /// How many words a section has, its count left out.
    pub fn length(&self, section: Section) -> usize {
        self.lengths[section as usize]
    }

    /// The places of a section's words.
    pub fn range(&self, section: Section) -> Range<usize> {
        let start = self.start(section);
        start..start + self.length(section)
    }

    /// A section's words.
    pub fn part<'a>(&self, image: &'a [u32], section: Section) -> &'a [u32] {
        &image[self.range(section)]
    }

    /// The place of a cell.
    pub fn cell(&self, cell: usize) -> usize {
        self.start(Section::Cells) + cell
    }

    /// The place of a record's status; records count from 1.
    pub fn record(&self, record: usize) -> usize {
        self.start(Section::Records) + record - 1
    }

    /// The place of a word of one of the three sections that have a row of slots for each thread.
    pub fn slot(&self, section: Section, thread: usize, slot: usize) -> usize {
        self.start(section) + thread * self.slots + slot
    }

    /// The place of a thread's publish count.
    pub fn count(&self, thread: usize) -> usize {
        self.start(Section::Counts) + thread
    }

    /// The place of the first word of a thread's state.
    pub fn thread(&self, thread: usize) -> usize {
        self.start(Section::Threads) + thread * THREAD_WORDS
    }

    /// The place of the count that a reclaimer has collected of a thread.
    pub fn collected(&self, reclaimer: usize, thread: usize) -> usize {
        self.start(Section::Collected) + reclaimer * self.threads + thread
    }

    /// The place of the length of a thread's retire list; the entries follow it.
    pub fn list(&self, thread: usize) -> usize {
        self.start(Section::Lists) + thread * (self.room + 1)
    }

    /// The places of the words that a reclaimer has scanned.
    pub fn scanned(&self, reclaimer: usize) -> Range<usize> {
        let row = self.threads * self.slots;
        let start = self.start(Section::Scanned) + reclaimer * row;
        start..start + row
    }
}
