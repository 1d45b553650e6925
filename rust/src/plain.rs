//! The machine in plain Rust, over a slice of words.
//!
//! It was written from the requirements paper without a look at the proved code, so that the differential test
//! compares two separate readings. The damage check comes in two forms, and every function that needs a sound image
//! is generic over them: [`Idiomatic`] leaves at the first word that is wrong, [`Vectorized`] reads on, in loops that
//! the compiler turns into vector instructions.

use crate::layout::{Layout, Section, THREAD_WORDS};
use crate::terms::{Operation, Refusal, Reply, Settings, Step};
use std::ops::Range;

/// Statuses of a record.
const FREE: u32 = 0;
const LIVE: u32 = 1;
const RETIRED: u32 = 2;

/// Phases of a thread.
const IDLE: u32 = 0;
const LOADED: u32 = 1;
const RESERVED: u32 = 2;
const COLLECTING: u32 = 3;
const PINGING: u32 = 4;
const WAITING: u32 = 5;
const SCANNING: u32 = 6;
const FREEING: u32 = 7;

/// Places in the state of a thread.
const PHASE: usize = 0;
const U: usize = 1;
const V: usize = 2;
const W: usize = 3;
const PENDING: usize = 4;
const HANDLER: usize = 5;

/// The number of the one operation that goes on while a handler runs.
const HANDLE: u32 = 10;

/// Operation by phase: which phases allow each operation.
#[rustfmt::skip]
const ALLOWED: [[bool; 8]; Operation::COUNT as usize] = {
    const ANY: [bool; 8] = [true; 8];
    const IN_IDLE: [bool; 8] = [true, false, false, false, false, false, false, false];
    const IN_LOADED: [bool; 8] = [false, true, false, false, false, false, false, false];
    const IN_RESERVED: [bool; 8] = [false, false, true, false, false, false, false, false];
    const IN_RECLAIM: [bool; 8] = [false, false, false, true, true, true, true, true];
    [
        IN_IDLE, IN_IDLE, IN_IDLE, IN_LOADED, IN_RESERVED, IN_IDLE, IN_IDLE, IN_IDLE, IN_RECLAIM, ANY, ANY,
    ]
};

// ---------------------------------------------------------------------------------------------------------------
// Set-up
// ---------------------------------------------------------------------------------------------------------------

/// How many words an image with these settings has; none if a setting is beyond its limit.
pub fn words(settings: &Settings) -> Option<usize> {
    settings.within_limits().then(|| Layout::of(settings).total())
}

/// Writes the first image into a buffer that is exactly as long as the settings need.
pub fn set_up(image: &mut [u32], settings: &Settings) -> Result<(), Refusal> {
    let length = words(settings).ok_or(Refusal::Setting)?;
    if image.len() != length {
        return Err(Refusal::BufferLength);
    }
    let layout = Layout::of(settings);
    image.fill(0);
    for section in Section::ALL {
        image[layout.start(section) - 1] = layout.length(section) as u32;
    }
    image[layout.range(Section::Settings)].copy_from_slice(&settings.to_words());
    image[layout.range(Section::Counts)].fill(settings.start);
    Ok(())
}

// ---------------------------------------------------------------------------------------------------------------
// The damage check
// ---------------------------------------------------------------------------------------------------------------

/// A form of the damage check. It is asked about images whose length, counts and settings are right.
pub trait Check {
    /// Whether a word of the sections after the settings is wrong.
    fn contents_damaged(image: &[u32], layout: &Layout) -> bool;
}

/// Whether an image is damaged.
pub fn damaged<C: Check>(image: &[u32]) -> bool {
    sound_layout::<C>(image).is_none()
}

/// The shape of an image, if it isn't damaged.
fn sound_layout<C: Check>(image: &[u32]) -> Option<Layout> {
    let settings = Settings::from_words(image.get(1..7)?.try_into().ok()?);
    if !settings.within_limits() {
        return None;
    }
    let layout = Layout::of(&settings);
    let shaped = image.len() == layout.total() && counts_right(image, &layout);
    (shaped && !C::contents_damaged(image, &layout)).then_some(layout)
}

/// Whether every section stands after its count.
fn counts_right(image: &[u32], layout: &Layout) -> bool {
    Section::ALL
        .iter()
        .all(|&section| image[layout.start(section) - 1] as usize == layout.length(section))
}

/// The state of a thread, read out of the image.
#[derive(Clone, Copy)]
struct Thread {
    phase: u32,
    u: u32,
    v: u32,
    w: u32,
    pending: u32,
    handler: u32,
}

impl Thread {
    fn read(words: &[u32]) -> Thread {
        Thread {
            phase: words[PHASE],
            u: words[U],
            v: words[V],
            w: words[W],
            pending: words[PENDING],
            handler: words[HANDLER],
        }
    }

    /// Whether pending, handler, phase or a word of the phase is wrong, for a retire list of this length.
    fn damaged(&self, length: u32, layout: &Layout) -> bool {
        self.pending > 1 || self.handler as usize > layout.slots + 1 || self.phase_damaged(length, layout)
    }

    fn phase_damaged(&self, length: u32, layout: &Layout) -> bool {
        let u = self.u as usize;
        let operands_damaged = match self.phase {
            IDLE => self.u != 0 || self.v != 0 || self.w != 0,
            LOADED | RESERVED => {
                u >= layout.slots || self.v as usize >= layout.cells || self.w as usize > layout.records
            }
            COLLECTING | PINGING | WAITING => u >= layout.threads || self.v != 0 || self.w != 0,
            SCANNING => u >= layout.threads * layout.slots || self.v != 0 || self.w != 0,
            FREEING => self.u >= length || self.v > self.u || self.w != 0,
            _ => true,
        };
        operands_damaged || (self.phase >= COLLECTING && length == 0)
    }

    /// The two ranges of the retire list that are in use. The first ends where the other starts, or before it.
    fn in_use(&self, length: u32) -> [Range<usize>; 2] {
        let length = length as usize;
        match self.phase {
            FREEING => [0..self.v as usize, self.u as usize..length],
            _ => [0..length, length..length],
        }
    }
}

/// The check as one writes it at first: it leaves at the first wrong word.
pub struct Idiomatic;

impl Check for Idiomatic {
    fn contents_damaged(image: &[u32], layout: &Layout) -> bool {
        let part = |section| layout.part(image, section);
        let above = |section, limit: usize| part(section).iter().any(|&word| word as usize > limit);
        above(Section::Cells, layout.records)
            || above(Section::Records, 2)
            || above(Section::Private, layout.records)
            || above(Section::Published, layout.records)
            || above(Section::Scanned, layout.records)
            || above(Section::Marks, 1)
            || marks_beside_null(part(Section::Marks), part(Section::Private))
            || threads_and_lists(image, layout).any(|(thread, list)| list_damaged(&thread, list, layout))
    }
}

/// Each thread's state with its retire list (the length, then the entries).
fn threads_and_lists<'a>(image: &'a [u32], layout: &Layout) -> impl Iterator<Item = (Thread, &'a [u32])> {
    let threads = layout.part(image, Section::Threads).chunks_exact(THREAD_WORDS);
    let lists = layout.part(image, Section::Lists).chunks_exact(layout.room + 1);
    threads.map(Thread::read).zip(lists)
}

fn marks_beside_null(marks: &[u32], private: &[u32]) -> bool {
    let mut pairs = marks.iter().zip(private);
    pairs.any(|(&mark, &record)| mark == 1 && record == 0)
}

fn list_damaged(thread: &Thread, list: &[u32], layout: &Layout) -> bool {
    let (length, entries) = (list[0], &list[1..]);
    length as usize > layout.room
        || thread.damaged(length, layout)
        || entries.iter().any(|&entry| entry as usize > layout.records)
        || thread
            .in_use(length)
            .into_iter()
            .any(|range| entries[range].contains(&0))
}

/// The check that reads every word, in loops without an early exit.
///
/// Each loop collects its findings in the top bit of a word. For limits below 2³¹ that takes subtractions and ORs alone,
/// which every x86-64 processor has for vectors; it has none that compare unsigned words.
pub struct Vectorized;

impl Check for Vectorized {
    fn contents_damaged(image: &[u32], layout: &Layout) -> bool {
        let records = layout.records as u32;
        let part = |section| layout.part(image, section);
        let findings = beyond(part(Section::Cells), records)
            | beyond(part(Section::Records), 2)
            | beyond(part(Section::Published), records)
            | beyond(part(Section::Scanned), records)
            | slot_findings(part(Section::Private), part(Section::Marks), records)
            | threads_and_lists(image, layout)
                .fold(0, |found, (thread, list)| found | list_findings(&thread, list, layout));
        top_bit(findings)
    }
}

fn top_bit(word: u32) -> bool {
    word >> 31 != 0
}

/// How many words the loop for long parts takes at a time: four vectors of four.
const AT_A_TIME: usize = 16;

/// The findings about words that have to be at most `most` (below 2³¹). Long parts are read several vectors at a time,
/// which is faster there and slower for short ones.
#[inline(always)]
fn beyond(words: &[u32], most: u32) -> u32 {
    if words.len() < 4 * AT_A_TIME {
        return beyond_short(words, most);
    }
    let mut found = [0; AT_A_TIME];
    let mut chunks = words.chunks_exact(AT_A_TIME);
    for chunk in &mut chunks {
        for (found, &word) in found.iter_mut().zip(chunk) {
            *found |= finding(word, most);
        }
    }
    let rest = beyond_short(chunks.remainder(), most);
    found.iter().fold(rest, |all, one| all | one)
}

#[inline(always)]
fn beyond_short(words: &[u32], most: u32) -> u32 {
    words.iter().fold(0, |found, &word| found | finding(word, most))
}

/// The finding about one word. If it is above `most`, its difference from `most` has the top bit set; but for words that
/// are more than 2³¹ above `most`, which have the top bit themselves.
#[inline(always)]
fn finding(word: u32, most: u32) -> u32 {
    word | most.wrapping_sub(word)
}

/// The findings about private slots and their marks: a mark of 1 lets through the top bit of the slot less 1.
#[inline(always)]
fn slot_findings(private: &[u32], marks: &[u32], records: u32) -> u32 {
    let pairs = private.iter().zip(marks);
    pairs.fold(0, |found, (&record, &mark)| {
        let beside_null = (mark << 31) & record.wrapping_sub(1);
        found | finding(record, records) | finding(mark, 1) | beside_null
    })
}

/// The findings about a thread and its retire list. The ranges in use are clamped, so that they can be read even where
/// the thread's words are wrong.
#[inline(always)]
fn list_findings(thread: &Thread, list: &[u32], layout: &Layout) -> u32 {
    let (length, entries) = (list[0], &list[1..]);
    let wrong = length as usize > layout.room || thread.damaged(length, layout);
    let [first, second] = thread.in_use(length).map(|range| {
        let end = range.end.min(layout.room);
        &entries[range.start.min(end)..end]
    });
    let findings = beyond(entries, layout.records as u32) | nulls(first) | nulls(second);
    findings | (u32::from(wrong) << 31)
}

/// The findings about entries that mustn't be 0.
#[inline(always)]
fn nulls(entries: &[u32]) -> u32 {
    entries.iter().fold(0, |found, &entry| found | entry.wrapping_sub(1))
}

// ---------------------------------------------------------------------------------------------------------------
// The question for a retire list
// ---------------------------------------------------------------------------------------------------------------

/// The places of the entries of a thread's retire list.
pub fn retired<C: Check>(image: &[u32], thread: u32) -> Result<Range<usize>, Refusal> {
    let layout = sound_layout::<C>(image).ok_or(Refusal::Damaged)?;
    let thread = thread as usize;
    if thread >= layout.threads {
        return Err(Refusal::NoThread);
    }
    let list = layout.list(thread);
    Ok(list + 1..list + 1 + image[list] as usize)
}

// ---------------------------------------------------------------------------------------------------------------
// The step
// ---------------------------------------------------------------------------------------------------------------

/// Does one step. A step that is refused changes no word.
pub fn step<C: Check>(image: &mut [u32], step: Step) -> Reply {
    attempt::<C>(image, step).into()
}

fn attempt<C: Check>(image: &mut [u32], step: Step) -> Result<u32, Refusal> {
    let layout = sound_layout::<C>(image).ok_or(Refusal::Damaged)?;
    if step.op >= Operation::COUNT {
        return Err(Refusal::NoOperation);
    }
    let me = step.thread as usize;
    if me >= layout.threads {
        return Err(Refusal::NoThread);
    }
    let operation = Operation::from_words([step.op, step.a, step.b, step.c])
        .filter(|operation| operands_fit(operation, &layout))
        .ok_or(Refusal::Operand)?;
    let mut actor = Actor {
        image,
        layout: &layout,
        me,
    };
    actor.may_act(step.op)?;
    actor.perform(operation)
}

/// Whether slots, cells and records that an operation names are there.
fn operands_fit(operation: &Operation, layout: &Layout) -> bool {
    let is_cell = |cell: u32| (cell as usize) < layout.cells;
    let is_slot = |slot: u32| (slot as usize) < layout.slots;
    let is_record_or_null = |record: u32| record as usize <= layout.records;
    match *operation {
        Operation::Swap { cell, expected, new } => {
            is_cell(cell) && is_record_or_null(expected) && is_record_or_null(new)
        }
        Operation::Load { slot, cell } => is_slot(slot) && is_cell(cell),
        Operation::Use { slot } | Operation::Clear { slot } => is_slot(slot),
        Operation::Retire { record } => record != 0 && is_record_or_null(record),
        _ => true,
    }
}

/// The thread that acts, on a sound image.
struct Actor<'a> {
    image: &'a mut [u32],
    layout: &'a Layout,
    me: usize,
}

impl Actor<'_> {
    /// A word of the acting thread's state.
    fn get(&self, word: usize) -> u32 {
        self.image[self.layout.thread(self.me) + word]
    }

    fn set(&mut self, word: usize, value: u32) {
        let at = self.layout.thread(self.me) + word;
        self.image[at] = value;
    }

    /// Goes to a phase with its three words.
    fn enter(&mut self, phase: u32, operands: [u32; 3]) {
        let at = self.layout.thread(self.me);
        self.image[at + PHASE] = phase;
        self.image[at + U..=at + W].copy_from_slice(&operands);
    }

    fn status(&mut self, record: u32) -> &mut u32 {
        &mut self.image[self.layout.record(record as usize)]
    }

    fn cell(&mut self, cell: u32) -> &mut u32 {
        &mut self.image[self.layout.cell(cell as usize)]
    }

    /// A word of the acting thread's row of private slots, published slots or marks.
    fn mine(&mut self, section: Section, slot: u32) -> &mut u32 {
        &mut self.image[self.layout.slot(section, self.me, slot as usize)]
    }

    /// Refuses what a running handler or the phase forbids.
    fn may_act(&self, op: u32) -> Result<(), Refusal> {
        if op != HANDLE && self.get(HANDLER) != 0 {
            return Err(Refusal::InHandler);
        }
        match ALLOWED[op as usize][self.get(PHASE) as usize] {
            true => Ok(()),
            false => Err(Refusal::NotNow),
        }
    }

    fn perform(&mut self, operation: Operation) -> Result<u32, Refusal> {
        match operation {
            Operation::Allocate => self.allocate(),
            Operation::Swap { cell, expected, new } => self.swap(cell, expected, new),
            Operation::Load { slot, cell } => Ok(self.load(slot, cell)),
            Operation::Reserve => Ok(self.reserve()),
            Operation::Check => Ok(self.check()),
            Operation::Use { slot } => self.use_slot(slot),
            Operation::Clear { slot } => Ok(self.clear(slot)),
            Operation::Retire { record } => self.retire(record),
            Operation::Advance => Ok(self.advance()),
            Operation::Deliver => self.deliver(),
            Operation::Handle => self.handle(),
        }
    }

    fn allocate(&mut self) -> Result<u32, Refusal> {
        let records = &mut self.image[self.layout.range(Section::Records)];
        let at = records
            .iter()
            .position(|&status| status == FREE)
            .ok_or(Refusal::NoFreeRecord)?;
        records[at] = LIVE;
        Ok(at as u32 + 1)
    }

    fn swap(&mut self, cell: u32, expected: u32, new: u32) -> Result<u32, Refusal> {
        if new != 0 && *self.status(new) != LIVE {
            return Err(Refusal::NotLive);
        }
        let stored = *self.cell(cell) == expected;
        if stored {
            *self.cell(cell) = new;
        }
        Ok(u32::from(stored))
    }

    fn load(&mut self, slot: u32, cell: u32) -> u32 {
        let record = *self.cell(cell);
        self.enter(LOADED, [slot, cell, record]);
        record
    }

    fn reserve(&mut self) -> u32 {
        let (slot, record) = (self.get(U), self.get(W));
        *self.mine(Section::Private, slot) = record;
        *self.mine(Section::Marks, slot) = 0;
        self.set(PHASE, RESERVED);
        record
    }

    fn check(&mut self) -> u32 {
        let (slot, cell, record) = (self.get(U), self.get(V), self.get(W));
        let equal = *self.cell(cell) == record;
        if equal && record != 0 {
            *self.mine(Section::Marks, slot) = 1;
        }
        self.enter(IDLE, [0, 0, 0]);
        u32::from(equal)
    }

    fn use_slot(&mut self, slot: u32) -> Result<u32, Refusal> {
        match *self.mine(Section::Marks, slot) {
            0 => Err(Refusal::NotHeld),
            _ => Ok(*self.mine(Section::Private, slot)),
        }
    }

    fn clear(&mut self, slot: u32) -> u32 {
        *self.mine(Section::Private, slot) = 0;
        *self.mine(Section::Marks, slot) = 0;
        0
    }

    fn retire(&mut self, record: u32) -> Result<u32, Refusal> {
        if *self.status(record) != LIVE {
            return Err(Refusal::NotLive);
        }
        if self.layout.part(self.image, Section::Cells).contains(&record) {
            return Err(Refusal::Named);
        }
        let list = self.layout.list(self.me);
        let length = self.image[list] as usize;
        if length == self.layout.room {
            return Err(Refusal::ListFull);
        }
        *self.status(record) = RETIRED;
        self.image[list + 1 + length] = record;
        self.image[list] += 1;
        if length + 1 >= self.layout.threshold {
            self.enter(COLLECTING, [0, 0, 0]);
        }
        Ok(length as u32 + 1)
    }

    fn deliver(&mut self) -> Result<u32, Refusal> {
        if self.get(PENDING) == 0 {
            return Err(Refusal::NotNow);
        }
        self.set(PENDING, 0);
        self.set(HANDLER, 1);
        Ok(1)
    }

    fn handle(&mut self) -> Result<u32, Refusal> {
        let handler = self.get(HANDLER);
        if handler == 0 {
            return Err(Refusal::NotNow);
        }
        if handler as usize > self.layout.slots {
            let count = self.layout.count(self.me);
            self.image[count] = self.image[count].wrapping_add(1);
            self.set(HANDLER, 0);
            return Ok(2);
        }
        *self.mine(Section::Published, handler - 1) = *self.mine(Section::Private, handler - 1);
        self.set(HANDLER, handler + 1);
        Ok(1)
    }

    // The reclaim: one item for each advance.

    fn advance(&mut self) -> u32 {
        let item = self.get(U) as usize;
        match self.get(PHASE) {
            COLLECTING => self.collect(item),
            PINGING => self.ping(item),
            WAITING => self.wait(item),
            SCANNING => self.scan(item),
            _ => self.free(item),
        }
    }

    /// Goes on to the item after this one, or after the last to the next phase.
    fn next_of(&mut self, item: usize, items: usize) -> u32 {
        if item + 1 < items {
            self.set(U, item as u32 + 1);
        } else {
            self.enter(self.get(PHASE) + 1, [0, 0, 0]);
        }
        1
    }

    fn collect(&mut self, other: usize) -> u32 {
        let count = self.image[self.layout.count(other)];
        self.image[self.layout.collected(self.me, other)] = count;
        self.next_of(other, self.layout.threads)
    }

    fn ping(&mut self, other: usize) -> u32 {
        if other != self.me {
            self.image[self.layout.thread(other) + PENDING] = 1;
        }
        self.next_of(other, self.layout.threads)
    }

    fn wait(&mut self, other: usize) -> u32 {
        let count = self.image[self.layout.count(other)];
        let collected = self.image[self.layout.collected(self.me, other)];
        if other != self.me && count == collected {
            return 0;
        }
        self.next_of(other, self.layout.threads)
    }

    fn scan(&mut self, item: usize) -> u32 {
        let (other, slot) = (item / self.layout.slots, item % self.layout.slots);
        let section = if other == self.me {
            Section::Private
        } else {
            Section::Published
        };
        let word = self.image[self.layout.slot(section, other, slot)];
        self.image[self.layout.scanned(self.me).start + item] = word;
        self.next_of(item, self.layout.threads * self.layout.slots)
    }

    /// Takes an entry out of the list; it is put back, further to the front, if a scanned word names it.
    fn free(&mut self, item: usize) -> u32 {
        let list = self.layout.list(self.me);
        let record = std::mem::take(&mut self.image[list + 1 + item]);
        let kept = self.image[self.layout.scanned(self.me)].contains(&record);
        let mut kept_so_far = self.get(V);
        if kept {
            self.image[list + 1 + kept_so_far as usize] = record;
            kept_so_far += 1;
        } else {
            *self.status(record) = FREE;
        }
        if item + 1 < self.image[list] as usize {
            self.enter(FREEING, [item as u32 + 1, kept_so_far, 0]);
        } else {
            self.image[list] = kept_so_far;
            self.enter(IDLE, [0, 0, 0]);
        }
        if kept {
            2
        } else {
            3
        }
    }
}
