//! The words that every machine of this package speaks in.

use std::fmt;

/// What a machine is set up for. The fields stand in the order of the image's first section.
#[derive(Clone, Copy, Debug, PartialEq, Eq)]
pub struct Settings {
    /// How many threads there are: 1 to 16.
    pub threads: u32,
    /// How many slots each thread has: 1 to 8.
    pub slots: u32,
    /// How many cells there are: 1 to 256.
    pub cells: u32,
    /// How many records there are: 1 to 1,024.
    pub records: u32,
    /// The length at which a retire list is reclaimed: 1 to 256.
    pub threshold: u32,
    /// The publish count that every thread starts with.
    pub start: u32,
}

impl Settings {
    /// The highest values; the lowest are 1, and the start count has no limit.
    pub const LARGEST: Settings = Settings {
        threads: 16,
        slots: 8,
        cells: 256,
        records: 1024,
        threshold: 256,
        start: u32::MAX,
    };

    /// The settings as six words.
    pub fn to_words(self) -> [u32; 6] {
        [
            self.threads,
            self.slots,
            self.cells,
            self.records,
            self.threshold,
            self.start,
        ]
    }

    /// The settings that six words stand for.
    pub fn from_words(words: [u32; 6]) -> Settings {
        let [threads, slots, cells, records, threshold, start] = words;
        Settings {
            threads,
            slots,
            cells,
            records,
            threshold,
            start,
        }
    }

    /// Whether every setting is within its limits.
    pub fn within_limits(&self) -> bool {
        let most = Settings::LARGEST;
        (1..=most.threads).contains(&self.threads)
            && (1..=most.slots).contains(&self.slots)
            && (1..=most.cells).contains(&self.cells)
            && (1..=most.records).contains(&self.records)
            && (1..=most.threshold).contains(&self.threshold)
    }
}

impl fmt::Display for Settings {
    fn fmt(&self, out: &mut fmt::Formatter) -> fmt::Result {
        let [t, h, c, r, f, s] = self.to_words();
        write!(out, "{t} {h} {c} {r} {f} {s}")
    }
}

/// The eleven operations with their operands. The declaration's order gives their numbers.
#[derive(Clone, Copy, Debug, PartialEq, Eq)]
pub enum Operation {
    /// Makes the lowest free record live.
    Allocate,
    /// Stores `new` in a cell if it has the expected record.
    Swap { cell: u32, expected: u32, new: u32 },
    /// Reads a cell for a slot.
    Load { slot: u32, cell: u32 },
    /// Puts the loaded record into its slot.
    Reserve,
    /// Reads the cell again and marks the slot as held if nothing has changed.
    Check,
    /// Uses the record that a slot holds.
    Use { slot: u32 },
    /// Empties a slot.
    Clear { slot: u32 },
    /// Puts a record on the thread's retire list.
    Retire { record: u32 },
    /// Does one item of the thread's reclaim.
    Advance,
    /// Takes a pending ping and starts the handler.
    Deliver,
    /// Does one item of the handler.
    Handle,
}

impl Operation {
    /// How many operations there are.
    pub const COUNT: u32 = 11;

    /// The operation as words: its number and three operands, 0 where there is none.
    pub fn to_words(self) -> [u32; 4] {
        match self {
            Operation::Allocate => [0, 0, 0, 0],
            Operation::Swap { cell, expected, new } => [1, cell, expected, new],
            Operation::Load { slot, cell } => [2, slot, cell, 0],
            Operation::Reserve => [3, 0, 0, 0],
            Operation::Check => [4, 0, 0, 0],
            Operation::Use { slot } => [5, slot, 0, 0],
            Operation::Clear { slot } => [6, slot, 0, 0],
            Operation::Retire { record } => [7, record, 0, 0],
            Operation::Advance => [8, 0, 0, 0],
            Operation::Deliver => [9, 0, 0, 0],
            Operation::Handle => [10, 0, 0, 0],
        }
    }

    /// The operation that four words stand for; none if the number isn't one, or a word that should be 0 isn't.
    pub fn from_words(words: [u32; 4]) -> Option<Operation> {
        let [op, a, b, c] = words;
        let read = match op {
            0 => Operation::Allocate,
            1 => Operation::Swap {
                cell: a,
                expected: b,
                new: c,
            },
            2 => Operation::Load { slot: a, cell: b },
            3 => Operation::Reserve,
            4 => Operation::Check,
            5 => Operation::Use { slot: a },
            6 => Operation::Clear { slot: a },
            7 => Operation::Retire { record: a },
            8 => Operation::Advance,
            9 => Operation::Deliver,
            10 => Operation::Handle,
            _ => return None,
        };
        (read.to_words() == words).then_some(read)
    }
}

/// A step as five raw words; any words will do.
#[derive(Clone, Copy, Debug, PartialEq, Eq)]
pub struct Step {
    pub thread: u32,
    pub op: u32,
    pub a: u32,
    pub b: u32,
    pub c: u32,
}

impl Step {
    /// The step in which a thread does an operation.
    pub fn of(thread: u32, operation: Operation) -> Step {
        let [op, a, b, c] = operation.to_words();
        Step { thread, op, a, b, c }
    }

    /// The step as words, in the order of a schedule.
    pub fn to_words(self) -> [u32; 5] {
        [self.thread, self.op, self.a, self.b, self.c]
    }

    /// The step that five words stand for.
    pub fn from_words(words: [u32; 5]) -> Step {
        let [thread, op, a, b, c] = words;
        Step { thread, op, a, b, c }
    }
}

impl fmt::Display for Step {
    fn fmt(&self, out: &mut fmt::Formatter) -> fmt::Result {
        let [thread, op, a, b, c] = self.to_words();
        write!(out, "{thread} {op} {a} {b} {c}")
    }
}

/// The reply to a step: its number (0 if it was done), and its value (0 if it was refused).
#[derive(Clone, Copy, Debug, PartialEq, Eq)]
#[repr(C)]
pub struct Reply {
    pub number: u32,
    pub value: u32,
}

impl Reply {
    /// The value of a step that was done, or why it was refused.
    ///
    /// # Panics
    /// If the number is none of the table's.
    pub fn to_result(self) -> Result<u32, Refusal> {
        refusal_of(self.number).map_or(Ok(self.value), Err)
    }
}

impl From<Result<u32, Refusal>> for Reply {
    fn from(result: Result<u32, Refusal>) -> Reply {
        match result {
            Ok(value) => Reply { number: 0, value },
            Err(refusal) => Reply {
                number: refusal.number(),
                value: 0,
            },
        }
    }
}

/// The reply to a question for a retire list: its number, and the place and length of the part of the image that
/// has the list's entries. The part is empty if the question was refused.
#[derive(Clone, Copy, Debug, PartialEq, Eq)]
#[repr(C)]
pub struct Part {
    pub number: u32,
    pub from: u32,
    pub length: u32,
}

/// Why something was refused.
#[derive(Clone, Copy, Debug, PartialEq, Eq)]
pub enum Refusal {
    /// The image is damaged.
    Damaged = 1,
    /// There is no operation of this number.
    NoOperation = 2,
    /// There is no thread of this number.
    NoThread = 3,
    /// An operand is beyond its limit, or should be 0 and isn't.
    Operand = 4,
    /// The thread is in its handler.
    InHandler = 5,
    /// The thread's phase doesn't allow it, or there is no ping to deliver or no handler to go on with.
    NotNow = 6,
    /// No record is free.
    NoFreeRecord = 7,
    /// The record isn't live.
    NotLive = 8,
    /// A cell still names the record.
    Named = 9,
    /// The retire list is full.
    ListFull = 10,
    /// The slot isn't marked as held.
    NotHeld = 11,
    /// A setting is beyond its limit.
    Setting = 12,
    /// The buffer doesn't have the length that the settings ask for.
    BufferLength = 13,
}

impl Refusal {
    /// Every reason, in the order of their numbers.
    pub const ALL: [Refusal; 13] = [
        Refusal::Damaged,
        Refusal::NoOperation,
        Refusal::NoThread,
        Refusal::Operand,
        Refusal::InHandler,
        Refusal::NotNow,
        Refusal::NoFreeRecord,
        Refusal::NotLive,
        Refusal::Named,
        Refusal::ListFull,
        Refusal::NotHeld,
        Refusal::Setting,
        Refusal::BufferLength,
    ];

    /// The number of this reason.
    pub fn number(self) -> u32 {
        self as u32
    }

    /// The reason of this number.
    pub fn of_number(number: u32) -> Option<Refusal> {
        Refusal::ALL.into_iter().find(|reason| reason.number() == number)
    }
}

impl fmt::Display for Refusal {
    fn fmt(&self, out: &mut fmt::Formatter) -> fmt::Result {
        out.write_str(match self {
            Refusal::Damaged => "the image is damaged",
            Refusal::NoOperation => "there is no such operation",
            Refusal::NoThread => "there is no such thread",
            Refusal::Operand => "an operand is beyond its limit, or should be 0",
            Refusal::InHandler => "the thread is in its handler",
            Refusal::NotNow => "the thread can't do this now",
            Refusal::NoFreeRecord => "no record is free",
            Refusal::NotLive => "the record isn't live",
            Refusal::Named => "a cell names the record",
            Refusal::ListFull => "the retire list is full",
            Refusal::NotHeld => "the slot isn't held",
            Refusal::Setting => "a setting is beyond its limit",
            Refusal::BufferLength => "the buffer has another length than the settings need",
        })
    }
}

impl std::error::Error for Refusal {}

/// The refusal that a number stands for, none for 0.
///
/// # Panics
/// If the number is none of the table's.
pub fn refusal_of(number: u32) -> Option<Refusal> {
    match number {
        0 => None,
        _ => Some(Refusal::of_number(number).expect("a reply has a number of the table")),
    }
}
