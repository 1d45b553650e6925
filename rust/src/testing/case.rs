//! Cases: where two machines start, what both then do, and where they differ.

use crate::machine::Machine;
use crate::terms::{Settings, Step};
use std::fmt;

/// Where a case starts.
#[derive(Clone, Debug)]
pub enum Start {
    /// A set-up in a buffer of so many words, all of which have been `fill`.
    SetUp {
        settings: Settings,
        length: usize,
        fill: u32,
    },
    /// An image made by hand.
    Image(Vec<u32>),
}

/// One thing that is done to both images.
#[derive(Clone, Copy, Debug, PartialEq, Eq)]
pub enum Action {
    /// A step of the machine.
    Step(Step),
    /// The question for a thread's retire list, and the one for damage.
    Question(u32),
    /// A word is changed from outside.
    Write { at: usize, word: u32 },
    /// The image loses its end.
    Cut { length: usize },
    /// The image gets a word more.
    Lengthen { word: u32 },
}

/// A start and what follows.
#[derive(Clone, Debug)]
pub struct Case {
    pub start: Start,
    pub actions: Vec<Action>,
}

/// Where two machines differ, in words.
#[derive(Clone, Debug, PartialEq, Eq)]
pub struct Difference(pub String);

/// What has been compared so far.
#[derive(Clone, Copy, Debug, Default)]
pub struct Tally {
    pub steps: usize,
    pub questions: usize,
    pub set_ups: usize,
}

/// Two machines: the one that is believed and the one that is tested.
#[derive(Clone, Copy)]
pub struct Pair<'a> {
    pub believed: &'a dyn Machine,
    pub tested: &'a dyn Machine,
}

/// Both machines' images while a case runs, and the case so far.
pub struct Trial<'a> {
    pair: Pair<'a>,
    believed: Vec<u32>,
    tested: Vec<u32>,
    case: Case,
    pub tally: Tally,
}

impl<'a> Trial<'a> {
    /// Both machines at a start.
    pub fn begin(pair: Pair<'a>, start: Start) -> (Trial<'a>, Result<(), Difference>) {
        let mut trial = Trial {
            pair,
            believed: Vec::new(),
            tested: Vec::new(),
            case: Case {
                start: start.clone(),
                actions: Vec::new(),
            },
            tally: Tally::default(),
        };
        let result = trial.start(start);
        (trial, result)
    }

    fn start(&mut self, start: Start) -> Result<(), Difference> {
        match start {
            Start::Image(image) => {
                self.tested.clone_from(&image);
                self.believed = image;
                Ok(())
            }
            Start::SetUp { settings, length, fill } => self.set_up(&settings, length, fill),
        }
    }

    fn set_up(&mut self, settings: &Settings, length: usize, fill: u32) -> Result<(), Difference> {
        self.tally.set_ups += 1;
        let Pair { believed, tested } = self.pair;
        compare("words needed", believed.words(settings), tested.words(settings))?;
        self.believed = vec![fill; length];
        self.tested = vec![fill; length];
        let expected = believed.set_up(&mut self.believed, settings);
        let got = tested.set_up(&mut self.tested, settings);
        compare("number of the set-up", expected, got)?;
        self.compare_images()
    }

    /// The image as the believed machine left it.
    pub fn image(&self) -> &[u32] {
        &self.believed
    }

    /// The case so far.
    pub fn case(&self) -> &Case {
        &self.case
    }

    /// Does an action on both sides and compares all that comes of it.
    pub fn perform(&mut self, action: Action) -> Result<(), Difference> {
        self.case.actions.push(action);
        match action {
            Action::Step(step) => self.step(step),
            Action::Question(thread) => self.question(thread),
            _ => {
                change(&mut self.believed, action);
                change(&mut self.tested, action);
                Ok(())
            }
        }
    }

    fn step(&mut self, step: Step) -> Result<(), Difference> {
        self.tally.steps += 1;
        let expected = self.pair.believed.step(&mut self.believed, step);
        let got = self.pair.tested.step(&mut self.tested, step);
        compare("number of the step", expected.number, got.number)?;
        compare("value of the step", expected.value, got.value)?;
        self.compare_images()
    }

    fn question(&mut self, thread: u32) -> Result<(), Difference> {
        self.tally.questions += 1;
        let Pair { believed, tested } = self.pair;
        let expected = believed.retired(&self.believed, thread);
        let got = tested.retired(&self.tested, thread);
        compare("number of the list question", expected.number, got.number)?;
        compare("length of the list", expected.length, got.length)?;
        if expected.number == 0 {
            // The images are equal, so parts of the same place and length have the same words.
            compare("place of the list", expected.from, got.from)?;
        }
        let expected = believed.damaged(&self.believed);
        let got = tested.damaged(&self.tested);
        compare("damage (1: damaged)", u32::from(expected), u32::from(got))
    }

    fn compare_images(&self) -> Result<(), Difference> {
        if self.believed == self.tested {
            return Ok(());
        }
        let mut pairs = self.believed.iter().zip(&self.tested);
        let at = pairs.position(|(one, other)| one != other).unwrap_or(0);
        compare(&format!("word {at} of the image"), self.believed[at], self.tested[at])
    }
}

fn compare(what: &str, expected: u32, got: u32) -> Result<(), Difference> {
    if expected == got {
        return Ok(());
    }
    Err(Difference(format!("{what}: {expected} expected, {got} found")))
}

/// Changes an image from outside, as far as it is long enough.
fn change(image: &mut Vec<u32>, action: Action) {
    match action {
        Action::Write { at, word } => {
            if let Some(place) = image.get_mut(at) {
                *place = word;
            }
        }
        Action::Cut { length } => image.truncate(length),
        Action::Lengthen { word } => image.push(word),
        Action::Step(_) | Action::Question(_) => {}
    }
}

/// Runs a case from its start: the first difference, and after how many actions it showed.
pub fn replay(pair: Pair, case: &Case) -> Option<(usize, Difference)> {
    let (mut trial, result) = Trial::begin(pair, case.start.clone());
    if let Err(difference) = result {
        return Some((0, difference));
    }
    for (index, &action) in case.actions.iter().enumerate() {
        if let Err(difference) = trial.perform(action) {
            return Some((index + 1, difference));
        }
    }
    None
}

impl fmt::Display for Start {
    fn fmt(&self, out: &mut fmt::Formatter) -> fmt::Result {
        match self {
            Start::SetUp { settings, length, fill } => {
                write!(out, "set-up {settings} in a buffer of {length} words of {fill}")
            }
            Start::Image(image) => {
                write!(out, "image of {} words, 0 but for (place: word)", image.len())?;
                for (at, word) in image.iter().enumerate().filter(|(_, &word)| word != 0) {
                    write!(out, " {at}: {word}")?;
                }
                Ok(())
            }
        }
    }
}

impl fmt::Display for Action {
    fn fmt(&self, out: &mut fmt::Formatter) -> fmt::Result {
        match self {
            Action::Step(step) => write!(out, "step {step}"),
            Action::Question(thread) => write!(out, "question for the list of thread {thread}"),
            Action::Write { at, word } => write!(out, "word {at} becomes {word}"),
            Action::Cut { length } => write!(out, "cut to {length} words"),
            Action::Lengthen { word } => write!(out, "lengthened by {word}"),
        }
    }
}

impl fmt::Display for Case {
    fn fmt(&self, out: &mut fmt::Formatter) -> fmt::Result {
        writeln!(out, "  {}", self.start)?;
        self.actions.iter().try_for_each(|action| writeln!(out, "  {action}"))
    }
}
