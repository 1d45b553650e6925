//! The whole test: set-ups, images at every bound, schedules into deep states, images changed from outside.

use super::case::{Action, Case, Difference, Pair, Start, Tally, Trial};
use super::images::{at_every_bound, at_every_limit, sound_image, stray_word, Made};
use super::random::Random;
use super::schedules::{any_step, near_bound, step, useful_step, Turns};
use super::shapes;
use crate::layout::Layout;
use crate::terms::{Operation, Settings, Step};

/// A case that tells the two machines apart, as it was met.
pub type Found = Box<Case>;

/// What was compared, and the first case that told the machines apart.
pub type Outcome = (Tally, Result<(), Found>);

/// Compares two machines in every way there is, until at least so many steps are done.
pub fn run(pair: Pair, seed: u64, steps: usize) -> Outcome {
    let mut campaign = Campaign::new(pair, seed);
    let result = campaign.run(steps);
    (campaign.tally, result)
}

/// Compares two machines by schedules that start from a set-up, and by nothing else.
pub fn run_schedules(pair: Pair, seed: u64, steps: usize) -> Outcome {
    let mut campaign = Campaign::new(pair, seed);
    let result = campaign.schedules(steps);
    (campaign.tally, result)
}

struct Campaign<'a> {
    pair: Pair<'a>,
    random: Random,
    tally: Tally,
}

impl<'a> Campaign<'a> {
    fn new(pair: Pair<'a>, seed: u64) -> Self {
        Campaign {
            pair,
            random: Random::of_seed(seed),
            tally: Tally::default(),
        }
    }

    fn schedules(&mut self, steps: usize) -> Result<(), Found> {
        while self.tally.steps < steps {
            self.schedule(false)?;
        }
        Ok(())
    }

    fn run(&mut self, steps: usize) -> Result<(), Found> {
        self.set_ups()?;
        self.bounds()?;
        while self.tally.steps < steps {
            self.schedule(true)?;
            for _ in 0..4 {
                self.made_by_hand()?;
            }
        }
        Ok(())
    }

    /// Starts both machines.
    fn begin(&mut self, start: Start) -> Result<Trial<'a>, Found> {
        let (trial, result) = Trial::begin(self.pair, start);
        self.pass(&trial, result)?;
        Ok(trial)
    }

    /// Hands a difference on with its case.
    fn pass(&mut self, trial: &Trial, result: Result<(), Difference>) -> Result<(), Found> {
        result.map_err(|_| {
            self.count(trial);
            Box::new(trial.case().clone())
        })
    }

    fn perform(&mut self, trial: &mut Trial, action: Action) -> Result<(), Found> {
        let result = trial.perform(action);
        self.pass(trial, result)
    }

    /// Adds what a trial has compared.
    fn count(&mut self, trial: &Trial) {
        self.tally.steps += trial.tally.steps;
        self.tally.questions += trial.tally.questions;
        self.tally.set_ups += trial.tally.set_ups;
    }

    /// A case that is known beforehand.
    fn case(&mut self, start: Start, actions: &[Action]) -> Result<(), Found> {
        let mut trial = self.begin(start)?;
        for &action in actions {
            self.perform(&mut trial, action)?;
        }
        self.count(&trial);
        Ok(())
    }

    // Set-ups.

    fn set_ups(&mut self) -> Result<(), Found> {
        let small = Settings::from_words([2, 2, 3, 4, 2, 7]);
        for base in [small, shapes::largest(&mut self.random)] {
            for settings in shapes::each_limit(&base) {
                self.set_up_lengths(&settings)?;
            }
        }
        for _ in 0..300 {
            let settings = shapes::around_limits(&mut self.random);
            self.set_up_lengths(&settings)?;
            let settings = shapes::within_limits(&mut self.random);
            self.set_up_lengths(&settings)?;
        }
        Ok(())
    }

    /// Set-ups in buffers of the length needed, one off, and others. The length that settings beyond their limits
    /// would need is among them, as far as it can be had.
    fn set_up_lengths(&mut self, settings: &Settings) -> Result<(), Found> {
        let small = settings.to_words()[..5].iter().all(|&word| word <= 1025);
        let needed = if small {
            Layout::of(settings).total()
        } else {
            self.random.place(9000)
        };
        let lengths = match needed {
            0..=30_000 => [needed, needed - needed.min(1), needed + 1, 0, self.random.place(200)],
            _ => [0, 1, 7, 53, 8209],
        };
        for length in lengths {
            let fill = self.random.one_of(&[0, 1, u32::MAX, 77]);
            let start = Start::SetUp {
                settings: *settings,
                length,
                fill,
            };
            let (step, thread) = (Step::of(0, Operation::Allocate), self.random.below(3));
            self.case(start, &[Action::Question(thread), Action::Step(step)])?;
        }
        Ok(())
    }

    // Images at every bound.

    fn bounds(&mut self) -> Result<(), Found> {
        let shapes = [
            [1, 1, 1, 1, 1],
            [2, 1, 1, 2, 1],
            [3, 2, 4, 6, 2],
            [2, 3, 2, 5, 12],
            [4, 4, 32, 128, 32],
            [16, 8, 256, 1024, 256],
        ];
        for [threads, slots, cells, records, threshold] in shapes {
            let start = self.random.one_of(&[0, 7, u32::MAX]);
            let settings = Settings::from_words([threads, slots, cells, records, threshold, start]);
            let layout = Layout::of(&settings);
            for made in at_every_limit(&settings) {
                self.operations_on(&made, &layout)?;
            }
            for made in at_every_bound(&settings, &mut self.random) {
                self.operations_on(&made, &layout)?;
            }
        }
        Ok(())
    }

    /// On one image: questions, and some steps that each start from it. Damaged images get few of them.
    fn operations_on(&mut self, made: &Made, layout: &Layout) -> Result<(), Found> {
        let damaged = self.pair.believed.damaged(&made.image);
        let threads = layout.threads as u32;
        let mut actions = vec![Action::Question(made.thread), Action::Question(threads)];
        actions.extend(self.steps_on(made, layout, if damaged { 1 } else { 7 }));
        for action in actions {
            self.case(Start::Image(made.image.clone()), &[action])?;
        }
        Ok(())
    }

    /// Steps of the thread for which an image was made, most of them useful where the image has the usual length.
    fn steps_on(&mut self, made: &Made, layout: &Layout, count: usize) -> Vec<Action> {
        let usual = made.image.len() == layout.total();
        let mut steps = vec![Step::of(made.thread, Operation::Handle)];
        for index in 0..count {
            steps.push(match usual && index % 4 != 3 {
                true => useful_step(&made.image, layout, made.thread, &mut self.random),
                false => any_step(layout, &mut self.random),
            });
        }
        steps.into_iter().map(Action::Step).collect()
    }

    // Schedules.

    /// A schedule from a set-up, with questions, and where wanted a look aside now and then: the image changed from
    /// outside.
    fn schedule(&mut self, asides: bool) -> Result<(), Found> {
        let settings = match self.random.percent(3) {
            true => shapes::largest(&mut self.random),
            false => shapes::within_limits(&mut self.random),
        };
        let layout = Layout::of(&settings);
        let start = Start::SetUp {
            settings,
            length: layout.total(),
            fill: 1,
        };
        let mut trial = self.begin(start)?;
        let mut turns = Turns::new();
        for index in 1..=self.random.between(100, 1200) {
            let thread = turns.next(trial.image(), &layout, &mut self.random);
            let step = step(trial.image(), &layout, thread, &mut self.random);
            self.perform(&mut trial, Action::Step(step))?;
            if self.random.percent(8) {
                self.perform(&mut trial, Action::Question(thread))?;
            }
            if asides && index % 50 == 0 {
                self.aside(trial.image().to_vec(), &layout)?;
            }
        }
        self.count(&trial);
        Ok(())
    }

    /// Changes an image from outside, in a case of its own, and lets steps follow.
    fn aside(&mut self, image: Vec<u32>, layout: &Layout) -> Result<(), Found> {
        let mut trial = self.begin(Start::Image(image))?;
        for _ in 0..self.random.between(1, 2) {
            let change = self.change(trial.image(), layout);
            self.perform(&mut trial, change)?;
        }
        self.some_steps(&mut trial, layout, 6)?;
        self.count(&trial);
        Ok(())
    }

    /// A change from outside: a word in most cases.
    fn change(&mut self, image: &[u32], layout: &Layout) -> Action {
        let word = near_bound(layout, &mut self.random);
        match self.random.below(12) {
            0 => Action::Cut {
                length: image.len().saturating_sub(1),
            },
            1 => Action::Cut {
                length: self.random.place(image.len() + 1),
            },
            2 => Action::Lengthen { word },
            _ if image.len() != layout.total() => Action::Lengthen { word },
            _ => {
                let (at, word) = stray_word(image, layout, &mut self.random);
                Action::Write { at, word }
            }
        }
    }

    fn some_steps(&mut self, trial: &mut Trial, layout: &Layout, count: u32) -> Result<(), Found> {
        let thread = self.random.below(layout.threads as u32);
        self.perform(trial, Action::Question(thread))?;
        for _ in 0..self.random.between(1, count) {
            let thread = match self.random.percent(70) {
                true => thread,
                false => self.random.below(layout.threads as u32),
            };
            let step = step(trial.image(), layout, thread, &mut self.random);
            self.perform(trial, Action::Step(step))?;
        }
        Ok(())
    }

    /// A sound image made by hand, now and then changed, with steps that follow.
    fn made_by_hand(&mut self) -> Result<(), Found> {
        let settings = shapes::within_limits(&mut self.random);
        let layout = Layout::of(&settings);
        let image = sound_image(&settings, &mut self.random);
        if self.random.percent(30) {
            return self.aside(image, &layout);
        }
        let mut trial = self.begin(Start::Image(image))?;
        self.some_steps(&mut trial, &layout, 60)?;
        self.count(&trial);
        Ok(())
    }
}
