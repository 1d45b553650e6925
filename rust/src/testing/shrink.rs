//! Makes a case smaller as long as it tells the two machines apart.

use super::case::{replay, Action, Case, Difference, Pair, Start};
use crate::layout::Layout;
use crate::terms::{Settings, Step};

/// After how many runs of smaller cases shrinking ends at the latest.
const MOST_RUNS: usize = 50_000;

/// The smallest case found, and what differs in it. The case given has to tell the machines apart.
pub fn shrink(pair: Pair, case: &Case) -> (Case, Difference) {
    let (at, difference) = replay(pair, case).expect("the case tells the machines apart");
    let mut best = case.clone();
    best.actions.truncate(at);
    let mut shrinker = Shrinker {
        pair,
        best,
        difference,
        runs: 0,
    };
    while shrinker.round() {}
    (shrinker.best, shrinker.difference)
}

struct Shrinker<'a> {
    pair: Pair<'a>,
    best: Case,
    difference: Difference,
    runs: usize,
}

impl Shrinker<'_> {
    /// Tries every way of getting smaller once; whether one of them worked.
    fn round(&mut self) -> bool {
        let ways = [
            Self::drop_threads,
            Self::drop_actions,
            Self::simplify_steps,
            Self::lower_settings,
            Self::blank_words,
        ];
        let worked = ways.into_iter().filter(|way| way(self)).count();
        worked > 0 && self.runs < MOST_RUNS
    }

    /// Takes a smaller case if it still tells the machines apart.
    fn try_case(&mut self, mut case: Case) -> bool {
        self.runs += 1;
        if self.runs > MOST_RUNS {
            return false;
        }
        let Some((at, difference)) = replay(self.pair, &case) else {
            return false;
        };
        case.actions.truncate(at);
        self.best = case;
        self.difference = difference;
        true
    }

    /// Takes threads out of a case that starts from a set-up, with all their steps; those after them move up.
    fn drop_threads(&mut self) -> bool {
        let threads = (0..Settings::LARGEST.threads).rev();
        threads.filter(|&thread| self.drop_thread(thread)).count() > 0
    }

    fn drop_thread(&mut self, thread: u32) -> bool {
        let Start::SetUp { mut settings, fill, .. } = self.best.start else {
            return false;
        };
        if thread >= settings.threads || settings.threads == 1 || !settings.within_limits() {
            return false;
        }
        settings.threads -= 1;
        let length = Layout::of(&settings).total();
        let actions = self.best.actions.iter();
        let case = Case {
            start: Start::SetUp { settings, length, fill },
            actions: actions.filter_map(|action| without_thread(*action, thread)).collect(),
        };
        self.try_case(case)
    }

    /// Drops runs of actions, long ones first.
    fn drop_actions(&mut self) -> bool {
        let before = self.best.actions.len();
        let mut run = before.div_ceil(2);
        while run > 0 {
            let mut at = 0;
            while at < self.best.actions.len() {
                let mut case = self.best.clone();
                let end = (at + run).min(case.actions.len());
                case.actions.drain(at..end);
                if !self.try_case(case) {
                    at += run;
                }
            }
            run /= 2;
        }
        self.best.actions.len() < before
    }

    /// Puts smaller numbers into steps.
    fn simplify_steps(&mut self) -> bool {
        let mut smaller = false;
        for at in 0..self.best.actions.len() {
            for word in 0..5 {
                smaller |= self.lower_step_word(at, word);
            }
        }
        smaller
    }

    fn lower_step_word(&mut self, at: usize, word: usize) -> bool {
        let Some(&Action::Step(step)) = self.best.actions.get(at) else {
            return false;
        };
        let words = step.to_words();
        (0..words[word].min(3)).any(|lower| {
            let mut case = self.best.clone();
            let mut words = words;
            words[word] = lower;
            case.actions[at] = Action::Step(Step::from_words(words));
            self.try_case(case)
        })
    }

    /// Starts from smaller settings.
    fn lower_settings(&mut self) -> bool {
        (0..6).filter(|&at| self.lower_setting(at)).count() > 0
    }

    fn lower_setting(&mut self, at: usize) -> bool {
        let Start::SetUp { settings, length, fill } = self.best.start.clone() else {
            return false;
        };
        let words = settings.to_words();
        let fits = settings.within_limits() && Layout::of(&settings).total() == length;
        simpler_settings(at, words[at]).into_iter().any(|lower| {
            let mut words = words;
            words[at] = lower;
            let settings = Settings::from_words(words);
            let length = if fits && settings.within_limits() {
                Layout::of(&settings).total()
            } else {
                length
            };
            let mut case = self.best.clone();
            case.start = Start::SetUp { settings, length, fill };
            self.try_case(case)
        })
    }

    /// Puts 0 for words of an image made by hand: many at once first, then one by one.
    fn blank_words(&mut self) -> bool {
        let Start::Image(image) = &self.best.start else {
            return false;
        };
        let length = image.len();
        let mut blanked = false;
        for run in [1024, 128, 16, 4, 1] {
            for at in (7..length).step_by(run) {
                blanked |= self.blank(at, (at + run).min(length));
            }
        }
        blanked
    }

    fn blank(&mut self, from: usize, to: usize) -> bool {
        let mut case = self.best.clone();
        let Start::Image(image) = &mut case.start else {
            return false;
        };
        if image[from..to].iter().all(|&word| word == 0) {
            return false;
        }
        image[from..to].fill(0);
        self.try_case(case)
    }
}

/// Words to try for a setting, the simplest first: lower ones, and for the start count (setting 5) the one at which the
/// first publication wraps.
fn simpler_settings(at: usize, word: u32) -> Vec<u32> {
    match at {
        5 => [0, 1, u32::MAX]
            .into_iter()
            .take_while(|&other| other != word)
            .collect(),
        _ => {
            let lower = [0, 1, 2, 3, 4, word / 2, word.saturating_sub(1)];
            lower.into_iter().filter(|&other| other < word).collect()
        }
    }
}

/// An action after a thread has been taken out; none if it was that thread's.
fn without_thread(action: Action, out: u32) -> Option<Action> {
    let moved = |thread: u32| match thread {
        _ if thread == out => None,
        _ if thread > out => Some(thread - 1),
        _ => Some(thread),
    };
    match action {
        Action::Step(step) => moved(step.thread).map(|thread| Action::Step(Step { thread, ..step })),
        Action::Question(thread) => moved(thread).map(Action::Question),
        other => Some(other),
    }
}
