//! Settings worth a test.

use super::random::Random;
use crate::terms::Settings;

/// Start counts: near the wrap for the most part, so that a few handlers reach it.
fn start(random: &mut Random) -> u32 {
    let near = [0, 1, u32::MAX, u32::MAX - 1, u32::MAX - 2, 0x7fff_ffff];
    if random.percent(80) {
        random.one_of(&near)
    } else {
        random.word()
    }
}

/// Settings within their limits: small ones in most cases, where a schedule gets far in few steps.
pub fn within_limits(random: &mut Random) -> Settings {
    let kind = random.below(100);
    let most = match kind {
        0..=69 => [4, 3, 4, 9, 5],
        70..=94 => [6, 5, 20, 60, 40],
        _ => [16, 8, 256, 1024, 256],
    };
    let [threads, slots, cells, records, threshold] = most.map(|most| random.between(1, most));
    Settings {
        threads,
        slots,
        cells,
        records,
        threshold,
        start: start(random),
    }
}

/// The largest settings.
pub fn largest(random: &mut Random) -> Settings {
    Settings {
        start: start(random),
        ..Settings::LARGEST
    }
}

/// Settings with one or two of them at a limit, one beyond it, or far from it.
pub fn around_limits(random: &mut Random) -> Settings {
    let mut words = within_limits(random).to_words();
    for _ in 0..random.between(1, 2) {
        let at = random.place(5);
        let most = Settings::LARGEST.to_words()[at];
        words[at] = random.one_of(&[0, 1, most, most + 1, u32::MAX, 0x8000_0000 + most]);
    }
    Settings::from_words(words)
}

/// Each setting in turn at both its limits and one beyond them, the others as given.
pub fn each_limit(base: &Settings) -> Vec<Settings> {
    let mut all = Vec::new();
    for at in 0..5 {
        let most = Settings::LARGEST.to_words()[at];
        for word in [0, 1, most, most + 1] {
            let mut words = base.to_words();
            words[at] = word;
            all.push(Settings::from_words(words));
        }
    }
    all
}
