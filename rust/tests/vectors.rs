//! Every machine of the package against vectors: single steps, set-ups, questions for a retire list, and schedules.
//!
//! The vectors are in the folder that `ERNUVALD_VECTORS` names, and in `crates/vectors/data` of this repository; each
//! file that is there is read. All their words have 32 bits and are little-endian.
//!
//! * `steps.words`: the count of cases, then for each: n, the n words of the image, the five words of the step, the
//!   number, the value, the n words of the image afterwards.
//! * `setups.words`: the count, then for each: the length n of the buffer, the six settings, the number, and where that
//!   is 0 the n words of the image.
//! * `lists.words`: the count, then for each: n, the n words of the image, the thread, the number, how many entries
//!   there are, the entries.
//! * `schedules/NAME.in` and `NAME.out`: input and output of the schedule program.

use ernuvald::machine::{Machine, Plain};
use ernuvald::plain::{Idiomatic, Vectorized};
use ernuvald::terms::{Reply, Settings, Step};
use std::fs;
use std::path::{Path, PathBuf};

fn machines() -> Vec<(&'static str, Box<dyn Machine>)> {
    vec![
        ("plain, idiomatic", Box::new(Plain::<Idiomatic>::new())),
        ("plain, vectorized", Box::new(Plain::<Vectorized>::new())),
        #[cfg(feature = "library")]
        ("library", Box::new(ernuvald::machine::Library)),
    ]
}

fn folders() -> Vec<PathBuf> {
    let own = Path::new(env!("CARGO_MANIFEST_DIR")).join("../crates/vectors/data");
    let named = std::env::var_os("ERNUVALD_VECTORS").map(PathBuf::from);
    if let Some(folder) = &named {
        assert!(folder.is_dir(), "ERNUVALD_VECTORS names no folder");
    }
    named
        .into_iter()
        .chain([own])
        .filter(|folder| folder.is_dir())
        .collect()
}

/// Words that are read one after another.
struct Reader {
    words: std::vec::IntoIter<u32>,
}

impl Reader {
    fn of_bytes(bytes: &[u8]) -> Reader {
        let words: Vec<u32> = bytes
            .chunks(4)
            .map(|word| u32::from_le_bytes(word.try_into().expect("the file is made of words")))
            .collect();
        Reader {
            words: words.into_iter(),
        }
    }

    fn word(&mut self) -> u32 {
        self.words.next().expect("the file goes on")
    }

    fn take(&mut self, length: u32) -> Vec<u32> {
        (0..length).map(|_| self.word()).collect()
    }

    fn array<const N: usize>(&mut self) -> [u32; N] {
        std::array::from_fn(|_| self.word())
    }
}

/// Reads a file of cases in every folder that has it, and says how many cases there were (`--nocapture` shows it).
fn each_case(file: &str, mut case: impl FnMut(&mut Reader, usize)) {
    for folder in folders() {
        let path = folder.join(file);
        let Ok(bytes) = fs::read(&path) else { continue };
        let mut reader = Reader::of_bytes(&bytes);
        let count = reader.word() as usize;
        (0..count).for_each(|index| case(&mut reader, index));
        assert_eq!(
            reader.words.len(),
            0,
            "{} has words after its last case",
            path.display()
        );
        println!("{file}: {count} cases");
    }
}

#[test]
fn steps() {
    each_case("steps.words", |reader, index| {
        let n = reader.word();
        let before = reader.take(n);
        let step = Step::from_words(reader.array());
        let [number, value] = reader.array();
        let after = reader.take(n);
        for (name, machine) in machines() {
            assert_eq!(machine.damaged(&before), number == 1, "case {index}, {name}: damage");
            let mut image = before.clone();
            let reply = machine.step(&mut image, step);
            assert_eq!(reply, Reply { number, value }, "case {index}, {name}: {step}");
            assert!(image == after, "case {index}, {name}: {step}: the image differs");
        }
    });
}

#[test]
fn set_ups() {
    each_case("setups.words", |reader, index| {
        let n = reader.word();
        let settings = Settings::from_words(reader.array());
        let number = reader.word();
        let expected = if number == 0 {
            reader.take(n)
        } else {
            vec![77; n as usize]
        };
        for (name, machine) in machines() {
            let mut image = vec![77; n as usize];
            let got = machine.set_up(&mut image, &settings);
            assert_eq!(got, number, "case {index}, {name}: {settings}");
            assert!(image == expected, "case {index}, {name}: {settings}: the image differs");
        }
    });
}

#[test]
fn lists() {
    each_case("lists.words", |reader, index| {
        let n = reader.word();
        let image = reader.take(n);
        let [thread, number, length] = reader.array();
        let entries = reader.take(length);
        for (name, machine) in machines() {
            let part = machine.retired(&image, thread);
            assert_eq!(part.number, number, "case {index}, {name}");
            let from = part.from as usize;
            let got = &image[from..from + part.length as usize];
            assert_eq!(got, entries, "case {index}, {name}");
        }
    });
}

/// The schedule of an input: the settings and the steps; none if the input isn't a schedule.
fn read_schedule(input: &[u8]) -> Option<(Settings, Vec<Step>)> {
    if !input.chunks_exact(4).remainder().is_empty() {
        return None;
    }
    let words = Reader::of_bytes(input).words.collect::<Vec<u32>>();
    let (&six, rest) = words.split_first()?;
    let settings = rest.get(..6)?.try_into().ok()?;
    let (&count, rest) = rest[6..].split_first()?;
    if six != 6 || count > 1000 || rest.len() != 5 * count as usize {
        return None;
    }
    let steps = rest
        .chunks(5)
        .map(|words| Step::from_words(words.try_into().expect("five words")))
        .collect();
    Some((Settings::from_words(settings), steps))
}

/// What the schedule program writes for an input.
fn run_schedule(machine: &dyn Machine, input: &[u8]) -> String {
    const BAD: &str = "bad input\n";
    let Some((settings, steps)) = read_schedule(input) else {
        return BAD.to_string();
    };
    let mut image = vec![0; machine.words(&settings) as usize];
    if machine.set_up(&mut image, &settings) != 0 {
        return BAD.to_string();
    }
    let mut output = String::from("step op code value\n");
    let (mut accepted, mut freed) = (0, 0);
    for (index, &step) in steps.iter().enumerate() {
        let Reply { number, value } = machine.step(&mut image, step);
        accepted += usize::from(number == 0);
        freed += usize::from(number == 0 && step.op == 8 && value == 3);
        output += &format!("{index} {} {number} {value}\n", step.op);
    }
    let refused = steps.len() - accepted;
    output + &format!("accepted {accepted} refused {refused} freed {freed}\n")
}

#[test]
fn schedules() {
    for folder in folders() {
        let Ok(files) = fs::read_dir(folder.join("schedules")) else {
            continue;
        };
        let mut count = 0;
        for path in files.map(|file| file.expect("the folder can be read").path()) {
            if path.extension().is_some_and(|extension| extension == "in") {
                compare_schedule(&path);
                count += 1;
            }
        }
        println!("schedules: {count} compared");
    }
}

fn compare_schedule(path: &Path) {
    let input = fs::read(path).expect("the input can be read");
    let expected = fs::read_to_string(path.with_extension("out")).expect("the output can be read");
    for (name, machine) in machines() {
        let output = run_schedule(machine.as_ref(), &input);
        assert_eq!(output, expected, "{}, {name}", path.display());
    }
}

/// The schedule that the requirements paper prints.
#[test]
fn printed_schedule() {
    let advance = [0, 8, 0, 0, 0];
    let steps = [
        vec![[0, 0, 0, 0, 0], [0, 1, 0, 0, 1], [1, 2, 0, 0, 0], [1, 3, 0, 0, 0]],
        vec![[1, 4, 0, 0, 0], [0, 1, 0, 1, 0], [0, 7, 1, 0, 0]],
        vec![advance; 6],
        vec![[1, 9, 0, 0, 0], [1, 10, 0, 0, 0], [1, 10, 0, 0, 0]],
        vec![advance; 4],
        vec![[1, 5, 0, 0, 0], [1, 6, 0, 0, 0], [1, 5, 0, 0, 0]],
    ]
    .concat();
    let values = [1, 1, 1, 1, 1, 1, 1, 1, 1, 1, 1, 1, 0, 1, 1, 2, 1, 1, 1, 2, 1, 0, 0];
    let settings = Settings::from_words([2, 1, 1, 2, 1, u32::MAX]);
    for (name, machine) in machines() {
        let mut image = vec![0; machine.words(&settings) as usize];
        assert_eq!(machine.set_up(&mut image, &settings), 0);
        for (index, (&words, &value)) in steps.iter().zip(&values).enumerate() {
            let reply = machine.step(&mut image, Step::from_words(words));
            let number = if index == 22 { 11 } else { 0 };
            assert_eq!(reply, Reply { number, value }, "{name}, step {index}");
        }
    }
}
