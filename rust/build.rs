//! Two jobs, one for each feature: `library` links the archive, `self-test` makes the copies of the plain machine
//! that have one slip each.

use std::env;
use std::fmt::Write as _;
use std::fs;
use std::path::PathBuf;

fn main() {
    println!("cargo:rerun-if-changed=build.rs");
    if env::var_os("CARGO_FEATURE_LIBRARY").is_some() {
        link_library();
    }
    if env::var_os("CARGO_FEATURE_SELF_TEST").is_some() {
        write_slips();
    }
}

/// The folder of this package.
fn package() -> PathBuf {
    PathBuf::from(env::var_os("CARGO_MANIFEST_DIR").expect("cargo names the package's folder"))
}

/// Asks for the archive of `ERNUVALD_LIB_DIR`, or of `../crates/ernuvald/out` where that isn't set.
fn link_library() {
    println!("cargo:rerun-if-env-changed=ERNUVALD_LIB_DIR");
    let folder = match env::var_os("ERNUVALD_LIB_DIR") {
        Some(folder) => PathBuf::from(folder),
        None => package().join("../crates/ernuvald/out"),
    };
    let archive = folder.join("libernuvald.a");
    assert!(
        archive.is_file(),
        "there is no {}: build it by `rt lib` in crates/ernuvald, name its folder in ERNUVALD_LIB_DIR, \
         or leave the library out by --no-default-features",
        archive.display()
    );
    println!("cargo:rerun-if-changed={}", archive.display());
    println!("cargo:rustc-link-search=native={}", folder.display());
    println!("cargo:rustc-link-lib=static=ernuvald");
}

/// One slip: its name, whether schedules alone find it, and the text that takes the place of another of `plain.rs`.
struct Slip<'a> {
    name: &'a str,
    by_schedule: bool,
    right: &'a str,
    wrong: &'a str,
}

/// Reads `slips.txt`: blocks of three lines that start with `= ` or `@ `, with `- `, and with `+ `.
fn read_slips(text: &str) -> Vec<Slip<'_>> {
    let lines: Vec<&str> = text
        .lines()
        .filter(|line| !line.is_empty() && !line.starts_with('#'))
        .collect();
    lines.chunks(3).map(read_slip).collect()
}

fn read_slip<'a>(block: &[&'a str]) -> Slip<'a> {
    let &[name, right, wrong] = block else {
        panic!("slips.txt: a block isn't complete: {block:?}");
    };
    let after = |line: &'a str, marks: &[&str]| {
        let text = marks.iter().find_map(|mark| line.strip_prefix(mark));
        text.unwrap_or_else(|| panic!("slips.txt: a line has another mark than {marks:?}: {line}"))
    };
    Slip {
        name: after(name, &["= ", "@ "]),
        by_schedule: name.starts_with('@'),
        right: after(right, &["- "]),
        wrong: after(wrong, &["+ "]),
    }
}

/// The plain machine's source with one slip in it, ready to stand inside a module.
fn with_slip(source: &str, slip: &Slip) -> String {
    let places = source.matches(slip.right).count();
    assert_eq!(places, 1, "slips.txt: '{}' has to name one place", slip.name);
    source
        .replacen(slip.right, slip.wrong, 1)
        .lines()
        .filter(|line| !line.starts_with("//!"))
        .fold(String::new(), |text, line| text + line + "\n")
}

/// Writes `slips.rs` into the build's folder: a module for each slip, and the table of them.
fn write_slips() {
    println!("cargo:rerun-if-changed=slips.txt");
    println!("cargo:rerun-if-changed=src/plain.rs");
    let read = |name: &str| fs::read_to_string(package().join(name)).expect(name);
    let (source, list) = (read("src/plain.rs"), read("slips.txt"));
    let (mut modules, mut table) = (String::new(), String::new());
    for (at, slip) in read_slips(&list).iter().enumerate() {
        let text = with_slip(&source, slip);
        writeln!(modules, "#[allow(unused, clippy::all)]\nmod slip_{at} {{\n{text}\n}}").unwrap();
        writeln!(
            table,
            "Slip {{ name: {:?}, by_schedule: {}, words: slip_{at}::words, set_up: slip_{at}::set_up, \
             step: slip_{at}::step::<slip_{at}::Idiomatic>, \
             retired: slip_{at}::retired::<slip_{at}::Idiomatic>, \
             damaged: slip_{at}::damaged::<slip_{at}::Idiomatic> }},",
            slip.name, slip.by_schedule
        )
        .unwrap();
    }
    let out = PathBuf::from(env::var_os("OUT_DIR").expect("cargo names the build's folder"));
    let text = format!("{modules}\n/// Every slip.\npub static SLIPS: &[Slip] = &[\n{table}];\n");
    fs::write(out.join("slips.rs"), text).expect("slips.rs can be written");
}
