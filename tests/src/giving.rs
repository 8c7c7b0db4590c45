//! The ways to give a program its input: files, several files, standard input, and what goes wrong there.

use crate::expected::Expected;
use crate::program::Programs;
use crate::report::{Difference, Report};
use oracle::generate::{generate, Kind};
use oracle::programs;
use oracle::writing::write_map;
use std::fs;
use std::path::{Path, PathBuf};

/// The files that the words of a test may name, in a folder of their own.
struct Files {
    folder: PathBuf,
}

impl Files {
    fn new() -> Files {
        let folder = std::env::temp_dir().join(format!("waffryndel-files-{}", std::process::id()));
        fs::create_dir_all(&folder).expect("a temporary folder can be made");
        Files { folder }
    }

    fn path(&self, name: &str) -> String {
        self.folder.join(name).display().to_string()
    }

    /// The word for a file of that name on the command line; `-` stays as it is.
    fn word(&self, name: &str) -> String {
        match name {
            "-" => "-".to_string(),
            _ => self.path(name),
        }
    }

    fn write(&self, name: &str, bytes: &[u8]) -> String {
        fs::write(self.folder.join(name), bytes).expect("a temporary file can be written");
        self.path(name)
    }
}

impl Drop for Files {
    /// What is left behind in a temporary folder does no harm.
    fn drop(&mut self) {
        let _ = fs::remove_dir_all(&self.folder);
    }
}

/// Compares every way of giving input, for every program.
pub fn compare(built: &Programs, _root: &Path) -> Report {
    let files = Files::new();
    let mut found = Vec::new();
    for (name, _) in programs::PROGRAMS {
        found.push(split_in_two(built, &files, name));
        found.push(mixed(built, &files, name));
        found.push(byte_by_byte(built, &files, name));
        found.push(in_pieces(built, name));
        found.push(unreadable(built, &files, name));
    }
    found.push(bad_repeats(built, &files));
    Report::of(found)
}

/// What the oracle says to these bytes in the place of the program.
fn expected(name: &str, bytes: &[u8]) -> Expected {
    let program = programs::named(name).expect("the oracle has all programs");
    Expected::of(name, program(bytes))
}

/// A map in two files, parted at every byte; and a damaged one.
fn split_in_two(built: &Programs, files: &Files, name: &str) -> Vec<Option<Difference>> {
    let whole = write_map(&generate(Kind::Ring, 1, 5, 5));
    let mut damaged = whole.clone();
    damaged.swap(5, 11);
    let mut found = Vec::new();
    for bytes in [whole, damaged] {
        for at in 0..=bytes.len() {
            let words = [
                files.write("first", &bytes[..at]),
                files.write("second", &bytes[at..]),
            ];
            let answer = built.run(name, &words, b"not looked at");
            found.push(expected(name, &bytes).compare(
                answer,
                format!("{name}: two files, {at}"),
                &bytes,
            ));
        }
    }
    found
}

/// One file, several files, `-` alone, twice and among files, and the largest map.
fn mixed(built: &Programs, files: &Files, name: &str) -> Vec<Option<Difference>> {
    let bytes: &[u8] = &write_map(&generate(Kind::Grid, 1, 9, 0));
    let large: &[u8] = &write_map(&generate(Kind::Random, 1, 512, 4096));
    files.write("whole", bytes);
    files.write("empty", b"");
    files.write("first", &bytes[..7]);
    files.write("last", &bytes[20..]);
    files.write("large", large);
    // The words, standard input, and the bytes that the program is given by both.
    let ways: [(&[&str], &[u8], &[u8]); 10] = [
        (&["whole"], b"not looked at", bytes),
        (&["-"], bytes, bytes),
        (&[], bytes, bytes),
        (&["first", "-", "last"], &bytes[7..20], bytes),
        (&["-", "-"], bytes, bytes),
        (&["empty", "whole", "empty"], b"", bytes),
        (&["empty"], bytes, b""),
        (&[], b"", b""),
        (&["large"], b"", large),
        (&["-"], large, large),
    ];
    let compare_one = |(words, input, given): (&[&str], &[u8], &[u8])| {
        let words: Vec<String> = words.iter().map(|word| files.word(word)).collect();
        let title = format!("{name} {}", words.join(" "));
        expected(name, given).compare(built.run(name, &words, input), title, given)
    };
    ways.map(compare_one).into()
}

/// A file for each byte of a map.
fn byte_by_byte(built: &Programs, files: &Files, name: &str) -> Vec<Option<Difference>> {
    let bytes = write_map(&generate(Kind::Star, 1, 6, 0));
    let write_one = |(at, byte)| files.write(&format!("byte{at}"), &[byte]);
    let words: Vec<String> = bytes.iter().copied().enumerate().map(write_one).collect();
    let answer = built.run(name, &words, b"");
    vec![expected(name, &bytes).compare(answer, format!("{name}: a file for each byte"), &bytes)]
}

/// Standard input that comes in pieces, so that one read doesn't bring all.
fn in_pieces(built: &Programs, name: &str) -> Vec<Option<Difference>> {
    let bytes = write_map(&generate(Kind::Ties, 1, 200, 2000));
    let compare_one = |size: usize| {
        let pieces: Vec<&[u8]> = bytes.chunks(size).collect();
        let answer = built.run_in_pieces(name, &[], &pieces);
        expected(name, &bytes).compare(answer, format!("{name}: in pieces of {size}"), &bytes)
    };
    [997, 4096, 8000].map(compare_one).into()
}

/// Files that aren't there or can't be read, and unknown options: one line, and status 1.
fn unreadable(built: &Programs, files: &Files, name: &str) -> Vec<Option<Difference>> {
    let bytes = write_map(&generate(Kind::Path, 1, 3, 0));
    let (whole, missing) = (files.write("whole", &bytes), files.path("missing"));
    let folder = files.folder.display().to_string();
    let option = |word: &str| vec![word.to_string(), whole.clone()];
    let ways = [
        vec![missing.clone()],
        vec![whole.clone(), missing],
        vec![folder],
        option("--what"),
        option("-x"),
        vec![whole.clone(), "--what".to_string()],
        vec!["--what".to_string()],
    ];
    let compare_one = |words: Vec<String>| {
        let refuses = Expected::Refuses(format!("{name}: "));
        refuses.compare(
            built.run(name, &words, &bytes),
            format!("{name} {}", words.join(" ")),
            &bytes,
        )
    };
    ways.map(compare_one).into()
}

/// `rows --repeat` without a number, and with something else.
fn bad_repeats(built: &Programs, files: &Files) -> Vec<Option<Difference>> {
    let bytes = write_map(&generate(Kind::Path, 1, 3, 0));
    let whole = files.write("whole", &bytes);
    let ways: [&[&str]; 4] = [
        &["--repeat"],
        &["--repeat", "x", &whole],
        &["--repeat", "", &whole],
        &["--repeat", "-1", &whole],
    ];
    let compare_one = |words: &[&str]| {
        let words: Vec<String> = words.iter().map(|word| word.to_string()).collect();
        let title = format!("rows {}", words.join(" "));
        Expected::Refuses("rows: ".to_string()).compare(
            built.run("rows", &words, &bytes),
            title,
            &bytes,
        )
    };
    ways.map(compare_one).into()
}
