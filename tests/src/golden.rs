//! Golden files: tests/golden/NAME.in is given to a program, NAME.out and NAME.err have what it says.
//!
//! The part of NAME before the first `-` is the program. NAME.out is the whole of standard output.
//! NAME.err is empty, or has the beginning of the one line on standard error, up to the words of the
//! fault; then the status has to be 1. The oracle is held to the same files as the programs.

use crate::expected::Expected;
use crate::parallel;
use crate::program::{Answer, Programs};
use crate::refusals::words_in;
use crate::report::{Difference, Report};
use oracle::programs;
use std::fs;
use std::path::{Path, PathBuf};

/// Compares all golden files with the programs and with the oracle.
pub fn compare(built: &Programs, root: &Path) -> Report {
    let entries = fs::read_dir(root.join("tests/golden")).expect("there is tests/golden/");
    let mut files: Vec<_> = entries
        .map(|entry| entry.expect("tests/golden/ can be read").path())
        .collect();
    files.retain(|file| file.extension().is_some_and(|extension| extension == "in"));
    files.sort();
    assert!(!files.is_empty(), "there are golden files");
    Report::of(parallel::map(&files, |file| compare_file(built, file)))
}

fn compare_file(built: &Programs, file: &Path) -> Vec<Option<Difference>> {
    let input = fs::read(file).expect("a golden input can be read");
    let title = file
        .file_stem()
        .expect("a golden file has a name")
        .to_string_lossy()
        .into_owned();
    let name = title.split('-').next().expect("a split has a first part");
    let expected = expected(file);
    let of_program = expected.compare(built.run(name, &[], &input), title.clone(), &input);
    let of_oracle = expected.compare(
        Ok(oracles_answer(name, &input)),
        format!("{title}, the oracle"),
        &input,
    );
    vec![of_program, of_oracle]
}

fn expected(file: &Path) -> Expected {
    let text = |file: PathBuf| {
        fs::read_to_string(&file).unwrap_or_else(|e| panic!("{}: {e}", file.display()))
    };
    let (out, err) = (
        text(file.with_extension("out")),
        text(file.with_extension("err")),
    );
    if err.is_empty() {
        return Expected::Says(out);
    }
    assert!(
        out.is_empty(),
        "{}: a refusal says nothing on standard output",
        file.display()
    );
    Expected::Refuses(format!("{}: ", err.trim_end()))
}

fn oracles_answer(name: &str, input: &[u8]) -> Answer {
    let program = programs::named(name).unwrap_or_else(|| panic!("no program {name}"));
    match program(input) {
        Ok(text) => Answer {
            status: Some(0),
            stdout: text.into_bytes(),
            stderr: vec![],
        },
        Err(refusal) => {
            // The oracle has words of its own behind this; those of the programs are no business of its.
            let line = format!("{name}: {refusal}: ");
            let words = words_in(&line).unwrap_or_default();
            Answer {
                status: Some(1),
                stdout: vec![],
                stderr: format!("{line}{words}\n").into_bytes(),
            }
        }
    }
}
