//! End-to-end tests: `tests FOLDER` runs the programs in FOLDER and compares their answers with the oracle's.

mod changed;
mod damage;
mod documents;
mod draft;
mod ends;
mod expected;
mod giving;
mod golden;
mod parallel;
mod program;
mod refusals;
mod report;
mod roads;
mod rows;
mod sets;
mod walks;

use program::Programs;
use report::Report;
use std::path::Path;
use std::process::ExitCode;
use std::time::Instant;

/// A group of tests: it runs the programs and gives a report.
type Group = fn(&Programs, &Path) -> Report;

/// The groups that are always run.
const GROUPS: [(&str, Group); 4] = [
    ("map documents, whole and damaged", documents::compare),
    ("distances and next places", rows::compare),
    ("golden files", golden::compare),
    ("ways to give the input", giving::compare),
];

/// The group that can be left out, for a program `walk` that doesn't know landmarks yet.
const WALKS: (&str, Group) = ("walks", walks::compare);

/// Where this is set in the environment, the walks are left out.
const WITHOUT_WALKS: &str = "TESTS_WITHOUT_WALKS";

fn main() -> ExitCode {
    let words: Vec<String> = std::env::args().skip(1).collect();
    let [folder] = words.as_slice() else {
        eprintln!("usage: tests FOLDER (the folder of the built programs)");
        return ExitCode::FAILURE;
    };
    let programs = Programs::in_folder(folder);
    if let Some(name) = programs.missing() {
        eprintln!("tests: there is no program {name} in {folder}");
        return ExitCode::FAILURE;
    }
    let root = Path::new(env!("CARGO_MANIFEST_DIR"))
        .parent()
        .expect("tests/ is in the repository");
    if run_groups(&programs, root) {
        ExitCode::SUCCESS
    } else {
        ExitCode::FAILURE
    }
}

/// Runs the groups and prints what they found; says whether nothing was different.
fn run_groups(programs: &Programs, root: &Path) -> bool {
    let without_walks = std::env::var_os(WITHOUT_WALKS).is_some();
    let mut groups = GROUPS.to_vec();
    if !without_walks {
        groups.push(WALKS);
    }
    let (mut compared, mut different) = (0, 0);
    for (name, group) in groups {
        let began = Instant::now();
        let report = group(programs, root);
        println!("{name}: {report} ({:.1} s)", began.elapsed().as_secs_f64());
        compared += report.compared();
        different += report.different();
    }
    let mut skipped = "";
    if without_walks {
        println!("{}: SKIPPED, since {WITHOUT_WALKS} is set", WALKS.0);
        skipped = ", walks SKIPPED";
    }
    println!("end-to-end tests: {compared} answers compared, {different} different{skipped}");
    different == 0
}
