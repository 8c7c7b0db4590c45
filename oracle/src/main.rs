//! The oracle's command: what the programs say, what is told of landmarks, and maps that are made.

use oracle::faults::Refusal;
use oracle::generate::{generate, Kind};
use oracle::map::{MOST_PLACES, MOST_ROADS};
use oracle::programs::{named, repeated_rows};
use oracle::telling::{posts, walks, Telling};
use oracle::writing::write_map;
use std::io::{self, Read, Write};
use std::process::ExitCode;

fn main() -> ExitCode {
    let words: Vec<String> = std::env::args().skip(1).collect();
    let name = words.first().map_or("oracle", |word| word.as_str());
    let answer = match name {
        "generate" => write_generated(&words[1..]),
        "walks" => tell(walks, &words[1..]),
        "posts" => tell(posts, &words[1..]),
        _ => run_program(name, words.get(1..).unwrap_or_default()),
    };
    let written =
        answer.and_then(|bytes| io::stdout().write_all(&bytes).map_err(|e| e.to_string()));
    match written {
        Ok(()) => ExitCode::SUCCESS,
        Err(text) => {
            eprintln!("{name}: {text}");
            ExitCode::FAILURE
        }
    }
}

/// Runs the program of that name on the words behind it.
fn run_program(name: &str, words: &[String]) -> Result<Vec<u8>, String> {
    let usage = "usage: oracle plan|walk|change|rows [FILE…], \
                 oracle walks|posts --landmarks A,B,C [FILE…] \
                 or oracle generate KIND SEED PLACES ROADS";
    let program = named(name).ok_or(usage)?;
    let said = match words {
        [option, times, files @ ..] if name == "rows" && option == "--repeat" => {
            let times = times
                .parse()
                .map_err(|_| format!("not a number: {times}"))?;
            repeated_rows(&read_files(files)?, times)
        }
        files => program(&read_files(files)?),
    };
    said.map(String::into_bytes).map_err(in_words)
}

/// The whole of a refusal: what every implementation says, and the fault in the oracle's words.
fn in_words(refusal: Refusal) -> String {
    format!("{refusal}: {}", refusal.fault.text())
}

/// What is told of the landmarks and the map that the words name.
fn tell(telling: Telling, words: &[String]) -> Result<Vec<u8>, String> {
    let [option, list, files @ ..] = words else {
        return Err("landmarks: --landmarks A,B,C is wanted".to_string());
    };
    if option != "--landmarks" {
        return Err("landmarks: --landmarks A,B,C is wanted first".to_string());
    }
    let told = telling(&read_files(files)?, list);
    told.map(String::into_bytes)
        .map_err(|refused| format!("{refused}: {}", refused.text()))
}

/// The bytes of the files one after the other; standard input if there are none, and for `-`.
fn read_files(files: &[String]) -> Result<Vec<u8>, String> {
    if let Some(option) = files
        .iter()
        .find(|file| file.starts_with('-') && *file != "-")
    {
        return Err(format!("unknown option {option}"));
    }
    let mut bytes = Vec::new();
    if files.is_empty() {
        read_input(&mut bytes)?;
    }
    for file in files {
        if file == "-" {
            read_input(&mut bytes)?;
        } else {
            let read =
                std::fs::read(file).map_err(|error| format!("cannot read {file}: {error}"))?;
            bytes.extend(read);
        }
    }
    Ok(bytes)
}

fn read_input(bytes: &mut Vec<u8>) -> Result<usize, String> {
    io::stdin()
        .read_to_end(bytes)
        .map_err(|error| format!("cannot read standard input: {error}"))
}

/// The document of the map that the words ask for.
fn write_generated(words: &[String]) -> Result<Vec<u8>, String> {
    let [kind, seed, places, roads] = words else {
        return Err("four words are needed: KIND SEED PLACES ROADS".to_string());
    };
    let kind = Kind::named(kind).ok_or(format!("unknown kind {kind}"))?;
    let places = number(places, MOST_PLACES)?;
    if places == 0 {
        return Err("a map has at least one place".to_string());
    }
    let map = generate(
        kind,
        number(seed, usize::MAX)? as u64,
        places,
        number(roads, MOST_ROADS)?,
    );
    Ok(write_map(&map))
}

fn number(word: &str, most: usize) -> Result<usize, String> {
    let number = word.parse().map_err(|_| format!("not a number: {word}"))?;
    if number > most {
        return Err(format!("{number} is more than {most}"));
    }
    Ok(number)
}
