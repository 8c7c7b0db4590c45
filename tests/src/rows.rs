//! Distances and next places of whole maps: the program `rows` compared with the oracle's literal answer.

use crate::expected::Expected;
use crate::parallel;
use crate::program::Programs;
use crate::report::Report;
use oracle::generate::{generate, Kind, KINDS};
use oracle::map::{Map, Road};
use oracle::programs;
use oracle::writing::write_map;
use std::fs;
use std::path::Path;

/// Compares the rows of the maps in examples/ and of generated ones.
pub fn compare(built: &Programs, root: &Path) -> Report {
    let mut maps = examples(root);
    maps.extend(longest_ways());
    maps.extend(generated());
    Report::of(parallel::map(&maps, |(title, bytes)| {
        let rows = Expected::of("rows", programs::rows(bytes));
        let sum = Expected::of("rows", programs::repeated_rows(bytes, 2));
        let repeat = ["--repeat".to_string(), "2".to_string()];
        vec![
            rows.compare(
                built.run("rows", &[], bytes),
                format!("rows: {title}"),
                bytes,
            ),
            sum.compare(
                built.run("rows", &repeat, bytes),
                format!("rows --repeat 2: {title}"),
                bytes,
            ),
        ]
    }))
}

/// The bytes of all maps in examples/, with their names.
pub fn examples(root: &Path) -> Vec<(String, Vec<u8>)> {
    let entries = fs::read_dir(root.join("examples")).expect("the repository has examples/");
    let mut files: Vec<_> = entries
        .map(|entry| entry.expect("examples/ can be read").path())
        .collect();
    files.retain(|file| file.extension().is_some_and(|extension| extension == "map"));
    files.sort();
    assert!(!files.is_empty(), "examples/ has maps");
    let read = |file: &std::path::PathBuf| {
        (
            file.display().to_string(),
            fs::read(file).expect("a map can be read"),
        )
    };
    files.iter().map(read).collect()
}

/// A path and a ring of as many places as can be, at the highest cost: the greatest distances.
fn longest_ways() -> Vec<(String, Vec<u8>)> {
    let mut roads: Vec<Road> = (0..511)
        .map(|place| Road {
            lower: place,
            higher: place + 1,
            cost: 65_535,
        })
        .collect();
    let path = write_map(&Map {
        places: 512,
        roads: roads.clone(),
    });
    roads.insert(
        1,
        Road {
            lower: 0,
            higher: 511,
            cost: 65_535,
        },
    );
    let ring = write_map(&Map { places: 512, roads });
    vec![
        ("the longest path".to_string(), path),
        ("the heaviest ring".to_string(), ring),
    ]
}

/// Maps of all kinds, small and as large as they can be.
fn generated() -> Vec<(String, Vec<u8>)> {
    let mut maps = Vec::new();
    for kind in KINDS {
        for (places, roads) in [
            (2, 1),
            (9, 14),
            (33, 70),
            (130, 400),
            (512, 700),
            (512, 4096),
        ] {
            let title = format!("{} of {places} places, {roads} roads", kind.name());
            maps.push((title, write_map(&generate(kind, 11, places, roads))));
        }
    }
    for seed in 0..40 {
        let bytes = write_map(&generate(Kind::Ties, seed, 12, 20));
        maps.push((format!("small ties, seed {seed}"), bytes));
    }
    maps
}
