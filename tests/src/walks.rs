//! Walks by posts and cards: `walk --landmarks` compared with the oracle for every pair of places.

use crate::expected::Expected;
use crate::parallel;
use crate::program::Programs;
use crate::report::{Difference, Report};
use crate::rows::examples;
use crate::sets::{listed, sets};
use oracle::generate::{generate, Kind, KINDS};
use oracle::map::Map;
use oracle::random::Random;
use oracle::telling;
use oracle::worked;
use oracle::writing::write_map;
use std::path::Path;

/// At least so many walks are to be compared.
const LEAST: usize = 1_000_000;

/// So many maps are made of each kind; the last one is large.
const OF_EACH_KIND: usize = 30;

/// A map, how it is given, and the sets of places that are its landmarks in turn.
struct Given {
    title: String,
    bytes: Vec<u8>,
    /// The file of the map, if it isn't given on standard input.
    file: Option<String>,
    places: usize,
    sets: Vec<Vec<usize>>,
}

impl Given {
    fn new(title: String, map: &Map, random: &mut Random) -> Given {
        Given::with_sets(title, map, sets(map.places, random))
    }

    fn with_sets(title: String, map: &Map, sets: Vec<Vec<usize>>) -> Given {
        Given {
            title,
            bytes: write_map(map),
            file: None,
            places: map.places,
            sets,
        }
    }

    /// How many walks there are from a place to another, for all sets.
    fn walks(&self) -> usize {
        self.sets.len() * self.places * (self.places - 1)
    }

    /// Compares all walks, and all posts and cards, for each of the sets.
    fn compare(&self, built: &Programs) -> Vec<Option<Difference>> {
        let lists = self.sets.iter().map(|set| listed(set));
        lists
            .flat_map(|list| {
                [
                    self.compare_one(built, &list, false),
                    self.compare_one(built, &list, true),
                ]
            })
            .collect()
    }

    fn compare_one(&self, built: &Programs, list: &str, posts: bool) -> Option<Difference> {
        let mut words = vec!["--landmarks".to_string(), list.to_string()];
        let told = if posts {
            words.push("--posts".to_string());
            telling::posts(&self.bytes, list)
        } else {
            telling::walks(&self.bytes, list)
        };
        let title = format!("walk {}: {}", words.join(" "), self.title);
        words.extend(self.file.clone());
        let input: &[u8] = match self.file {
            Some(_) => b"not looked at",
            None => &self.bytes,
        };
        Expected::of("walk", told).compare(built.run("walk", &words, input), title, &self.bytes)
    }
}

/// Compares walks, posts and cards of the maps in examples/ and of others, and what is refused.
pub fn compare(built: &Programs, root: &Path) -> Report {
    let mut random = Random::new(2025);
    let mut maps = of_examples(root, &mut random);
    maps.extend(stars());
    maps.extend(worked_cases(&mut random));
    maps.extend(generated(&mut random));
    let walks = maps.iter().map(Given::walks).sum();
    assert!(walks >= LEAST, "only {walks} walks");
    let mut found = parallel::map(&maps, |given| given.compare(built));
    found.push(refused_landmarks(built));
    found.push(refused_maps(built));
    found.push(full_posts(built));
    Report::of(found).with_walks(walks)
}

/// The maps in examples/, given as files.
fn of_examples(root: &Path, random: &mut Random) -> Vec<Given> {
    let given = |(file, bytes): (String, Vec<u8>)| {
        let places = usize::from(bytes[1]) * 256 + usize::from(bytes[2]);
        Given {
            title: file.clone(),
            bytes,
            file: Some(file),
            places,
            sets: sets(places, random),
        }
    };
    examples(root).into_iter().map(given).collect()
}

/// A star with 255 lines on a post, as many as there can be: of landmarks, and of near places; and
/// a star of as many places as there can be, its middle the landmark.
fn stars() -> Vec<Given> {
    let full = generate(Kind::Star, 4, 256, 0);
    let sets = vec![(0..256).collect(), vec![place_with_roads(&full, 1)]];
    let largest = generate(Kind::Star, 4, 512, 0);
    let middle = place_with_roads(&largest, 511);
    vec![
        Given::with_sets("star of 256 places".to_string(), &full, sets),
        Given::with_sets(
            "star of 512 places".to_string(),
            &largest,
            vec![vec![middle]],
        ),
    ]
}

/// The lowest place with so many roads.
fn place_with_roads(map: &Map, roads: usize) -> usize {
    let has_so_many = |&place: &usize| map.neighbours(place).len() == roads;
    (0..map.places).find(has_so_many).expect("there is one")
}

fn worked_cases(random: &mut Random) -> Vec<Given> {
    let cases = [
        ("row", worked::row()),
        ("star", worked::star()),
        ("triangle", worked::triangle()),
    ];
    cases
        .map(|(name, map)| Given::new(name.to_string(), &map, random))
        .into()
}

/// Maps of all kinds: most of up to 60 places, and one of each kind with 110 to 200.
fn generated(random: &mut Random) -> Vec<Given> {
    let mut maps = Vec::new();
    for (index, kind) in KINDS.into_iter().enumerate() {
        for round in 0..OF_EACH_KIND {
            let places = if round == OF_EACH_KIND - 1 {
                110 + 10 * index
            } else {
                random.between(1, 4 + 2 * round)
            };
            let roads = random.between(places, 3 * places);
            let map = generate(kind, round as u64, places, roads);
            let name = kind.name();
            let title = format!("{name}, seed {round}, {places} places, {roads} roads");
            maps.push(Given::new(title, &map, random));
        }
    }
    // The largest first, so that no thread is left with one of them at the end.
    maps.sort_by_key(|given| std::cmp::Reverse(given.places));
    maps
}

/// A path of 512 places with one landmark, at which posts would have more lines than there is room for.
fn full_posts(built: &Programs) -> Vec<Option<Difference>> {
    let bytes = write_map(&generate(Kind::Path, 1, 512, 511));
    let ways: [&[&str]; 2] = [&["--landmarks", "0"], &["--landmarks", "0", "--posts"]];
    let compare_one = |words: &[&str]| {
        let words: Vec<String> = words.iter().map(|word| word.to_string()).collect();
        let title = format!("walk {}", words.join(" "));
        Expected::Refuses("walk: fault 6: ".to_string()).compare(
            built.run("walk", &words, &bytes),
            title,
            &bytes,
        )
    };
    ways.map(compare_one).into()
}

/// Lists that are empty or name a place that isn't there, and words that are no list.
fn refused_landmarks(built: &Programs) -> Vec<Option<Difference>> {
    let bytes = write_map(&worked::row());
    let unknown = ["", "5", "0,5", "5,0", "512", "65535", "65536", "4294967296"];
    let no_list = ["x", ",", "0,", ",0", "0,,1", "-1", "0,x", "--posts"];
    let ways = unknown.map(|list| (list, "walk: landmarks: "));
    let other_ways = no_list.map(|list| (list, "walk: "));
    let mut found = Vec::new();
    for (list, beginning) in ways.into_iter().chain(other_ways) {
        for more in [vec![], vec!["--posts".to_string()]] {
            let words = [vec!["--landmarks".to_string(), list.to_string()], more].concat();
            let title = format!("walk {}", words.join(" "));
            let refuses = Expected::Refuses(beginning.to_string());
            found.push(refuses.compare(built.run("walk", &words, &bytes), title, &bytes));
        }
    }
    let alone = ["--landmarks".to_string()];
    let answer = built.run("walk", &alone, &bytes);
    found.push(Expected::Refuses("walk: ".to_string()).compare(answer, alone.concat(), &bytes));
    found
}

/// Maps that are cut, followed by bytes, or not connected: a map alone is wanted.
fn refused_maps(built: &Programs) -> Vec<Option<Difference>> {
    let bytes = write_map(&worked::row());
    let mut not_connected = bytes.clone();
    not_connected[2] += 1;
    let documents = [
        vec![],
        bytes[..20].to_vec(),
        [&bytes[..], &[4, 0, 0, 0, 1]].concat(),
        not_connected,
    ];
    let given = |bytes: Vec<u8>| Given {
        title: "a map that is refused".to_string(),
        bytes,
        file: None,
        places: 5,
        sets: vec![vec![0], vec![1, 2]],
    };
    let found = documents.map(|bytes| given(bytes).compare(built));
    found.into_iter().flatten().collect()
}
