//! Maps made for tests and benchmarks, of several shapes; the same seed always gives the same map.

use crate::map::{Map, Road, MOST_ROADS};
use crate::random::Random;
use std::collections::BTreeSet;

/// The shape of a map and the choice of its costs.
#[derive(Clone, Copy, Debug, PartialEq, Eq)]
pub enum Kind {
    /// Roads anywhere, costs from 1 to 1,000.
    Random,
    /// Places strewn over a plane, roads between close ones, costs by their distance in the plane.
    Sparse,
    /// Some places with roads between all of them, the others hung on.
    Dense,
    /// Rows and columns.
    Grid,
    Tree,
    Path,
    Ring,
    Star,
    /// As random, with costs from 60,000 to 65,535.
    Heavy,
    /// As random, with costs from 1 to 3, so that many ways cost the same.
    Ties,
}

pub const KINDS: [Kind; 10] = [
    Kind::Random,
    Kind::Sparse,
    Kind::Dense,
    Kind::Grid,
    Kind::Tree,
    Kind::Path,
    Kind::Ring,
    Kind::Star,
    Kind::Heavy,
    Kind::Ties,
];

impl Kind {
    /// The word for a kind on the command line.
    pub fn name(self) -> &'static str {
        match self {
            Kind::Random => "random",
            Kind::Sparse => "sparse",
            Kind::Dense => "dense",
            Kind::Grid => "grid",
            Kind::Tree => "tree",
            Kind::Path => "path",
            Kind::Ring => "ring",
            Kind::Star => "star",
            Kind::Heavy => "heavy",
            Kind::Ties => "ties",
        }
    }

    pub fn named(name: &str) -> Option<Kind> {
        KINDS.into_iter().find(|kind| kind.name() == name)
    }
}

/// Two places that a road joins, the lower one first.
type Pair = (usize, usize);

/// A point of the plane.
type Point = (usize, usize);

/// Makes a connected map of `places` places, at least 1, and of `roads` roads where its shape
/// leaves the number open and that many are possible.
pub fn generate(kind: Kind, seed: u64, places: usize, roads: usize) -> Map {
    let mut random = Random::new(seed);
    let most = MOST_ROADS.min(places * (places - 1) / 2);
    let wanted = roads.clamp(places - 1, most);
    let points: Vec<Point> = (0..places)
        .map(|_| (random.below(1000), random.below(1000)))
        .collect();
    let pairs = shape(kind, &points, wanted, &mut random);
    let numbers = numbering(kind, places, &mut random);
    let mut roads: Vec<Road> = Vec::new();
    for (a, b) in pairs {
        let cost = match kind {
            Kind::Sparse => apart(points[a], points[b]).isqrt().max(1),
            Kind::Heavy => random.between(60_000, 65_535),
            Kind::Ties => random.between(1, 3),
            _ => random.between(1, 1000),
        };
        let (lower, higher) = ordered(numbers[a], numbers[b]);
        roads.push(Road {
            lower,
            higher,
            cost: cost as u32,
        });
    }
    roads.sort_unstable();
    Map { places, roads }
}

/// The pairs of places that roads join; there is a place for each point.
fn shape(kind: Kind, points: &[Point], wanted: usize, random: &mut Random) -> BTreeSet<Pair> {
    let places = points.len();
    match kind {
        Kind::Random | Kind::Heavy | Kind::Ties => {
            fill(tree(places, random), places, wanted, random)
        }
        Kind::Sparse => close_pairs(points, wanted),
        Kind::Dense => fill(clique(places, wanted, random), places, wanted, random),
        Kind::Grid => grid(places),
        Kind::Tree => tree(places, random),
        Kind::Path => path(places),
        Kind::Ring => ring(places),
        Kind::Star => (1..places).map(|leaf| (0, leaf)).collect(),
    }
}

/// The numbers that the places get in the end: of a grid they stay, else they are drawn, so that
/// the lowest of equal neighbours is anywhere in the shape.
fn numbering(kind: Kind, places: usize, random: &mut Random) -> Vec<usize> {
    let mut numbers: Vec<usize> = (0..places).collect();
    if kind != Kind::Grid {
        random.shuffle(&mut numbers);
    }
    numbers
}

fn ordered(a: usize, b: usize) -> Pair {
    (a.min(b), a.max(b))
}

/// Each place hangs on one before it.
fn tree(places: usize, random: &mut Random) -> BTreeSet<Pair> {
    (1..places)
        .map(|place| (random.below(place), place))
        .collect()
}

fn path(places: usize) -> BTreeSet<Pair> {
    (1..places).map(|place| (place - 1, place)).collect()
}

fn ring(places: usize) -> BTreeSet<Pair> {
    let mut pairs = path(places);
    if places > 2 {
        pairs.insert((0, places - 1));
    }
    pairs
}

/// Rows of about the same number of places as there are rows; the last one may be shorter.
fn grid(places: usize) -> BTreeSet<Pair> {
    let width = (places - 1).isqrt() + 1;
    let right = (1..places)
        .filter(|place| place % width != 0)
        .map(|place| (place - 1, place));
    let below = (width..places).map(|place| (place - width, place));
    right.chain(below).collect()
}

/// As many places with roads between all of them as `wanted` roads allow, and the others hung on.
fn clique(places: usize, wanted: usize, random: &mut Random) -> BTreeSet<Pair> {
    let fits = |&size: &usize| size * (size - 1) / 2 + (places - size) <= wanted;
    let size = (1..=places).rev().find(fits).unwrap_or(1);
    let mut pairs = BTreeSet::new();
    for b in 1..places {
        if b < size {
            pairs.extend((0..b).map(|a| (a, b)));
        } else {
            pairs.insert((random.below(b), b));
        }
    }
    pairs
}

/// Adds pairs drawn at random until there are `wanted`; there have to be that many.
fn fill(
    mut pairs: BTreeSet<Pair>,
    places: usize,
    wanted: usize,
    random: &mut Random,
) -> BTreeSet<Pair> {
    while pairs.len() < wanted {
        let (a, b) = (random.below(places), random.below(places));
        if a != b {
            pairs.insert(ordered(a, b));
        }
    }
    pairs
}

/// Each point is joined to the closest one before it; then the closest pairs left over are joined.
fn close_pairs(points: &[Point], wanted: usize) -> BTreeSet<Pair> {
    let mut pairs = BTreeSet::new();
    let mut others = Vec::new();
    for b in 1..points.len() {
        let closest = (0..b)
            .min_by_key(|&a| apart(points[a], points[b]))
            .expect("there is one before");
        pairs.insert((closest, b));
        others.extend((0..b).filter(|&a| a != closest).map(|a| (a, b)));
    }
    others.sort_by_key(|&(a, b)| apart(points[a], points[b]));
    let missing = wanted - pairs.len();
    pairs.extend(others.into_iter().take(missing));
    pairs
}

/// The square of the distance of two points in the plane.
fn apart(a: Point, b: Point) -> usize {
    a.0.abs_diff(b.0).pow(2) + a.1.abs_diff(b.1).pow(2)
}

#[cfg(test)]
mod tests {
    use super::*;
    use crate::reading::{read_map, Behind};
    use crate::writing::write_map;

    #[test]
    fn every_kind_gives_maps_that_can_be_read() {
        for kind in KINDS {
            for (places, roads) in [(1, 0), (2, 1), (3, 9), (17, 30), (100, 400), (512, 4096)] {
                let map = generate(kind, 3, places, roads);
                assert!(
                    read_map(&write_map(&map), Behind::Nothing).is_ok(),
                    "{kind:?} {places}"
                );
            }
        }
    }

    #[test]
    fn as_many_roads_as_wanted() {
        for kind in [
            Kind::Random,
            Kind::Sparse,
            Kind::Dense,
            Kind::Heavy,
            Kind::Ties,
        ] {
            assert_eq!(generate(kind, 1, 512, 4096).roads.len(), 4096);
            assert_eq!(generate(kind, 1, 512, 700).roads.len(), 700);
            assert_eq!(generate(kind, 1, 10, 4096).roads.len(), 45);
            assert_eq!(generate(kind, 1, 10, 0).roads.len(), 9);
        }
    }

    #[test]
    fn the_seed_decides() {
        assert_eq!(
            generate(Kind::Random, 4, 50, 90),
            generate(Kind::Random, 4, 50, 90)
        );
        assert_ne!(
            generate(Kind::Random, 4, 50, 90),
            generate(Kind::Random, 5, 50, 90)
        );
    }

    #[test]
    fn every_name_names_its_kind() {
        for kind in KINDS {
            assert_eq!(Kind::named(kind.name()), Some(kind));
        }
        assert_eq!(Kind::named("spiral"), None);
    }
}
