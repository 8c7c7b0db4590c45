//! Sets of places of a map, to be its landmarks.

use oracle::random::Random;

/// Of a map with up to so many places every set is taken.
const ALL_SETS_UP_TO: usize = 5;

/// Sets for a map of that many places, each in rising order: all of a small map; else place 0
/// alone, the highest place alone, all places, a few at random, and any number at random.
pub fn sets(places: usize, random: &mut Random) -> Vec<Vec<usize>> {
    if places <= ALL_SETS_UP_TO {
        return all_sets(places);
    }
    let few = random.between(2, places.isqrt() + 1);
    let any = random.between(2, places - 1);
    vec![
        vec![0],
        vec![places - 1],
        (0..places).collect(),
        drawn(places, few, random),
        drawn(places, any, random),
    ]
}

/// All sets but the empty one.
fn all_sets(places: usize) -> Vec<Vec<usize>> {
    let set = |bits: usize| (0..places).filter(|place| bits >> place & 1 == 1).collect();
    (1..1 << places).map(set).collect()
}

/// So many places drawn at random.
fn drawn(places: usize, count: usize, random: &mut Random) -> Vec<usize> {
    let mut drawn: Vec<usize> = (0..places).collect();
    random.shuffle(&mut drawn);
    drawn.truncate(count);
    drawn.sort_unstable();
    drawn
}

/// A set as a list on the command line.
pub fn listed(set: &[usize]) -> String {
    let numbers: Vec<String> = set.iter().map(|place| place.to_string()).collect();
    numbers.join(",")
}
