//! The small maps of the worked cases: a row, a star, a triangle.

use crate::map::{Map, Road};

/// A map from its number of places and its roads, each as its lower place, its higher one, its cost.
pub fn map_of(places: usize, roads: &[(usize, usize, u32)]) -> Map {
    let road = |&(lower, higher, cost): &(usize, usize, u32)| Road {
        lower,
        higher,
        cost,
    };
    Map {
        places,
        roads: roads.iter().map(road).collect(),
    }
}

/// The places 0 to 4 in a row, costs 1.
pub fn row() -> Map {
    map_of(5, &[(0, 1, 1), (1, 2, 1), (2, 3, 1), (3, 4, 1)])
}

/// The middle 0 and the leaves 1 to 4, costs 1.
pub fn star() -> Map {
    map_of(5, &[(0, 1, 1), (0, 2, 1), (0, 3, 1), (0, 4, 1)])
}

/// Three places: 0 and 1 at the cost 1, and 2 at the cost 3 from both.
pub fn triangle() -> Map {
    map_of(3, &[(0, 1, 1), (0, 2, 3), (1, 2, 3)])
}
