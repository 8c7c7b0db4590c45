//! A map: places numbered from 0, and the roads between them.

/// A map has at least one place and at most this many.
pub const MOST_PLACES: usize = 512;

/// A map has at most this many roads.
pub const MOST_ROADS: usize = 4096;

/// A road between two places; its cost is the same both ways.
///
/// The order of the fields makes the order of roads: by the lower place, then by the higher.
#[derive(Clone, Copy, Debug, PartialEq, Eq, PartialOrd, Ord)]
pub struct Road {
    pub lower: usize,
    pub higher: usize,
    pub cost: u32,
}

/// A map, its roads in rising order.
#[derive(Clone, Debug, PartialEq, Eq)]
pub struct Map {
    pub places: usize,
    pub roads: Vec<Road>,
}

impl Map {
    /// The neighbours of a place in rising order, each with the cost of the road to it.
    pub fn neighbours(&self, place: usize) -> Vec<(usize, u32)> {
        let mut found = Vec::new();
        for road in &self.roads {
            if road.lower == place {
                found.push((road.higher, road.cost));
            }
            if road.higher == place {
                found.push((road.lower, road.cost));
            }
        }
        found.sort_unstable();
        found
    }

    /// The cost of the road between two places; none where there is no road.
    pub fn cost(&self, one: usize, other: usize) -> Option<u32> {
        let ends = (one.min(other), one.max(other));
        let mut roads = self.roads.iter();
        roads
            .find(|road| (road.lower, road.higher) == ends)
            .map(|road| road.cost)
    }

    /// Whether every place can be reached from place 0.
    pub fn is_connected(&self) -> bool {
        let mut reached = vec![false; self.places];
        reached[0] = true;
        let mut grows = true;
        while grows {
            grows = false;
            for road in &self.roads {
                if reached[road.lower] != reached[road.higher] {
                    reached[road.lower] = true;
                    reached[road.higher] = true;
                    grows = true;
                }
            }
        }
        reached.iter().all(|&is_reached| is_reached)
    }
}

#[cfg(test)]
mod tests {
    use super::*;

    fn road(lower: usize, higher: usize, cost: u32) -> Road {
        Road {
            lower,
            higher,
            cost,
        }
    }

    #[test]
    fn neighbours_rise_and_come_from_both_ends() {
        let map = Map {
            places: 4,
            roads: vec![road(0, 2, 5), road(1, 2, 7), road(2, 3, 1)],
        };
        assert_eq!(map.neighbours(2), [(0, 5), (1, 7), (3, 1)]);
        assert_eq!(map.neighbours(3), [(2, 1)]);
    }

    #[test]
    fn a_road_costs_the_same_both_ways() {
        let map = Map {
            places: 3,
            roads: vec![road(0, 2, 5), road(1, 2, 7)],
        };
        assert_eq!((map.cost(1, 2), map.cost(2, 1)), (Some(7), Some(7)));
        assert_eq!((map.cost(0, 1), map.cost(2, 2)), (None, None));
        assert_eq!(map.cost(2, 65_535), None);
    }

    #[test]
    fn one_place_is_connected_and_two_without_a_road_are_not() {
        assert!(Map {
            places: 1,
            roads: vec![]
        }
        .is_connected());
        assert!(!Map {
            places: 2,
            roads: vec![]
        }
        .is_connected());
    }

    #[test]
    fn two_halves_are_not_connected() {
        let halves = vec![road(0, 3, 1), road(1, 2, 1)];
        assert!(!Map {
            places: 4,
            roads: halves.clone()
        }
        .is_connected());
        let mut joined = halves;
        joined.push(road(2, 3, 1));
        assert!(Map {
            places: 4,
            roads: joined
        }
        .is_connected());
    }
}
