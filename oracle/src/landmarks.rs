//! Landmarks: which one is that of a place, and which places are near which.

use crate::distances::Distances;

/// Some places of a connected map, at least one, as its landmarks.
pub struct Landmarks<'a> {
    distances: &'a Distances,
    /// In rising order.
    places: Vec<usize>,
}

impl<'a> Landmarks<'a> {
    /// These places as landmarks; in which order they come, and how often, makes no difference.
    pub fn new(distances: &'a Distances, places: &[usize]) -> Landmarks<'a> {
        let mut places = places.to_vec();
        places.sort_unstable();
        places.dedup();
        Landmarks { distances, places }
    }

    /// Whether a place is a landmark.
    pub fn includes(&self, place: usize) -> bool {
        self.places.contains(&place)
    }

    /// The landmark of a place: the one at the least distance, the lowest among equals.
    pub fn of(&self, place: usize) -> usize {
        let mut closest = self.places[0];
        for &landmark in &self.places {
            if self.distance(landmark, place) < self.distance(closest, place) {
                closest = landmark;
            }
        }
        closest
    }

    /// Whether `v` is near `u`: their distance is less than that of `v` and its landmark.
    pub fn is_near(&self, v: usize, u: usize) -> bool {
        self.distance(u, v) < self.distance(v, self.of(v))
    }

    /// The next place from `from` towards `to`, another place.
    pub fn next(&self, from: usize, to: usize) -> usize {
        self.distances
            .next(from, to)
            .expect("a connected map has a way to every other place")
    }

    fn distance(&self, from: usize, to: usize) -> u32 {
        self.distances
            .distance(from, to)
            .expect("a connected map has all distances")
    }
}

#[cfg(test)]
mod tests {
    use super::*;
    use crate::generate::{generate, KINDS};
    use crate::worked::{map_of, row, star, triangle};

    #[test]
    fn near_in_a_row() {
        let distances = Distances::of(&row());
        let landmarks = Landmarks::new(&distances, &[0]);
        let near_to_3: Vec<usize> = (0..5).filter(|&u| landmarks.is_near(3, u)).collect();
        assert_eq!(near_to_3, [1, 2, 3, 4]);
        assert!(!landmarks.is_near(1, 4));
        assert!((0..5).all(|u| !landmarks.is_near(0, u)));
    }

    #[test]
    fn as_far_as_the_landmark_is_not_near() {
        let distances = Distances::of(&star());
        let landmarks = Landmarks::new(&distances, &[1]);
        assert!(!landmarks.is_near(3, 2));
        assert!(landmarks.is_near(3, 0));
        let distances = Distances::of(&triangle());
        assert!(!Landmarks::new(&distances, &[0]).is_near(2, 1));
    }

    #[test]
    fn the_closest_landmark_and_the_lowest_among_equals() {
        let distances = Distances::of(&row());
        let of_all = |places: &[usize]| -> Vec<usize> {
            let landmarks = Landmarks::new(&distances, places);
            (0..5).map(|place| landmarks.of(place)).collect()
        };
        assert_eq!(of_all(&[0, 4]), [0, 0, 0, 4, 4]);
        assert_eq!(of_all(&[4, 0, 4]), [0, 0, 0, 4, 4]);
        assert_eq!(of_all(&[1, 3]), [1, 1, 1, 3, 3]);
        let distances = Distances::of(&map_of(3, &[(0, 2, 5), (1, 2, 4)]));
        assert_eq!(Landmarks::new(&distances, &[0, 1]).of(2), 1);
    }

    #[test]
    fn with_landmarks_everywhere_nothing_is_near() {
        for kind in KINDS {
            let distances = Distances::of(&generate(kind, 5, 20, 40));
            let landmarks = Landmarks::new(&distances, &(0..20).collect::<Vec<_>>());
            for v in 0..20 {
                assert_eq!(landmarks.of(v), v);
                assert!((0..20).all(|u| !landmarks.is_near(v, u)));
            }
        }
    }

    #[test]
    fn with_more_landmarks_less_is_near() {
        for kind in KINDS {
            let distances = Distances::of(&generate(kind, 6, 25, 50));
            for count in 1..25 {
                let fewer = Landmarks::new(&distances, &(0..count).collect::<Vec<_>>());
                let more = Landmarks::new(&distances, &(0..=count).collect::<Vec<_>>());
                for (u, v) in (0..25).flat_map(|u| (0..25).map(move |v| (u, v))) {
                    assert!(fewer.is_near(v, u) || !more.is_near(v, u));
                }
            }
        }
    }
}
