//! Posts: the lines that stand at each place.

use crate::landmarks::Landmarks;

/// As what a place stands on a post.
#[derive(Clone, Copy, Debug, PartialEq, Eq)]
pub enum Standing {
    Near,
    Landmark,
}

/// A line of a post: a place, the next place towards it, and as what it stands there.
#[derive(Clone, Copy, Debug, PartialEq, Eq)]
pub struct Line {
    pub place: usize,
    pub next: usize,
    pub standing: Standing,
}

/// A post: its lines in rising order of their places.
#[derive(Clone, Debug, PartialEq, Eq)]
pub struct Post {
    pub lines: Vec<Line>,
}

impl Post {
    /// The post at `u`: a line for each landmark and for each place near `u`, but none for `u`.
    pub fn at(u: usize, places: usize, landmarks: &Landmarks) -> Post {
        let mut lines = Vec::new();
        for place in (0..places).filter(|&place| place != u) {
            let standing = if landmarks.includes(place) {
                Standing::Landmark
            } else if landmarks.is_near(place, u) {
                Standing::Near
            } else {
                continue;
            };
            lines.push(Line {
                place,
                next: landmarks.next(u, place),
                standing,
            });
        }
        Post { lines }
    }

    /// The line of a place, whatever it stands there as.
    pub fn line(&self, place: usize) -> Option<&Line> {
        self.lines.iter().find(|line| line.place == place)
    }

    /// The line of a place that stands there as near.
    pub fn near_line(&self, place: usize) -> Option<&Line> {
        self.line(place)
            .filter(|line| line.standing == Standing::Near)
    }
}

/// The posts of all places.
pub fn all_posts(places: usize, landmarks: &Landmarks) -> Vec<Post> {
    (0..places)
        .map(|place| Post::at(place, places, landmarks))
        .collect()
}

#[cfg(test)]
mod tests {
    use super::*;
    use crate::distances::Distances;
    use crate::generate::{generate, KINDS};
    use crate::map::Map;
    use crate::worked::{row, star, triangle};
    use Standing::{Landmark, Near};

    /// The lines of a post, each as its place, the next place and its standing.
    fn lines(map: &Map, landmarks: &[usize], u: usize) -> Vec<(usize, usize, Standing)> {
        let distances = Distances::of(map);
        let post = Post::at(u, map.places, &Landmarks::new(&distances, landmarks));
        let taken_apart = |line: &Line| (line.place, line.next, line.standing);
        post.lines.iter().map(taken_apart).collect()
    }

    #[test]
    fn the_posts_of_a_row() {
        assert_eq!(lines(&row(), &[0], 0), []);
        let at_1 = [(0, 0, Landmark), (2, 2, Near), (3, 2, Near), (4, 2, Near)];
        assert_eq!(lines(&row(), &[0], 1), at_1);
        let at_2 = [(0, 1, Landmark), (3, 3, Near), (4, 3, Near)];
        assert_eq!(lines(&row(), &[0], 2), at_2);
        let at_3 = [(0, 2, Landmark), (2, 2, Near), (4, 4, Near)];
        assert_eq!(lines(&row(), &[0], 3), at_3);
        let at_4 = [(0, 3, Landmark), (3, 3, Near)];
        assert_eq!(lines(&row(), &[0], 4), at_4);
    }

    #[test]
    fn the_posts_of_a_star_and_a_triangle() {
        let middle = [(1, 1, Landmark), (2, 2, Near), (3, 3, Near), (4, 4, Near)];
        assert_eq!(lines(&star(), &[1], 0), middle);
        assert_eq!(lines(&star(), &[1], 1), []);
        assert_eq!(lines(&star(), &[1], 2), [(1, 0, Landmark)]);
        assert_eq!(lines(&triangle(), &[0], 1), [(0, 0, Landmark)]);
        assert_eq!(lines(&triangle(), &[0], 2), [(0, 0, Landmark)]);
    }

    #[test]
    fn with_landmarks_everywhere_all_lines_are_of_landmarks() {
        let expected = [(0, 1, Landmark), (1, 1, Landmark), (3, 3, Landmark)];
        assert_eq!(lines(&row(), &[0, 1, 2, 3, 4], 2)[..3], expected);
        for u in 0..5 {
            assert_eq!(lines(&row(), &[0, 1, 2, 3, 4], u).len(), 4);
        }
    }

    #[test]
    fn with_9_places_no_post_has_more_than_8_lines() {
        for kind in KINDS {
            let map = generate(kind, 2, 9, 14);
            assert!((0..9).all(|u| lines(&map, &[0], u).len() <= 8));
        }
    }

    #[test]
    fn a_line_is_found_as_near_only_if_it_stands_so() {
        let distances = Distances::of(&row());
        let post = Post::at(1, 5, &Landmarks::new(&distances, &[0]));
        assert_eq!(post.line(0), Some(&post.lines[0]));
        assert_eq!(post.near_line(0), None);
        assert_eq!(post.near_line(4), Some(&post.lines[3]));
        assert_eq!(post.line(1), None);
    }
}
