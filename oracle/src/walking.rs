//! Walking: from place to place by the posts and one card, to an end of one of three kinds.

use crate::cards::Card;
use crate::map::Map;
use crate::posts::Post;

/// What the post at a place and a card say to whoever stands there.
#[derive(Clone, Copy, Debug, PartialEq, Eq)]
pub enum Step {
    /// This is the place.
    Arrived,
    /// The next place.
    To(usize),
    /// What is needed doesn't stand there.
    Missing,
}

/// The step at `u`: the post there and the card are all that is looked at.
pub fn step(u: usize, post: &Post, card: &Card) -> Step {
    if u == card.place {
        return Step::Arrived;
    }
    let next = if let Some(line) = post.near_line(card.place) {
        Some(line.next)
    } else if u == card.landmark {
        card.hint
    } else {
        post.line(card.landmark).map(|line| line.next)
    };
    next.map_or(Step::Missing, Step::To)
}

/// How a walk ends.
#[derive(Clone, Copy, Debug, PartialEq, Eq)]
pub enum End {
    Arrived,
    /// At this place a line or a road isn't there.
    Stuck(usize),
    /// Twice as many roads are gone as there are places.
    WornOut,
}

/// A walk: the places passed, the first one included, the cost paid, and the end.
#[derive(Clone, Debug, PartialEq, Eq)]
pub struct Walk {
    pub passed: Vec<usize>,
    pub cost: u32,
    pub end: End,
}

/// Walks from `from` by the posts, one for each place, and the card.
///
/// After 2 n roads nothing is looked at any more: the walk is worn out even at the place itself.
pub fn walk(map: &Map, posts: &[Post], card: &Card, from: usize) -> Walk {
    let (mut u, mut passed, mut cost) = (from, vec![from], 0);
    let mut end = End::WornOut;
    for _ in 0..2 * map.places {
        let next = match step(u, &posts[u], card) {
            Step::Arrived => {
                end = End::Arrived;
                break;
            }
            Step::To(next) => next,
            Step::Missing => {
                end = End::Stuck(u);
                break;
            }
        };
        let Some(paid) = map.cost(u, next) else {
            end = End::Stuck(u);
            break;
        };
        u = next;
        passed.push(u);
        cost += paid;
    }
    Walk { passed, cost, end }
}

#[cfg(test)]
mod tests {
    use super::*;
    use crate::cards::all_cards;
    use crate::distances::Distances;
    use crate::generate::{generate, KINDS};
    use crate::landmarks::Landmarks;
    use crate::posts::{all_posts, Line, Standing};
    use crate::random::Random;
    use crate::worked::{row, star, triangle};

    /// The posts and cards of a map.
    fn signs(map: &Map, landmarks: &[usize]) -> (Vec<Post>, Vec<Card>) {
        let distances = Distances::of(map);
        let landmarks = Landmarks::new(&distances, landmarks);
        (
            all_posts(map.places, &landmarks),
            all_cards(map.places, &landmarks),
        )
    }

    /// A walk by right posts and cards, which arrives.
    fn walked(map: &Map, landmarks: &[usize], from: usize, to: usize) -> (Vec<usize>, u32) {
        let (posts, cards) = signs(map, landmarks);
        let walk = walk(map, &posts, &cards[to], from);
        assert_eq!(walk.end, End::Arrived);
        (walk.passed, walk.cost)
    }

    #[test]
    fn the_worked_cases() {
        assert_eq!(walked(&row(), &[0], 0, 3), (vec![0, 1, 2, 3], 3));
        assert_eq!(walked(&row(), &[0], 4, 1), (vec![4, 3, 2, 1], 3));
        assert_eq!(walked(&star(), &[1], 2, 3), (vec![2, 0, 3], 2));
        assert_eq!(walked(&triangle(), &[0], 1, 2), (vec![1, 0, 2], 4));
        assert_eq!(walked(&triangle(), &[0, 1, 2], 1, 2), (vec![1, 2], 3));
        assert_eq!(walked(&row(), &[0], 2, 2), (vec![2], 0));
    }

    /// All that is promised of a walk by right posts and cards.
    fn keeps_the_promise(map: &Map, landmarks: &[usize]) {
        let distances = Distances::of(map);
        let known = Landmarks::new(&distances, landmarks);
        let (posts, cards) = signs(map, landmarks);
        for (from, card) in (0..map.places).flat_map(|u| cards.iter().map(move |card| (u, card))) {
            let walk = walk(map, &posts, card, from);
            let distance = distances.distance(from, card.place).unwrap();
            assert_eq!(walk.end, End::Arrived);
            assert_eq!(walk.passed.last(), Some(&card.place));
            assert!(walk.passed.len() <= map.places, "at most n - 1 roads");
            assert!(walk.cost <= 3 * distance);
            if known.is_near(card.place, from) || known.includes(card.place) {
                assert_eq!(walk.cost, distance);
            }
            let roads = walk.passed.windows(2);
            let cost: u32 = roads.map(|road| map.cost(road[0], road[1]).unwrap()).sum();
            assert_eq!(walk.cost, cost, "what is walked is a way of just that cost");
            let near: Vec<bool> = walk
                .passed
                .iter()
                .map(|&u| known.is_near(card.place, u))
                .collect();
            assert!(near.is_sorted(), "near once is near from then on");
            if let Some(hint) = card.hint {
                assert!(
                    known.is_near(card.place, hint),
                    "near one step on from the landmark"
                );
            }
        }
    }

    #[test]
    fn everybody_arrives() {
        let mut random = Random::new(1999);
        for kind in KINDS {
            for round in 0..25 {
                let (places, roads) = (random.between(1, 30), random.between(1, 70));
                let map = generate(kind, round, places, roads);
                let mut chosen: Vec<usize> = (0..places).collect();
                keeps_the_promise(&map, &chosen);
                random.shuffle(&mut chosen);
                for count in [1, random.between(1, places), random.between(1, places)] {
                    keeps_the_promise(&map, &chosen[..count]);
                }
            }
        }
    }

    #[test]
    fn on_a_tree_every_way_is_cheapest() {
        for seed in 0..10 {
            let map = generate(crate::generate::Kind::Tree, seed, 25, 0);
            let distances = Distances::of(&map);
            for (from, to) in (0..25).flat_map(|from| (0..25).map(move |to| (from, to))) {
                let (_, cost) = walked(&map, &[seed as usize, 17], from, to);
                assert_eq!(Some(cost), distances.distance(from, to));
            }
        }
    }

    #[test]
    fn a_line_that_is_missing_stops_the_walk() {
        let (mut posts, cards) = signs(&row(), &[0]);
        posts[2].lines.clear();
        let to_3 = walk(&row(), &posts, &cards[3], 0);
        assert_eq!(to_3.passed, [0, 1, 2]);
        assert_eq!((to_3.cost, to_3.end), (2, End::Stuck(2)));
        assert_eq!(walk(&row(), &posts, &cards[1], 4).end, End::Stuck(2));
        assert_eq!(walk(&row(), &posts, &cards[2], 4).end, End::Arrived);
    }

    #[test]
    fn a_hint_that_is_missing_stops_the_walk_at_the_landmark() {
        let (posts, mut cards) = signs(&row(), &[0]);
        cards[3].hint = None;
        assert_eq!(walk(&row(), &posts, &cards[3], 0).end, End::Stuck(0));
        assert_eq!(walk(&row(), &posts, &cards[3], 1).end, End::Arrived);
    }

    #[test]
    fn a_road_that_is_not_there_stops_the_walk() {
        let (mut posts, mut cards) = signs(&row(), &[0]);
        for next in [4, 1, 65_535] {
            posts[1].lines[2].next = next;
            let to_3 = walk(&row(), &posts, &cards[3], 0);
            assert_eq!((to_3.passed, to_3.end), (vec![0, 1], End::Stuck(1)));
        }
        cards[2].hint = Some(2);
        assert_eq!(walk(&row(), &posts, &cards[2], 0).end, End::Stuck(0));
    }

    #[test]
    fn the_landmark_is_followed_whatever_it_stands_as_and_the_place_only_as_near() {
        let (mut posts, cards) = signs(&row(), &[0]);
        posts[4].lines[0].standing = Standing::Near;
        assert_eq!(walk(&row(), &posts, &cards[1], 4).passed, [4, 3, 2, 1]);
        // With 3 as a landmark on the post at 2 the walk turns back to the landmark of its card.
        posts[2].lines[1].standing = Standing::Landmark;
        assert_eq!(step(2, &posts[2], &cards[3]), Step::To(1));
        assert_eq!(walk(&row(), &posts, &cards[3], 0).end, End::WornOut);
    }

    #[test]
    fn a_place_near_its_landmark_goes_before_the_hint() {
        let (mut posts, mut cards) = signs(&row(), &[0]);
        posts[0].lines.push(Line {
            place: 3,
            next: 1,
            standing: Standing::Near,
        });
        cards[3].hint = None;
        assert_eq!(step(0, &posts[0], &cards[3]), Step::To(1));
    }

    /// The hint leads from 0 to 1, and the post at 1 back to 0.
    #[test]
    fn worn_out_after_just_twice_as_many_roads_as_places() {
        let (mut posts, cards) = signs(&row(), &[0]);
        posts[1].lines[3].next = 0;
        let to_4 = walk(&row(), &posts, &cards[4], 0);
        assert_eq!(to_4.passed.len() - 1, 10);
        assert_eq!((to_4.cost, to_4.end), (10, End::WornOut));
        assert_eq!(walk(&row(), &posts, &cards[4], 2).end, End::Arrived);
    }
}
