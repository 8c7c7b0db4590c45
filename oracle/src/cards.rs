//! Cards: what one carries on the way to a place.

use crate::landmarks::Landmarks;

/// The card of a place: its landmark, and the next place from there towards it as the hint.
#[derive(Clone, Copy, Debug, PartialEq, Eq)]
pub struct Card {
    pub place: usize,
    pub landmark: usize,
    pub hint: Option<usize>,
}

impl Card {
    /// The card of a place; it has no hint if the place is a landmark.
    pub fn of(place: usize, landmarks: &Landmarks) -> Card {
        let landmark = landmarks.of(place);
        let hint = if landmarks.includes(place) {
            None
        } else {
            Some(landmarks.next(landmark, place))
        };
        Card {
            place,
            landmark,
            hint,
        }
    }
}

/// The cards of all places.
pub fn all_cards(places: usize, landmarks: &Landmarks) -> Vec<Card> {
    (0..places)
        .map(|place| Card::of(place, landmarks))
        .collect()
}

#[cfg(test)]
mod tests {
    use super::*;
    use crate::distances::Distances;
    use crate::map::Map;
    use crate::worked::{map_of, row, star};

    /// The landmark and the hint of each place.
    fn cards(map: &Map, landmarks: &[usize]) -> Vec<(usize, Option<usize>)> {
        let distances = Distances::of(map);
        let cards = all_cards(map.places, &Landmarks::new(&distances, landmarks));
        assert!(cards.iter().map(|card| card.place).eq(0..map.places));
        cards
            .iter()
            .map(|card| (card.landmark, card.hint))
            .collect()
    }

    #[test]
    fn the_cards_of_a_row() {
        let hint = Some(1);
        let of_0 = [(0, None), (0, hint), (0, hint), (0, hint), (0, hint)];
        assert_eq!(cards(&row(), &[0]), of_0);
        let of_both = [(0, None), (0, hint), (0, hint), (4, Some(3)), (4, None)];
        assert_eq!(cards(&row(), &[0, 4]), of_both);
    }

    #[test]
    fn the_cards_of_a_star() {
        let hint = Some(0);
        let expected = [(1, hint), (1, None), (1, hint), (1, hint), (1, hint)];
        assert_eq!(cards(&star(), &[1]), expected);
    }

    #[test]
    fn with_landmarks_everywhere_there_are_no_hints() {
        let expected: Vec<_> = (0..5).map(|place| (place, None)).collect();
        assert_eq!(cards(&row(), &[0, 1, 2, 3, 4]), expected);
    }

    #[test]
    fn the_hint_is_the_lowest_next_place() {
        let square = map_of(4, &[(0, 1, 1), (0, 2, 1), (1, 3, 1), (2, 3, 1)]);
        assert_eq!(cards(&square, &[3])[0], (3, Some(1)));
        assert_eq!(cards(&square, &[0])[3], (0, Some(1)));
    }
}
