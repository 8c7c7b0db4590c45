//! Single damages to a map document, each at a record of its own, and documents with one or two of them.

use crate::documents::Document;
use crate::draft::Draft;
use oracle::map::Map;

/// A damage; those to a road have its index.
#[derive(Clone, Copy, Debug)]
pub enum Damage {
    UnknownKind,
    NoPlaces,
    TooManyPlaces,
    TooManyRoads,
    LowerMissing(usize),
    HigherMissing(usize),
    ToItself(usize),
    FromHigherToLower(usize),
    Twice(usize),
    Falling(usize),
    NoCost(usize),
    CutOff(usize),
    /// One place more than the roads know of: the map is not connected.
    LonelyPlace,
    LeftOver,
}

impl Damage {
    fn apply(self, draft: &mut Draft) {
        match self {
            Damage::UnknownKind => draft.kind = 2,
            Damage::NoPlaces => draft.places = 0,
            Damage::TooManyPlaces => draft.places = 513,
            Damage::TooManyRoads => draft.count = 4097,
            Damage::LowerMissing(index) => draft.roads[index][0] = draft.places,
            Damage::HigherMissing(index) => draft.roads[index][1] = draft.places,
            Damage::ToItself(index) => draft.roads[index][1] = draft.roads[index][0],
            Damage::FromHigherToLower(index) => draft.roads[index].swap(0, 1),
            Damage::Twice(index) => draft.roads[index] = draft.roads[index - 1],
            Damage::Falling(index) => draft.roads[index] = draft.roads[0],
            Damage::NoCost(index) => draft.roads[index][2] = 0,
            Damage::CutOff(index) => draft.cut = 6 * (draft.roads.len() - index) - 3,
            Damage::LonelyPlace => draft.places += 1,
            Damage::LeftOver => draft.behind.push(4),
        }
    }

    /// All damages to the road of that index.
    fn to_road(index: usize) -> Vec<Damage> {
        let mut damages = vec![
            Damage::LowerMissing(index),
            Damage::HigherMissing(index),
            Damage::ToItself(index),
            Damage::FromHigherToLower(index),
            Damage::NoCost(index),
            Damage::CutOff(index),
        ];
        if index > 0 {
            damages.push(Damage::Twice(index));
        }
        if index > 1 {
            damages.push(Damage::Falling(index));
        }
        damages
    }

    /// All damages to a map with roads at these indexes, in the order of the records.
    fn to_map(roads: &[usize]) -> Vec<Damage> {
        let mut damages = vec![
            Damage::UnknownKind,
            Damage::NoPlaces,
            Damage::TooManyPlaces,
            Damage::TooManyRoads,
        ];
        damages.extend(roads.iter().flat_map(|&index| Damage::to_road(index)));
        damages.extend([Damage::LonelyPlace, Damage::LeftOver]);
        damages
    }
}

/// Documents with one damage, at every record at which it can be first and last.
pub fn damaged_once(name: &str, map: &Map) -> Vec<Document> {
    let last = map.roads.len() - 1;
    let mut indexes = vec![0, 1, 2, last / 2, last - 1, last];
    indexes.sort_unstable();
    indexes.dedup();
    let damages = Damage::to_map(&indexes);
    damages
        .into_iter()
        .map(|damage| damaged(name, map, &[damage]))
        .collect()
}

/// Documents with two damages, in all pairs and both orders, at the same and at different records.
pub fn damaged_twice(name: &str, map: &Map) -> Vec<Document> {
    let indexes: Vec<usize> = (0..map.roads.len()).collect();
    let damages = Damage::to_map(&indexes);
    let pairs = damages
        .iter()
        .flat_map(|&one| damages.iter().map(move |&other| [one, other]));
    pairs.map(|pair| damaged(name, map, &pair)).collect()
}

fn damaged(name: &str, map: &Map, damages: &[Damage]) -> Document {
    let mut draft = Draft::of(map);
    for damage in damages {
        damage.apply(&mut draft);
    }
    Document {
        title: format!("{name}, {damages:?}"),
        bytes: draft.bytes(),
    }
}
