//! Documents made from a map by changing which roads it has, and in which order.

use crate::documents::Document;
use crate::draft::Draft;
use oracle::map::Map;

/// Two roads swapped, in every pair; each road doubled, replaced by another, and dropped, with the
/// number of roads mended and left as it was.
pub fn changed_roads(name: &str, map: &Map) -> Vec<Document> {
    let mut documents = Vec::new();
    let mut add = |title: String, change: &dyn Fn(&mut Draft)| {
        let mut draft = Draft::of(map);
        change(&mut draft);
        let as_it_was = Document {
            title: format!("{name}, {title}, not counted"),
            bytes: draft.bytes(),
        };
        draft.recount();
        documents.push(as_it_was);
        documents.push(Document {
            title: format!("{name}, {title}"),
            bytes: draft.bytes(),
        });
    };
    for one in 0..map.roads.len() {
        add(format!("road {one} dropped"), &|draft| {
            draft.roads.remove(one);
        });
        add(format!("road {one} doubled"), &|draft| {
            draft.roads.insert(one, draft.roads[one])
        });
        for other in 0..one {
            add(format!("roads {other} and {one} swapped"), &|draft| {
                draft.roads.swap(other, one)
            });
            add(format!("road {one} as {other}"), &|draft| {
                draft.roads[one] = draft.roads[other]
            });
        }
    }
    documents
}

/// The roads of the map without those of one place, for some places: it is not connected then.
pub fn lonely_places(name: &str, map: &Map) -> Vec<Document> {
    let mut places = vec![0, 1, map.places / 2, map.places - 2, map.places - 1];
    places.dedup();
    let mut documents = Vec::new();
    for place in places {
        let mut draft = Draft::of(map);
        let lonely = place as u16;
        draft
            .roads
            .retain(|road| road[0] != lonely && road[1] != lonely);
        draft.recount();
        documents.push(Document {
            title: format!("{name}, no road to {place}"),
            bytes: draft.bytes(),
        });
        draft.behind = vec![4, 0, 0, 0, 1];
        let title = format!("{name}, no road to {place}, and bytes behind");
        documents.push(Document {
            title,
            bytes: draft.bytes(),
        });
    }
    documents
}

/// The roads of the map without those that cross from the lower part of the places to the higher.
pub fn halves(name: &str, map: &Map) -> Vec<Document> {
    let cuts = [1, map.places / 3, map.places / 2, map.places - 1];
    let halved = cuts.map(|cut| {
        let mut draft = Draft::of(map);
        draft
            .roads
            .retain(|road| (usize::from(road[0]) < cut) == (usize::from(road[1]) < cut));
        draft.recount();
        Document {
            title: format!("{name}, parted at {cut}"),
            bytes: draft.bytes(),
        }
    });
    halved.into()
}
