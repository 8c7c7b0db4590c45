//! A map document taken apart into its numbers, so that it can be written with any of them wrong.

use oracle::map::Map;
use oracle::reading::MAP_KIND;

/// The numbers of a map document; nothing says that they fit together.
#[derive(Clone)]
pub struct Draft {
    pub kind: u8,
    pub places: u16,
    pub count: u16,
    /// Two places and a cost each.
    pub roads: Vec<[u16; 3]>,
    /// The bytes that follow.
    pub behind: Vec<u8>,
    /// So many bytes are left out at the end.
    pub cut: usize,
}

impl Draft {
    /// The draft of a map, with nothing wrong.
    pub fn of(map: &Map) -> Draft {
        let roads = map.roads.iter();
        Draft {
            kind: MAP_KIND,
            places: map.places as u16,
            count: map.roads.len() as u16,
            roads: roads
                .map(|r| [r.lower as u16, r.higher as u16, r.cost as u16])
                .collect(),
            behind: Vec::new(),
            cut: 0,
        }
    }

    /// Sets the number of roads to that of the roads there are.
    pub fn recount(&mut self) {
        self.count = self.roads.len() as u16;
    }

    pub fn bytes(&self) -> Vec<u8> {
        let mut bytes = vec![self.kind];
        bytes.extend(self.places.to_be_bytes());
        bytes.extend(self.count.to_be_bytes());
        for number in self.roads.iter().flatten() {
            bytes.extend(number.to_be_bytes());
        }
        bytes.extend(&self.behind);
        bytes.truncate(bytes.len().saturating_sub(self.cut));
        bytes
    }
}
