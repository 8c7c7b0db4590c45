//! Documents made from a map by changing its bytes and numbers all over.

use crate::documents::Document;
use oracle::map::Map;
use oracle::random::Random;
use oracle::writing::write_map;

/// The map cut at every byte.
pub fn cut_everywhere(name: &str, map: &Map) -> Vec<Document> {
    let bytes = write_map(map);
    let cut = |end: usize| Document {
        title: format!("{name}, cut at {end}"),
        bytes: bytes[..end].to_vec(),
    };
    (0..bytes.len()).map(cut).collect()
}

/// Every byte of the map changed to several values.
pub fn changed_bytes(name: &str, map: &Map) -> Vec<Document> {
    let bytes = write_map(map);
    let mut documents = Vec::new();
    for (at, &byte) in bytes.iter().enumerate() {
        let mut values = vec![
            0,
            1,
            byte.wrapping_add(1),
            byte.wrapping_sub(1),
            byte ^ 128,
            255,
        ];
        values.sort_unstable();
        values.dedup();
        for value in values.into_iter().filter(|&value| value != byte) {
            let mut bytes = bytes.clone();
            bytes[at] = value;
            documents.push(Document {
                title: format!("{name}, byte {at} set to {value}"),
                bytes,
            });
        }
    }
    documents
}

/// Every number of two bytes set to values around the bounds of the rules.
pub fn changed_numbers(name: &str, map: &Map) -> Vec<Document> {
    let bytes = write_map(map);
    let places = map.places as u16;
    let mut documents = Vec::new();
    for at in (1..bytes.len()).step_by(2) {
        let bounds = [0, 1, 255, 256, 511, 512, 513, 4095, 4096, 4097, 65_535];
        for value in bounds.into_iter().chain([places - 1, places, places + 1]) {
            let mut bytes = bytes.clone();
            bytes[at..at + 2].copy_from_slice(&value.to_be_bytes());
            documents.push(Document {
                title: format!("{name}, number at {at} set to {value}"),
                bytes,
            });
        }
    }
    documents
}

/// The map with one to four changes of its bytes drawn at random.
pub fn changed_at_random(name: &str, map: &Map, random: &mut Random) -> Document {
    let mut bytes = write_map(map);
    let changes = random.between(1, 4);
    for _ in 0..changes {
        change_at_random(&mut bytes, random);
    }
    Document {
        title: format!("{name}, {changes} changes at random"),
        bytes,
    }
}

fn change_at_random(bytes: &mut Vec<u8>, random: &mut Random) {
    if bytes.len() < 18 {
        bytes.push(random.below(256) as u8);
        return;
    }
    let at = random.below(bytes.len());
    let roads = (bytes.len() - 5) / 6;
    let (one, other) = (5 + 6 * random.below(roads), 5 + 6 * random.below(roads));
    match random.below(8) {
        0 => bytes[at] = random.below(256) as u8,
        1 => bytes[at] = random.below(4) as u8,
        2 => bytes[at] ^= 1 << random.below(8),
        3 => bytes.insert(at, random.below(3) as u8),
        4 => {
            bytes.remove(at);
        }
        5 => bytes.truncate(at),
        6 => bytes.copy_within(one..one + 6, other),
        _ => (0..6).for_each(|byte| bytes.swap(one + byte, other + byte)),
    }
}
