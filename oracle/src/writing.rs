//! Writing a map document, high byte first.

use crate::map::Map;
use crate::reading::MAP_KIND;

/// The bytes of a map.
pub fn write_map(map: &Map) -> Vec<u8> {
    let mut bytes = vec![MAP_KIND];
    write_number(&mut bytes, map.places);
    write_number(&mut bytes, map.roads.len());
    for road in &map.roads {
        write_number(&mut bytes, road.lower);
        write_number(&mut bytes, road.higher);
        write_number(&mut bytes, road.cost as usize);
    }
    bytes
}

/// Writes a number of a document into two bytes; the bounds of a map keep it below 65,536.
fn write_number(bytes: &mut Vec<u8>, number: usize) {
    let number = u16::try_from(number).expect("numbers of documents have two bytes");
    bytes.extend(number.to_be_bytes());
}

#[cfg(test)]
mod tests {
    use super::*;
    use crate::generate::{generate, KINDS};
    use crate::reading::{read_map, Behind};

    #[test]
    fn what_is_written_is_read() {
        for kind in KINDS {
            let map = generate(kind, 7, 30, 60);
            let bytes = write_map(&map);
            assert_eq!(read_map(&bytes, Behind::Nothing), Ok((map, bytes.len())));
        }
    }
}
