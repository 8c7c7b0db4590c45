//! Reading a map document: record by record, to its end or to its first fault.
//!
//! The header is one record, each road is one, and the end of the map is one. The first record
//! with a fault is told, and of several faults at that record the one with the lowest number; so
//! each record is checked for its faults in the order of their numbers.

use crate::faults::{Fault, Record, Refusal};
use crate::map::{Map, Road, MOST_PLACES, MOST_ROADS};

/// The kind byte of a map document.
pub const MAP_KIND: u8 = 1;

/// The bytes of a map's header: kind, places, roads.
pub const HEADER_BYTES: usize = 5;

/// The bytes of a road: two places and a cost.
pub const ROAD_BYTES: usize = 6;

/// What may stand behind a map in the same input.
#[derive(Clone, Copy, Debug, PartialEq, Eq)]
pub enum Behind {
    /// The input has to end where the map ends.
    Nothing,
    /// Other documents follow, and what they are is not for the map to say.
    Documents,
}

/// Reads the map at the beginning of `input`; gives it and the number of its bytes.
pub fn read_map(input: &[u8], behind: Behind) -> Result<(Map, usize), Refusal> {
    let (places, count) = read_header(input).map_err(|fault| Refusal {
        fault,
        record: Record::Header,
        index: 0,
        byte: 0,
    })?;
    let mut roads: Vec<Road> = Vec::new();
    for index in 0..count {
        let byte = HEADER_BYTES + ROAD_BYTES * index;
        let road =
            read_road(&input[byte.min(input.len())..], places, roads.last()).map_err(|fault| {
                Refusal {
                    fault,
                    record: Record::Road,
                    index,
                    byte,
                }
            })?;
        roads.push(road);
    }
    let map = Map { places, roads };
    let byte = HEADER_BYTES + ROAD_BYTES * count;
    check_end(&map, &input[byte..], behind).map_err(|fault| Refusal {
        fault,
        record: Record::End,
        index: 0,
        byte,
    })?;
    Ok((map, byte))
}

/// Reads the header: how many places and how many roads there are.
fn read_header(input: &[u8]) -> Result<(usize, usize), Fault> {
    if input.len() < HEADER_BYTES || input[0] != MAP_KIND {
        return Err(Fault::KindOrLength);
    }
    let places = number(input, 1);
    let roads = number(input, 3);
    if places == 0 || places > MOST_PLACES || roads > MOST_ROADS {
        return Err(Fault::NumberOutOfRange);
    }
    Ok((places, roads))
}

/// Reads the road at the beginning of `rest`, which comes after the road `before`.
fn read_road(rest: &[u8], places: usize, before: Option<&Road>) -> Result<Road, Fault> {
    if rest.len() < ROAD_BYTES {
        return Err(Fault::KindOrLength);
    }
    let (lower, higher, cost) = (number(rest, 0), number(rest, 2), number(rest, 4));
    if lower >= places || higher >= places || lower >= higher {
        return Err(Fault::NumberOutOfRange);
    }
    if before.is_some_and(|last| (last.lower, last.higher) >= (lower, higher)) {
        return Err(Fault::NotRising);
    }
    if cost == 0 {
        return Err(Fault::NoCost);
    }
    Ok(Road {
        lower,
        higher,
        cost: cost as u32,
    })
}

/// Checks what is told at the end of a map, where the bytes `rest` are left over.
fn check_end(map: &Map, rest: &[u8], behind: Behind) -> Result<(), Fault> {
    if behind == Behind::Nothing && !rest.is_empty() {
        return Err(Fault::KindOrLength);
    }
    if !map.is_connected() {
        return Err(Fault::NotConnected);
    }
    Ok(())
}

/// The number in the two bytes at `at`, high byte first.
fn number(bytes: &[u8], at: usize) -> usize {
    usize::from(bytes[at]) * 256 + usize::from(bytes[at + 1])
}

#[cfg(test)]
mod tests {
    use super::*;

    /// Three places in a row, costs 1 and 258.
    const ROW: [u8; 17] = [1, 0, 3, 0, 2, 0, 0, 0, 1, 0, 1, 0, 1, 0, 2, 1, 2];

    fn told(input: &[u8], behind: Behind) -> String {
        read_map(input, behind).unwrap_err().to_string()
    }

    fn changed(changes: &[(usize, u8)]) -> Vec<u8> {
        let mut input = ROW.to_vec();
        for &(at, value) in changes {
            input[at] = value;
        }
        input
    }

    #[test]
    fn reads_a_row() {
        let (map, bytes) = read_map(&ROW, Behind::Nothing).unwrap();
        assert_eq!((map.places, bytes), (3, 17));
        assert_eq!(
            map.roads[1],
            Road {
                lower: 1,
                higher: 2,
                cost: 258
            }
        );
    }

    #[test]
    fn a_cut_is_told_at_the_record_that_it_cuts() {
        assert_eq!(
            told(&ROW[..0], Behind::Nothing),
            "fault 1: header 0 at byte 0"
        );
        assert_eq!(
            told(&ROW[..4], Behind::Nothing),
            "fault 1: header 0 at byte 0"
        );
        assert_eq!(
            told(&ROW[..5], Behind::Nothing),
            "fault 1: road 0 at byte 5"
        );
        assert_eq!(
            told(&ROW[..16], Behind::Documents),
            "fault 1: road 1 at byte 11"
        );
    }

    #[test]
    fn a_cut_road_is_bad_length_whatever_else_is_wrong() {
        let wrong = changed(&[(11, 9)]);
        assert_eq!(
            told(&wrong[..16], Behind::Nothing),
            "fault 1: road 1 at byte 11"
        );
        assert_eq!(told(&wrong, Behind::Nothing), "fault 2: road 1 at byte 11");
    }

    #[test]
    fn the_lowest_number_wins_at_one_record() {
        let missing_and_not_rising = changed(&[(12, 0), (14, 9), (15, 0), (16, 0)]);
        assert_eq!(
            told(&missing_and_not_rising, Behind::Nothing),
            "fault 2: road 1 at byte 11"
        );
        let twice_at_no_cost = changed(&[(12, 0), (14, 1), (15, 0), (16, 0)]);
        assert_eq!(
            told(&twice_at_no_cost, Behind::Nothing),
            "fault 3: road 1 at byte 11"
        );
        let no_cost = changed(&[(15, 0), (16, 0)]);
        assert_eq!(
            told(&no_cost, Behind::Nothing),
            "fault 4: road 1 at byte 11"
        );
    }

    #[test]
    fn numbers_of_the_header_have_bounds() {
        for (at, values) in [(1, [0, 0]), (1, [2, 1]), (3, [16, 1])] {
            let input = changed(&[(at, values[0]), (at + 1, values[1])]);
            assert_eq!(told(&input, Behind::Nothing), "fault 2: header 0 at byte 0");
        }
        assert_eq!(
            told(&changed(&[(0, 2), (2, 0)]), Behind::Nothing),
            "fault 1: header 0 at byte 0"
        );
    }

    #[test]
    fn bytes_left_over_win_over_not_connected_only_in_a_map_alone() {
        let mut input = changed(&[(2, 4)]);
        assert_eq!(told(&input, Behind::Nothing), "fault 5: end 0 at byte 17");
        input.push(7);
        assert_eq!(told(&input, Behind::Nothing), "fault 1: end 0 at byte 17");
        assert_eq!(told(&input, Behind::Documents), "fault 5: end 0 at byte 17");
    }

    #[test]
    fn documents_may_follow() {
        let mut input = ROW.to_vec();
        input.extend([4, 0, 0]);
        assert_eq!(read_map(&input, Behind::Documents).unwrap().1, 17);
        assert_eq!(told(&input, Behind::Nothing), "fault 1: end 0 at byte 17");
    }
}
