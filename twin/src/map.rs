//! A map as bytes: how it is written from the objects, and how one is read
//! with every refusal in its order.

use crate::answer::Answer;
use crate::house::{area_in_limits, Name, Place, LONGEST_OBJECT, MOST_OBJECTS};

const MARK: &[u8] = b"RLM";
const VERSION: u16 = 1;
pub const HEAD: usize = 7;
pub const ENTRY: usize = 6;

/// The longest map there is.
pub const LONGEST_MAP: usize = HEAD + ENTRY * MOST_OBJECTS;

pub fn map_length(count: usize) -> usize {
    HEAD + ENTRY * count
}

/// The map of these entries, which come in rising name order. Counts and
/// places within the house limits fit 16 bits.
pub fn map_bytes(entries: impl ExactSizeIterator<Item = (Name, Place)>) -> Vec<u8> {
    let mut bytes = Vec::with_capacity(map_length(entries.len()));
    bytes.extend_from_slice(MARK);
    push_word(&mut bytes, VERSION as usize);
    push_word(&mut bytes, entries.len());
    for (Name(name), place) in entries {
        push_word(&mut bytes, name as usize);
        push_word(&mut bytes, place.start);
        push_word(&mut bytes, place.length);
    }
    bytes
}

fn push_word(bytes: &mut Vec<u8>, value: usize) {
    bytes.extend_from_slice(&(value as u16).to_be_bytes());
}

/// Reads a map of an area of this length.
pub fn read_map(bytes: &[u8], area_length: usize) -> Result<Vec<(Name, Place)>, Answer> {
    if !area_in_limits(area_length) {
        return Err(Answer::WrongArea);
    }
    if bytes.len() < HEAD || !bytes.starts_with(MARK) {
        return Err(Answer::NoMap);
    }
    if word(bytes, 3) != VERSION {
        return Err(Answer::WrongVersion);
    }
    let count = word(bytes, 5) as usize;
    if count > MOST_OBJECTS || bytes.len() != map_length(count) {
        return Err(Answer::WrongSize);
    }
    let entries: Vec<_> = bytes[HEAD..].chunks_exact(ENTRY).map(entry).collect();
    if entries_sound(&entries, area_length) {
        Ok(entries)
    } else {
        Err(Answer::WrongEntry)
    }
}

fn word(bytes: &[u8], at: usize) -> u16 {
    u16::from_be_bytes([bytes[at], bytes[at + 1]])
}

fn entry(bytes: &[u8]) -> (Name, Place) {
    let place = Place { start: word(bytes, 2) as usize, length: word(bytes, 4) as usize };
    (Name(word(bytes, 0)), place)
}

fn entries_sound(entries: &[(Name, Place)], area_length: usize) -> bool {
    let in_limits = entries.iter().all(|&(name, place)| {
        name != Name(0)
            && (1..=LONGEST_OBJECT).contains(&place.length)
            && place.end() <= area_length
    });
    let in_order = entries.windows(2).all(|pair| pair[0].0 < pair[1].0);
    in_limits && in_order && lie_apart(entries)
}

/// Sorted by start, places lie apart when each neighbouring pair does.
fn lie_apart(entries: &[(Name, Place)]) -> bool {
    let mut places: Vec<Place> = entries.iter().map(|&(_, place)| place).collect();
    places.sort_by_key(|place| place.start);
    places.windows(2).all(|pair| pair[0].misses(pair[1]))
}
