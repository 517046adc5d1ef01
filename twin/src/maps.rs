//! Makes maps from a seed: about half of them sound, the rest damaged in
//! one of the ways the reader has to refuse.

use std::collections::BTreeSet;

use crate::house::{Name, Place, LONGEST_AREA, LONGEST_OBJECT, MOST_OBJECTS, SHORTEST_AREA};
use crate::map::{map_bytes, ENTRY, HEAD};
use crate::random::Random;

/// The ways a map is damaged.
#[derive(Clone, Copy, Debug, PartialEq, Eq)]
pub enum Damage {
    Empty,
    Short,
    Mark,
    Version,
    CountTooLarge,
    CountOffByOne,
    SizeOffByOne,
    NamesEqual,
    NamesFalling,
    NameZero,
    Length,
    PastArea,
    Overlap,
    ByteFlips,
    RandomBytes,
    TooLong,
}

pub const DAMAGES: [Damage; 16] = [
    Damage::Empty,
    Damage::Short,
    Damage::Mark,
    Damage::Version,
    Damage::CountTooLarge,
    Damage::CountOffByOne,
    Damage::SizeOffByOne,
    Damage::NamesEqual,
    Damage::NamesFalling,
    Damage::NameZero,
    Damage::Length,
    Damage::PastArea,
    Damage::Overlap,
    Damage::ByteFlips,
    Damage::RandomBytes,
    Damage::TooLong,
];

/// A made map, the area it was made for, and what was done to it.
pub struct MadeMap {
    pub bytes: Vec<u8>,
    pub area_length: usize,
    pub damage: Option<Damage>,
}

pub fn make_map(seed: u64) -> MadeMap {
    let mut random = Random::new(seed);
    let area_length = match random.below(4) {
        0 => SHORTEST_AREA,
        1 => random.within(SHORTEST_AREA..=LONGEST_AREA),
        _ => LONGEST_AREA,
    };
    if random.percent(50) {
        let count = any_count(&mut random);
        let bytes = map_bytes(sound_entries(&mut random, count, area_length).into_iter());
        return MadeMap { bytes, area_length, damage: None };
    }
    let damage = random.pick(&DAMAGES);
    let bytes = damaged_map(&mut random, damage, area_length);
    MadeMap { bytes, area_length, damage: Some(damage) }
}

/// A map with this damage. It starts from at least two entries, so that
/// each damage has something to spoil.
pub fn damaged_map(random: &mut Random, damage: Damage, area_length: usize) -> Vec<u8> {
    let count = any_count(random).max(2);
    let mut entries = sound_entries(random, count, area_length);
    spoil_entries(random, damage, area_length, &mut entries);
    let mut bytes = map_bytes(entries.into_iter());
    spoil_bytes(random, damage, &mut bytes);
    bytes
}

fn any_count(random: &mut Random) -> usize {
    match random.below(5) {
        0 => random.within(0..=3),
        1 => MOST_OBJECTS,
        2 => random.within(MOST_OBJECTS - 2..=MOST_OBJECTS),
        3 => random.within(0..=20),
        _ => random.within(0..=MOST_OBJECTS),
    }
}

/// Entries of a sound map: places apart, some of them touching, given to
/// rising names in no particular order.
pub fn sound_entries(random: &mut Random, count: usize, area_length: usize) -> Vec<(Name, Place)> {
    let lengths = fitting_lengths(random, count, area_length);
    let mut spare = area_length - lengths.iter().sum::<usize>();
    let mut places = Vec::new();
    let mut next = 0;
    for length in lengths {
        let gap = if random.percent(50) { 0 } else { random.below(spare + 1) / 4 };
        spare -= gap;
        places.push(Place { start: next + gap, length });
        next += gap + length;
    }
    if let Some(last) = places.last_mut().filter(|_| random.percent(30)) {
        // The last place may touch the end of the area.
        last.start += spare;
    }
    random.shuffle(&mut places);
    rising_names(random, count).into_iter().zip(places).collect()
}

/// Lengths that fit the area together, the odd one as long as may be.
fn fitting_lengths(random: &mut Random, count: usize, area_length: usize) -> Vec<usize> {
    let fair = (area_length / count.max(1)).min(LONGEST_OBJECT);
    let mut lengths: Vec<usize> = (0..count).map(|_| random.within(1..=fair)).collect();
    let spare = area_length - lengths.iter().sum::<usize>();
    if let Some(first) = lengths.first_mut() {
        *first = (*first + spare).min(LONGEST_OBJECT);
    }
    lengths
}

fn rising_names(random: &mut Random, count: usize) -> Vec<Name> {
    let highest = random.pick(&[300, 5_000, 65_535]);
    let mut names = BTreeSet::new();
    while names.len() < count {
        names.insert(Name(random.within(1..=highest) as u16));
    }
    names.into_iter().collect()
}

/// The damages that are done to entries before they become bytes.
fn spoil_entries(
    random: &mut Random,
    damage: Damage,
    area_length: usize,
    entries: &mut [(Name, Place)],
) {
    let at = random.below(entries.len());
    let pair = random.below(entries.len() - 1);
    match damage {
        Damage::NamesEqual => entries[pair + 1].0 = entries[pair].0,
        Damage::NamesFalling => {
            let lower = entries[pair].0;
            entries[pair].0 = entries[pair + 1].0;
            entries[pair + 1].0 = lower;
        }
        Damage::NameZero => entries[0].0 = Name(0),
        Damage::Length => entries[at].1.length = random.pick(&[0, LONGEST_OBJECT + 1, 65_535]),
        Damage::PastArea => entries[at].1 = one_past(entries[at].1, area_length),
        Damage::Overlap => overlap_by_one(random, entries),
        _ => {}
    }
}

/// A place that ends one byte past the area. A single byte cannot, in the
/// longest area: its address would need 17 bits.
fn one_past(place: Place, area_length: usize) -> Place {
    let length = place.length.max(2);
    Place { start: area_length + 1 - length, length }
}

/// Pulls a place down onto the last byte of the one before it.
fn overlap_by_one(random: &mut Random, entries: &mut [(Name, Place)]) {
    let mut by_start: Vec<usize> = (0..entries.len()).collect();
    by_start.sort_by_key(|&index| entries[index].1.start);
    let lower = random.below(by_start.len() - 1);
    let end = entries[by_start[lower]].1.end();
    entries[by_start[lower + 1]].1.start = end - 1;
}

/// The damages that are done to the bytes.
fn spoil_bytes(random: &mut Random, damage: Damage, bytes: &mut Vec<u8>) {
    let count = u16::from_be_bytes([bytes[5], bytes[6]]);
    match damage {
        Damage::Empty => bytes.clear(),
        Damage::Short => bytes.truncate(random.within(1..=HEAD - 1)),
        Damage::Mark => bytes[random.below(3)] ^= 1 << random.below(8),
        Damage::Version => set_word(bytes, 3, random.pick(&[0, 2, 256, 65_535])),
        Damage::CountTooLarge => count_too_large(random, bytes),
        Damage::CountOffByOne => set_word(bytes, 5, random.pick(&[count - 1, count + 1])),
        Damage::SizeOffByOne if random.percent(50) => bytes.push(0),
        Damage::SizeOffByOne => bytes.truncate(bytes.len() - 1),
        Damage::ByteFlips => flip_bytes(random, bytes),
        Damage::RandomBytes => {
            let length = random.below(200);
            *bytes = (0..length).map(|_| random.byte()).collect();
        }
        Damage::TooLong => bytes.resize(random.pick(&[1_544, 1_549, 5_000, 20_000]), 0),
        _ => {}
    }
}

fn set_word(bytes: &mut [u8], at: usize, value: u16) {
    bytes[at..at + 2].copy_from_slice(&value.to_be_bytes());
}

/// A count above the most there may be; half the time with a size to match.
fn count_too_large(random: &mut Random, bytes: &mut Vec<u8>) {
    let count: u16 = random.pick(&[257, 65_535]);
    set_word(bytes, 5, count);
    if random.percent(50) {
        bytes.resize(HEAD + ENTRY * count as usize, 0);
    }
}

fn flip_bytes(random: &mut Random, bytes: &mut [u8]) {
    for _ in 0..random.within(1..=4) {
        let at = random.below(bytes.len());
        bytes[at] ^= random.within(1..=255) as u8;
    }
}
