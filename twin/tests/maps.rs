//! Maps: written and read back, and each refusal of the reader.

use twin::answer::Answer;
use twin::house::{Name, Place};
use twin::map::{map_bytes, map_length, read_map};
use twin::maps::{damaged_map, make_map, sound_entries, Damage, DAMAGES};
use twin::random::Random;

const AREA: usize = 16_384;

fn bytes_of(entries: &[(u16, usize, usize)]) -> Vec<u8> {
    let entries: Vec<_> = entries
        .iter()
        .map(|&(name, start, length)| (Name(name), Place { start, length }))
        .collect();
    map_bytes(entries.into_iter())
}

fn answer_to(entries: &[(u16, usize, usize)]) -> Option<Answer> {
    read_map(&bytes_of(entries), AREA).err()
}

#[test]
fn round_trips() {
    let mut random = Random::new(5);
    for count in [0, 1, 2, 3, 17, 100, 255, 256] {
        for area_length in [16_384, 30_001, 65_536] {
            let entries = sound_entries(&mut random, count, area_length);
            let map = map_bytes(entries.clone().into_iter());
            assert_eq!(map.len(), map_length(count));
            assert_eq!(read_map(&map, area_length), Ok(entries));
        }
    }
}

#[test]
fn area_length_comes_first() {
    for area_length in [0, 16_383, 65_537, 9_999_999] {
        assert_eq!(read_map(b"", area_length), Err(Answer::WrongArea));
    }
}

#[test]
fn head_refusals_in_order() {
    let cases: [(&[u8], Answer); 9] = [
        (b"", Answer::NoMap),
        (b"RLM\0\x01\0", Answer::NoMap),
        (b"RLN\0\x02\xFF\xFF", Answer::NoMap),
        (b"RLM\0\x00\0\0", Answer::WrongVersion),
        (b"RLM\0\x02\xFF\xFF", Answer::WrongVersion),
        (b"RLM\xFF\xFF\0\0", Answer::WrongVersion),
        (b"RLM\0\x01\0\x01", Answer::WrongSize),
        (b"RLM\0\x01\0\0\0", Answer::WrongSize),
        (b"RLM\0\x01\xFF\xFF", Answer::WrongSize),
    ];
    for (bytes, answer) in cases {
        assert_eq!(read_map(bytes, AREA), Err(answer), "{}", bytes.escape_ascii());
    }
    // 257 entries of the right size are too many; 256 are not.
    let many: Vec<_> = (1..=257).map(|name| (name, name as usize, 1)).collect();
    assert_eq!(answer_to(&many), Some(Answer::WrongSize));
    assert_eq!(answer_to(&many[..256]), None);
}

#[test]
fn entry_refusals() {
    let wrong: [&[(u16, usize, usize)]; 11] = [
        &[(0, 0, 1)],
        &[(1, 0, 0)],
        &[(1, 0, 4_096)],
        &[(1, 0, 65_535)],
        &[(1, 16_384, 1)],
        &[(1, 16_383, 2)],
        &[(1, 65_535, 4_095)],
        &[(2, 0, 1), (2, 1, 1)],
        &[(3, 0, 1), (2, 1, 1)],
        &[(1, 0, 5), (2, 4, 5)],
        // The two that overlap are not neighbours in the list.
        &[(1, 100, 50), (2, 0, 10), (3, 149, 1)],
    ];
    for entries in wrong {
        assert_eq!(answer_to(entries), Some(Answer::WrongEntry), "{entries:?}");
    }
    let right: [&[(u16, usize, usize)]; 4] = [
        &[(1, 0, 4_095)],
        &[(65_535, 16_383, 1)],
        &[(1, 5, 5), (2, 0, 5), (3, 10, 1)],
        &[(1, 100, 50), (2, 0, 10), (3, 150, 1)],
    ];
    for entries in right {
        assert_eq!(answer_to(entries), None, "{entries:?}");
    }
    // One past the longest area.
    let map = bytes_of(&[(1, 65_535, 2)]);
    assert_eq!(read_map(&map, 65_536), Err(Answer::WrongEntry));
}

/// Each damage is refused as the table says, whatever else is random.
#[test]
fn damages_are_refused() {
    let mut random = Random::new(8);
    for damage in DAMAGES {
        for round in 0..200 {
            let area_length = [16_384, 20_000, 65_536][round % 3];
            let map = damaged_map(&mut random, damage, area_length);
            let answer = read_map(&map, area_length).err();
            let expected = match damage {
                Damage::Empty | Damage::Short | Damage::Mark => Answer::NoMap,
                Damage::Version => Answer::WrongVersion,
                Damage::CountTooLarge
                | Damage::CountOffByOne
                | Damage::SizeOffByOne
                | Damage::TooLong => Answer::WrongSize,
                Damage::ByteFlips | Damage::RandomBytes => continue,
                _ => Answer::WrongEntry,
            };
            assert_eq!(answer, Some(expected), "{damage:?}");
        }
    }
}

#[test]
fn made_maps_are_half_sound() {
    let mut sound = 0;
    for seed in 0..1_000 {
        let made = make_map(seed);
        if made.damage.is_none() {
            assert!(read_map(&made.bytes, made.area_length).is_ok());
            sound += 1;
        }
    }
    assert!((400..600).contains(&sound), "{sound}");
}
