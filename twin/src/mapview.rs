//! `mapview`: one map shown as text.

use std::io::{self, Read, Write};

use crate::house::LONGEST_AREA;
use crate::lines::{each_piece, number};
use crate::map::{read_map, LONGEST_MAP};

const MOST_DIGITS: usize = 7;
const USAGE: &[u8] = b"usage: mapview [A]\n";

/// Runs the program with the words of its command line.
pub fn run(words: &[String], input: impl Read, output: &mut impl Write) -> io::Result<()> {
    match area_length(words) {
        Some(length) => view(&map_or_too_long(input)?, length, output),
        None => output.write_all(USAGE),
    }
}

/// The area's length, or none if the words are not as they should be.
fn area_length(words: &[String]) -> Option<usize> {
    match words {
        [] => Some(LONGEST_AREA),
        [word] => number(word.as_bytes(), MOST_DIGITS),
        _ => None,
    }
}

/// The input to its end, of which one byte more than the longest map is
/// kept: enough to see that it is too long.
fn map_or_too_long(input: impl Read) -> io::Result<Vec<u8>> {
    let mut map = Vec::new();
    each_piece(input, |piece| {
        let room = LONGEST_MAP + 1 - map.len();
        map.extend_from_slice(&piece[..room.min(piece.len())]);
        Ok(())
    })?;
    Ok(map)
}

fn view(map: &[u8], area_length: usize, output: &mut impl Write) -> io::Result<()> {
    match read_map(map, area_length) {
        Ok(entries) => {
            writeln!(output, "0 {}", entries.len())?;
            for (name, place) in entries {
                writeln!(output, "{} {} {}", name.0, place.start, place.length)?;
            }
            Ok(())
        }
        Err(refusal) => writeln!(output, "{refusal} 0"),
    }
}
