//! Input cut into lines, and a line taken apart into a letter and numbers.

use std::io::{self, ErrorKind, Read};

/// No line that means anything is longer than this, in any program. A
/// longer one is passed over without being kept.
const LONGEST_LINE: usize = 64;

/// How much is read at a time.
const PIECE: usize = 16_384;

/// Reads to the end in pieces of a fixed size.
pub fn each_piece(
    mut input: impl Read,
    mut take: impl FnMut(&[u8]) -> io::Result<()>,
) -> io::Result<()> {
    let mut piece = vec![0; PIECE];
    loop {
        match input.read(&mut piece) {
            Ok(0) => return Ok(()),
            Ok(count) => take(&piece[..count])?,
            Err(error) if error.kind() == ErrorKind::Interrupted => {}
            Err(error) => return Err(error),
        }
    }
}

/// Hands over each line without its LF; `None` stands for one that is too
/// long. A last line without LF counts; nothing after a last LF does not.
pub fn each_line(
    input: impl Read,
    mut take: impl FnMut(Option<&[u8]>) -> io::Result<()>,
) -> io::Result<()> {
    let mut line = Line::default();
    each_piece(input, |piece| {
        for part in piece.split_inclusive(|&byte| byte == b'\n') {
            match part.strip_suffix(b"\n") {
                Some(rest) => {
                    line.add(rest);
                    take(line.bytes())?;
                    line = Line::default();
                }
                None => line.add(part),
            }
        }
        Ok(())
    })?;
    if line.length > 0 {
        take(line.bytes())?;
    }
    Ok(())
}

/// A line as it comes in: its length so far, and its bytes while it is
/// short enough.
#[derive(Default)]
struct Line {
    kept: Vec<u8>,
    length: usize,
}

impl Line {
    fn add(&mut self, part: &[u8]) {
        self.length = self.length.saturating_add(part.len());
        if self.length <= LONGEST_LINE {
            self.kept.extend_from_slice(part);
        }
    }

    fn bytes(&self) -> Option<&[u8]> {
        (self.length <= LONGEST_LINE).then_some(&self.kept)
    }
}

/// A letter and the numbers after it, each behind a single space. `None` if
/// the line has any other form.
pub fn letter_and_numbers(line: &[u8], most_digits: usize) -> Option<(u8, Vec<usize>)> {
    let mut words = line.split(|&byte| byte == b' ');
    let letter = match words.next()? {
        &[letter] => letter,
        _ => return None,
    };
    let numbers = words.map(|word| number(word, most_digits)).collect::<Option<_>>()?;
    Some((letter, numbers))
}

/// A number of 1 to `most_digits` digits. At most 7 are ever asked for, so
/// the sum stays small.
pub fn number(word: &[u8], most_digits: usize) -> Option<usize> {
    let well_formed =
        (1..=most_digits).contains(&word.len()) && word.iter().all(u8::is_ascii_digit);
    well_formed.then(|| word.iter().fold(0, |sum, digit| sum * 10 + (digit - b'0') as usize))
}
