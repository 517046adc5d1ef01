//! Runs a program by its name, and compares what it prints with a stored
//! output.

use std::fs::{self, File};
use std::io::{self, Read, Write};

use crate::{drill, mapview, replay};

/// The first line in which two outputs differ. A side that has ended has
/// no line.
#[derive(Debug, PartialEq, Eq)]
pub struct Difference {
    pub line: usize,
    pub made: Option<Vec<u8>>,
    pub stored: Option<Vec<u8>>,
}

impl Difference {
    /// Both lines, with bytes that cannot be seen written as escapes.
    pub fn describe(&self) -> String {
        let side = |line: &Option<Vec<u8>>| match line {
            Some(bytes) => bytes.escape_ascii().to_string(),
            None => "(no such line)".to_string(),
        };
        format!("line {}\nmade   {}\nstored {}", self.line, side(&self.made), side(&self.stored))
    }
}

/// Runs `replay`, `drill` or `mapview`; `None` if the name or the words
/// after it are not theirs.
pub fn run_program(
    program: &str,
    words: &[String],
    input: impl Read,
    output: &mut impl Write,
) -> Option<io::Result<()>> {
    match (program, words) {
        ("replay", []) => Some(replay::run(input, output)),
        ("drill", []) => Some(drill::run(input, output)),
        ("mapview", _) => Some(mapview::run(words, input, output)),
        _ => None,
    }
}

/// Compares a program's output on a stored input with a stored output;
/// `None` within is no difference.
pub fn check(
    program: &str,
    input: &str,
    expected: &str,
    words: &[String],
) -> Option<io::Result<Option<Difference>>> {
    let files = File::open(input).and_then(|input| Ok((input, fs::read(expected)?)));
    let (input, stored) = match files {
        Ok(files) => files,
        Err(error) => return Some(Err(error)),
    };
    let mut made = Vec::new();
    let ran = run_program(program, words, input, &mut made)?;
    Some(ran.map(|()| first_difference(&made, &stored)))
}

/// Lines are compared with their LF, so a missing one at the end shows.
pub fn first_difference(made: &[u8], stored: &[u8]) -> Option<Difference> {
    let mut made = made.split_inclusive(|&byte| byte == b'\n');
    let mut stored = stored.split_inclusive(|&byte| byte == b'\n');
    for line in 1.. {
        let (left, right) = (made.next(), stored.next());
        if left != right {
            let (made, stored) = (left.map(<[u8]>::to_vec), right.map(<[u8]>::to_vec));
            return Some(Difference { line, made, stored });
        }
        if left.is_none() {
            break;
        }
    }
    None
}
