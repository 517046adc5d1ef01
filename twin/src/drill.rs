//! `drill`: raw calls, one a line, the refused ones included.

use std::io::{self, Read, Write};

use crate::house::{Name, LONGEST_AREA};
use crate::lines::{each_line, letter_and_numbers};
use crate::store::Store;

const MOST_DIGITS: usize = 7;
const LONGEST_CONFIRM: usize = 4_096;
const BLANK_PAGE: &[u8] = &[9, 9, 9];

/// What a buffer lent to confirm holds before the call.
const BUFFER_BYTE: u8 = 170;

/// Runs the program from its first byte of input to its last.
pub fn run(input: impl Read, output: &mut impl Write) -> io::Result<()> {
    let mut session = Drill::new();
    each_line(input, |line| session.answer_line(line, output))
}

/// A session in progress. `opened` is how much of the area the last opening
/// named, `lent` how much the next call is lent.
pub struct Drill {
    store: Store,
    area: Vec<u8>,
    opened: usize,
    lent: usize,
}

impl Drill {
    pub fn new() -> Drill {
        let (_, store) = Store::open(0);
        Drill { store, area: vec![0; LONGEST_AREA], opened: 0, lent: 0 }
    }

    pub fn store(&self) -> &Store {
        &self.store
    }

    /// How many bytes the next call is lent.
    pub fn lent(&self) -> usize {
        self.lent
    }

    /// Answers one line; `None` is a line too long to be kept.
    pub fn answer_line(&mut self, line: Option<&[u8]>, output: &mut impl Write) -> io::Result<()> {
        let answer = line.and_then(|line| self.call(line));
        writeln!(output, "{}", answer.as_deref().unwrap_or("bad"))
    }

    /// Makes the call a line asks for and says what it prints; `None` if
    /// the line asks for none.
    fn call(&mut self, line: &[u8]) -> Option<String> {
        let (letter, numbers) = letter_and_numbers(line, MOST_DIGITS)?;
        match (letter, numbers.as_slice()) {
            (b'O', &[length]) => Some(self.open(length)),
            (b'L', &[length]) => self.lend(length),
            (b'I', &[name, length, byte]) => self.insert(name, length, byte),
            (b'D', &[name]) => self.delete(name),
            (b'S', &[]) => Some(self.step()),
            (b'C', &[length]) => self.confirm(length),
            (b'F', &[name]) => self.find(name),
            (b'R', &[name]) => self.read(name),
            (b'A', &[]) => Some(self.area_sum().to_string()),
            _ => None,
        }
    }

    fn open(&mut self, length: usize) -> String {
        self.area.fill(0);
        self.opened = length.min(LONGEST_AREA);
        self.lent = self.opened;
        let (answer, store) = Store::open(length);
        self.store = store;
        answer.to_string()
    }

    fn lend(&mut self, length: usize) -> Option<String> {
        if length > LONGEST_AREA {
            return None;
        }
        self.lent = length;
        Some("0".to_string())
    }

    fn insert(&mut self, name: usize, length: usize, byte: usize) -> Option<String> {
        let name = to_name(name)?;
        let length = u16::try_from(length).ok()? as usize;
        let page = vec![u8::try_from(byte).ok()?; length];
        let answer = self.store.insert(&mut self.area[..self.lent], name, &page);
        Some(self.with_sizes(answer.number()))
    }

    fn delete(&mut self, name: usize) -> Option<String> {
        let answer = self.store.delete(to_name(name)?);
        Some(self.with_sizes(answer.number()))
    }

    fn step(&mut self) -> String {
        let answer = self.store.step(&mut self.area[..self.lent]);
        self.with_sizes(answer.number())
    }

    fn confirm(&mut self, length: usize) -> Option<String> {
        if length > LONGEST_CONFIRM {
            return None;
        }
        let mut buffer = vec![BUFFER_BYTE; length];
        let answer = self.store.confirm(&mut buffer);
        Some(format!("{answer} {}", upper_hex(&buffer)))
    }

    fn find(&self, name: usize) -> Option<String> {
        Some(match self.store.find(to_name(name)?) {
            Ok(place) => format!("0 {} {}", place.start, place.length),
            Err(refusal) => format!("{refusal} 0 0"),
        })
    }

    fn read(&self, name: usize) -> Option<String> {
        let (answer, page) = self.store.read(&self.area[..self.lent], BLANK_PAGE, to_name(name)?);
        let sum: u64 = page.iter().map(|&byte| byte as u64).sum();
        Some(format!("{answer} {} {sum}", page.len()))
    }

    fn area_sum(&self) -> u64 {
        let weights = 1..;
        self.area[..self.opened]
            .iter()
            .zip(weights)
            .map(|(&byte, weight)| weight * byte as u64)
            .sum()
    }

    fn with_sizes(&self, answer: u8) -> String {
        format!("{answer} {} {}", self.store.footprint(), self.store.volume())
    }
}

impl Default for Drill {
    fn default() -> Drill {
        Drill::new()
    }
}

fn to_name(number: usize) -> Option<Name> {
    u16::try_from(number).ok().map(Name)
}

fn upper_hex(bytes: &[u8]) -> String {
    const DIGITS: &[u8; 16] = b"0123456789ABCDEF";
    if bytes.is_empty() {
        return "-".to_string();
    }
    let nibbles = bytes.iter().flat_map(|&byte| [byte >> 4, byte & 15]);
    nibbles.map(|nibble| DIGITS[nibble as usize] as char).collect()
}
