//! `replay`: requests over a fresh area, each driven to rest before the
//! next.

use std::io::{self, Read, Write};

use crate::answer::Answer;
use crate::house::{Name, SHORTEST_AREA};
use crate::lines::{each_line, letter_and_numbers};
use crate::map::LONGEST_MAP;
use crate::store::Store;

const MOST_DIGITS: usize = 5;
const HEADING: &[u8] = b"answer moves waits footprint volume\n";

/// Runs the program from its first byte of input to its last.
pub fn run(input: impl Read, output: &mut impl Write) -> io::Result<()> {
    output.write_all(HEADING)?;
    let mut session = Replay::new();
    each_line(input, |line| session.answer_line(line, output))
}

/// A session in progress.
pub struct Replay {
    store: Store,
    area: Vec<u8>,
}

impl Replay {
    pub fn new() -> Replay {
        let (_, store) = Store::open(SHORTEST_AREA);
        Replay { store, area: vec![0; SHORTEST_AREA] }
    }

    pub fn store(&self) -> &Store {
        &self.store
    }

    /// Answers one line; `None` is a line too long to be kept.
    pub fn answer_line(&mut self, line: Option<&[u8]>, output: &mut impl Write) -> io::Result<()> {
        match line.and_then(|line| self.request(line)) {
            Some(answer) => {
                let (moves, waits) = self.drive_to_rest();
                let (footprint, volume) = (self.store.footprint(), self.store.volume());
                writeln!(output, "{answer} {moves} {waits} {footprint} {volume}")
            }
            None => output.write_all(b"bad\n"),
        }
    }

    /// Makes the call a line asks for; `None` if it asks for none.
    fn request(&mut self, line: &[u8]) -> Option<Answer> {
        let (letter, numbers) = letter_and_numbers(line, MOST_DIGITS)?;
        match (letter, numbers.as_slice()) {
            (b'I', &[name, length, byte]) => {
                let name = Name(u16::try_from(name).ok()?);
                let length = u16::try_from(length).ok()? as usize;
                let page = vec![u8::try_from(byte).ok()?; length];
                Some(self.store.insert(&mut self.area, name, &page))
            }
            (b'D', &[name]) => Some(self.store.delete(Name(u16::try_from(name).ok()?))),
            _ => None,
        }
    }

    /// Steps and confirms until the store is at rest. Returns how many
    /// moves were made and how many confirmations were due.
    fn drive_to_rest(&mut self) -> (usize, usize) {
        let (mut moves, mut waits) = (0, 0);
        let mut map = [0; LONGEST_MAP];
        while self.store.flush_running() {
            if self.store.checkpoint_due() {
                self.store.confirm(&mut map);
                waits += 1;
            } else {
                self.store.step(&mut self.area);
                moves += 1;
            }
        }
        (moves, waits)
    }
}

impl Default for Replay {
    fn default() -> Replay {
        Replay::new()
    }
}
