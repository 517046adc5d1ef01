//! Makes session inputs for `replay` and `drill` from a seed. Each made
//! line is also given to a session of the program itself, so that the next
//! can be chosen by the state the session has reached.

use std::io::{self, Write};

use crate::drill::Drill;
use crate::house::{Name, LONGEST_AREA, SHORTEST_AREA};
use crate::map::map_length;
use crate::random::Random;
use crate::replay::Replay;
use crate::steering::{any_name, any_request, Request, Steering};

/// Digits a number may have in each program.
const REPLAY_DIGITS: usize = 5;
const DRILL_DIGITS: usize = 7;

pub fn make_replay(seed: u64, lines: u64, output: &mut impl Write) -> io::Result<()> {
    let mut random = Random::new(seed);
    let mut steering = Steering::new();
    let mut session = Replay::new();
    for left in (0..lines).rev() {
        let line = if random.percent(3) {
            bad_line(&mut random, REPLAY_DIGITS)
        } else {
            let request = steering.request(&mut random, session.store());
            request_line(&mut random, request, REPLAY_DIGITS)
        };
        session.answer_line(Some(&line), &mut io::sink())?;
        write_line(&mut random, &line, left == 0, output)?;
    }
    Ok(())
}

pub fn make_drill(seed: u64, lines: u64, output: &mut impl Write) -> io::Result<()> {
    let mut random = Random::new(seed);
    let mut steering = Steering::new();
    let mut session = Drill::new();
    for left in (0..lines).rev() {
        let line = if random.percent(2) {
            bad_line(&mut random, DRILL_DIGITS)
        } else {
            drill_line(&mut random, &mut steering, &session)
        };
        session.answer_line(Some(&line), &mut io::sink())?;
        write_line(&mut random, &line, left == 0, output)?;
    }
    Ok(())
}

/// Ends the line with LF, except now and then the last of all.
fn write_line(
    random: &mut Random,
    line: &[u8],
    last: bool,
    output: &mut impl Write,
) -> io::Result<()> {
    output.write_all(line)?;
    if last && random.percent(25) {
        return Ok(());
    }
    output.write_all(b"\n")
}

// Lines of drill.

fn drill_line(random: &mut Random, steering: &mut Steering, session: &Drill) -> Vec<u8> {
    let store = session.store();
    let opened = match store.area_length() {
        Some(opened) => opened,
        None => return unopened_line(random, session),
    };
    if session.lent() != opened && random.percent(25) {
        return text(random, 'L', &[opened]);
    }
    match random.below(1_000) {
        0..=9 => return b"A".to_vec(),
        10..=89 => return look_line(random, session),
        90..=95 => return lend_line(random, opened),
        96 => return open_line(random),
        _ => {}
    }
    if store.flush_running() {
        return flush_line(random, session);
    }
    if steering.between_phases() && random.percent(20) {
        return open_line(random);
    }
    match random.below(100) {
        0..=3 => b"S".to_vec(),
        4..=7 => confirm_line(random, session),
        _ => {
            let request = steering.request(random, store);
            request_line(random, request, DRILL_DIGITS)
        }
    }
}

/// For the store of a refused opening: any call, and soon an opening.
fn unopened_line(random: &mut Random, session: &Drill) -> Vec<u8> {
    match random.below(10) {
        0..=3 => open_line(random),
        4 => lend_line(random, SHORTEST_AREA),
        5 => b"S".to_vec(),
        6 => confirm_line(random, session),
        7 => look_line(random, session),
        8 => b"A".to_vec(),
        _ => {
            let request = any_request(random, session.store());
            request_line(random, request, DRILL_DIGITS)
        }
    }
}

/// Mostly brings the flush on; sometimes calls what is not due.
fn flush_line(random: &mut Random, session: &Drill) -> Vec<u8> {
    let due = session.store().checkpoint_due();
    match random.below(100) {
        0..=3 => {
            let request = any_request(random, session.store());
            request_line(random, request, DRILL_DIGITS)
        }
        4..=9 => {
            if due {
                b"S".to_vec()
            } else {
                confirm_line(random, session)
            }
        }
        _ => {
            if due {
                confirm_line(random, session)
            } else {
                b"S".to_vec()
            }
        }
    }
}

/// A good opening or, one time in four, a bad one.
fn open_line(random: &mut Random) -> Vec<u8> {
    let length = match random.below(8) {
        0 | 1 => random.pick(&[0, 5, 16_383, 65_537, 131_072, 9_999_999]),
        2 | 3 => SHORTEST_AREA,
        4 | 5 => LONGEST_AREA,
        _ => random.within(SHORTEST_AREA..=LONGEST_AREA),
    };
    text(random, 'O', &[length])
}

/// Lends a length near the opened one or far from it, most often wrong.
fn lend_line(random: &mut Random, opened: usize) -> Vec<u8> {
    let length = match random.below(6) {
        0 => 0,
        1 => opened - 1,
        2 => (opened + 1).min(LONGEST_AREA),
        3 => LONGEST_AREA,
        4 => SHORTEST_AREA,
        _ => random.below(LONGEST_AREA + 1),
    };
    text(random, 'L', &[length])
}

/// Confirms, mostly into a buffer just long enough.
fn confirm_line(random: &mut Random, session: &Drill) -> Vec<u8> {
    let map = map_length(session.store().objects().len());
    let length = match random.below(20) {
        0 => 0,
        1 => map - 1,
        2 => random.below(map),
        3 | 4 => map + random.below(40),
        5 if random.percent(20) => random.pick(&[4_095, 4_096, 4_097]),
        _ => map,
    };
    text(random, 'C', &[length])
}

fn look_line(random: &mut Random, session: &Drill) -> Vec<u8> {
    let Name(name) = any_name(random, session.store());
    let letter = random.pick(&['F', 'R']);
    text(random, letter, &[name as usize])
}

// Text.

fn request_line(random: &mut Random, request: Request, most_digits: usize) -> Vec<u8> {
    let (letter, numbers) = match request {
        Request::Insert { name: Name(name), length, byte } => {
            ('I', vec![name as usize, length, byte as usize])
        }
        Request::Delete { name: Name(name) } => ('D', vec![name as usize]),
    };
    if random.percent(2) {
        return padded_text(letter, &numbers, most_digits);
    }
    text(random, letter, &numbers)
}

/// The plain form of a line; rarely with zeros in front, which drill and
/// replay both take up to five digits.
fn text(random: &mut Random, letter: char, numbers: &[usize]) -> Vec<u8> {
    let width = if random.percent(1) { 5 } else { 1 };
    padded_text(letter, numbers, width)
}

fn padded_text(letter: char, numbers: &[usize], width: usize) -> Vec<u8> {
    let mut line = letter.to_string();
    for number in numbers {
        line.push_str(&format!(" {number:0width$}"));
    }
    line.into_bytes()
}

/// A line that is nearly always malformed, in one of many ways. It holds
/// no LF.
fn bad_line(random: &mut Random, most_digits: usize) -> Vec<u8> {
    let too_wide = most_digits + 1;
    match random.below(8) {
        0 => Vec::new(),
        1 => format!("D {:0too_wide$}", random.within(1..=9)).into_bytes(),
        2 => format!("I 1 {:0too_wide$} 7", random.within(1..=9)).into_bytes(),
        3 => long_line(random),
        4 => noise(random),
        5 => spoilt(random),
        _ => random.pick(BAD_LINES).to_vec(),
    }
}

const BAD_LINES: &[&[u8]] = &[
    b" ",
    b"I",
    b"I ",
    b"I 1",
    b"I 1 2",
    b"I 1 2 3 4",
    b"I 1 2 3 ",
    b" I 1 2 3",
    b"I  1 2 3",
    b"I 1 2  3",
    b"I\t1\t2\t3",
    b"I 1 2 3\r",
    b"\r",
    b"i 1 2 3",
    b"I 65536 2 3",
    b"I 1 65536 3",
    b"I 1 2 256",
    b"I 1 2 -3",
    b"I +1 2 3",
    b"I 1 2 0x3",
    b"I 1,2,3",
    b"I1 2 3",
    b"D",
    b"D ",
    b"D 1 ",
    b"D 1 1",
    b"D 1\r",
    b"D 65536",
    b"D one",
    b"DD 1",
    b"X",
    b"X 1",
    b"Q 1 2 3",
    b"S 1",
    b"S ",
    b"s",
    b"A 1",
    b"A\r",
    b"C",
    b"C 4097",
    b"L 65537",
    b"L",
    b"O",
    b"O 16384 ",
    b"O -16384",
    b"F",
    b"F 65536",
    b"R 1 2",
    b"R 99999999",
    b"I 1 2 3\0",
    b"\0",
    b"I 1 2 \xB3",
    b"D \xD9\xA1",
    b"\xEF\xBB\xBFI 1 2 3",
];

/// Longer than a program's line buffer may be; sometimes with a good start.
fn long_line(random: &mut Random) -> Vec<u8> {
    let length = random.pick(&[65, 130, 256, 300, 1_025, 4_097, 5_000]);
    let filler = random.pick(b"0 x");
    let mut line = random.pick(&[&b"I 1 2 3"[..], b"D 1", b""]).to_vec();
    line.resize(length, filler);
    line
}

/// A few bytes of any value but LF.
fn noise(random: &mut Random) -> Vec<u8> {
    let length = random.within(1..=30);
    (0..length).map(|_| random.byte()).filter(|&byte| byte != b'\n').collect()
}

/// A good line with one byte changed.
fn spoilt(random: &mut Random) -> Vec<u8> {
    let mut line = random.pick(&[&b"I 12 34 56"[..], b"D 123", b"S", b"C 1543", b"F 7"]).to_vec();
    let at = random.below(line.len());
    line[at] = random.pick(b" -.:;/AIDx\r\t\0\x7F\xFF");
    line
}
