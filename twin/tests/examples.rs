//! The examples that the two papers give in full, and the forms of lines.

use std::io::{self, Read};

use twin::{drill, mapview, replay};

fn replay_of(input: &[u8]) -> String {
    let mut output = Vec::new();
    replay::run(input, &mut output).unwrap();
    String::from_utf8(output).unwrap()
}

fn drill_of(input: &[u8]) -> String {
    let mut output = Vec::new();
    drill::run(input, &mut output).unwrap();
    String::from_utf8(output).unwrap()
}

fn mapview_of(words: &[&str], input: &[u8]) -> String {
    let words: Vec<String> = words.iter().map(|word| word.to_string()).collect();
    let mut output = Vec::new();
    mapview::run(&words, input, &mut output).unwrap();
    String::from_utf8(output).unwrap()
}

const HEADING: &str = "answer moves waits footprint volume\n";

#[test]
fn replay_example_to_the_byte() {
    let expected = "answer moves waits footprint volume\n\
                    0 0 0 10 8\n\
                    0 0 0 10 10\n\
                    20 5 4 13 11\n\
                    20 0 1 3 3\n\
                    6 0 0 3 3\n";
    let lines = b"I 1 8 65\nI 2 2 66\nI 3 1 67\nD 1\nD 9\n";
    assert_eq!(replay_of(lines), expected);
    // A last line without LF is a line all the same.
    assert_eq!(replay_of(lines.strip_suffix(b"\n").unwrap()), expected);
}

#[test]
fn drill_example_to_the_byte() {
    let lines = b"O 16384\nI 1 8 65\nI 2 2 66\nI 3 1 67\nS\nS\nC 25\nF 2\nR 1\nO 5\nS\n";
    let expected = "0\n\
                    0 10 8\n\
                    0 10 10\n\
                    20 26 11\n\
                    20 26 11\n\
                    9 26 11\n\
                    0 524C4D00010003000100000008000200170002000300190001\n\
                    0 23 2\n\
                    0 8 520\n\
                    1\n\
                    1 0 0\n";
    assert_eq!(drill_of(lines), expected);
}

#[test]
fn empty_input() {
    assert_eq!(replay_of(b""), HEADING);
    assert_eq!(drill_of(b""), "");
    assert_eq!(mapview_of(&[], b""), "11 0\n");
}

#[test]
fn replay_malformed_lines() {
    let bad: [&[u8]; 17] = [
        b"",
        b" ",
        b"I",
        b"I 1 2",
        b"I 1 2 3 ",
        b"I 1 2 3\r",
        b"I 1 2 3 4",
        b"I  1 2 3",
        b"I 000001 2 3",
        b"I 65536 2 3",
        b"I 1 65536 3",
        b"I 1 2 256",
        b"X 1",
        b"D -1",
        b"D 1\0",
        b"D \xD9\xA1",
        b"S",
    ];
    for line in bad {
        let input = [line, b"\n"].concat();
        assert_eq!(replay_of(&input), format!("{HEADING}bad\n"), "{}", line.escape_ascii());
    }
    // Zeros in front are no harm within five digits, and limits are limits.
    assert_eq!(replay_of(b"I 00001 00002 00255\n"), format!("{HEADING}0 0 0 2 2\n"));
    assert_eq!(replay_of(b"I 65535 4095 0\n"), format!("{HEADING}8 0 0 0 0\n"));
    assert_eq!(
        replay_of(b"I 0 4096 0\nI 1 65535 0\nD 0\n"),
        format!("{HEADING}3 0 0 0 0\n4 0 0 0 0\n3 0 0 0 0\n")
    );
}

#[test]
fn drill_forms() {
    // Before an opening every call answers 1 and nothing is lent.
    let before = drill_of(b"S\nI 1 1 1\nD 1\nF 1\nR 1\nC 2\nC 0\nA\nL 16384\nS\nF 0\nD 0\n");
    let expected = "1 0 0\n1 0 0\n1 0 0\n1 0 0\n1 3 27\n1 AAAA\n1 -\n0\n0\n1 0 0\n1 0 0\n1 0 0\n";
    assert_eq!(before, expected);
    // Seven digits are a number, eight are not; limits of each number.
    let limits = drill_of(
        b"O 0016384\nO 00016384\nL 65537\nC 4097\nI 65536 1 1\nF 65536\nI 1 1 256\nS 1\nA 1\n",
    );
    assert_eq!(limits, "0\nbad\nbad\nbad\nbad\nbad\nbad\nbad\nbad\n");
    // What confirm leaves behind the map, and short buffers.
    let confirm = drill_of(b"O 65536\nC 6\nC 0\nC 9\n");
    assert_eq!(confirm, "0\n10 AAAAAAAAAAAA\n10 -\n0 524C4D00010000AAAA\n");
}

#[test]
fn drill_lends_what_it_was_told() {
    let lines = b"O 20000\nL 19999\nI 1 2 7\nS\nR 1\nL 20000\nI 1 2 7\nL 0\nS\nR 1\nF 1\nD 1\nA\n";
    let expected = "0\n0\n1 0 0\n1 0 0\n1 3 27\n0\n0 2 2\n0\n1 2 2\n1 3 27\n0 0 2\n20 2 0\n21\n";
    assert_eq!(drill_of(lines), expected);
    // An opening with too large a length lends the whole buffer.
    assert_eq!(
        drill_of(b"O 70000\nS\nA\nO 16384\nI 1 1 3\nA\nO 5\nA\n"),
        "1\n1 0 0\n0\n0\n0 1 1\n3\n1\n0\n"
    );
}

#[test]
fn overlong_lines_are_bad_once() {
    for length in [64, 65, 16_384, 100_000] {
        let mut input = vec![b'0'; length];
        input.extend_from_slice(b"\nI 1 1 1\n");
        assert_eq!(replay_of(&input), format!("{HEADING}bad\n0 0 0 1 1\n"), "{length}");
        // The same at the end of the input, without LF.
        let last = vec![b'I'; length];
        assert_eq!(drill_of(&last), "bad\n", "{length}");
    }
}

/// Gives its bytes one at a time, and an interruption before each.
struct Slow<'a>(&'a [u8], bool);

impl Read for Slow<'_> {
    fn read(&mut self, buffer: &mut [u8]) -> io::Result<usize> {
        self.1 = !self.1;
        if self.1 {
            return Err(io::ErrorKind::Interrupted.into());
        }
        let count = self.0.len().min(1);
        buffer[..count].copy_from_slice(&self.0[..count]);
        self.0 = &self.0[count..];
        Ok(count)
    }
}

#[test]
fn pieces_make_no_difference() {
    let lines = b"I 1 8 65\n\nI 2 2 66\nI 3 1 67 \nD 1\nD 9";
    let mut output = Vec::new();
    replay::run(Slow(lines, false), &mut output).unwrap();
    assert_eq!(String::from_utf8(output).unwrap(), replay_of(lines));
}

#[test]
fn mapview_words_and_lengths() {
    let map = b"RLM\0\x01\0\x02\0\x03\0\x00\0\x05\0\x09\x3F\xFF\0\x01";
    let shown = "0 2\n3 0 5\n9 16383 1\n";
    assert_eq!(mapview_of(&[], map), shown);
    assert_eq!(mapview_of(&["16384"], map), shown);
    assert_eq!(mapview_of(&["0016384"], map), shown);
    assert_eq!(mapview_of(&["16383"], map), "1 0\n");
    assert_eq!(mapview_of(&["9999999"], map), "1 0\n");
    for words in [&[""][..], &["x"], &["-1"], &["00016384"], &[" 1"], &["16384", "1"]] {
        assert_eq!(mapview_of(words, map), "usage: mapview [A]\n", "{words:?}");
    }
    // Too long, even if a map stands in front; the mark is looked at first.
    assert_eq!(mapview_of(&[], &[&map[..], &[0; 100_000]].concat()), "13 0\n");
    assert_eq!(mapview_of(&[], &[0; 100_000]), "11 0\n");
}
