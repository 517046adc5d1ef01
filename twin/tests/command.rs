//! The binary itself: its words, its exit status, a closed pipe, and input
//! of any kind.

use std::fs;
use std::io::{Read, Write};
use std::path::PathBuf;
use std::process::{Command, Output, Stdio};

use twin::random::Random;

fn twin(words: &[&str], input: &[u8]) -> Output {
    let mut child = Command::new(env!("CARGO_BIN_EXE_twin"))
        .args(words)
        .stdin(Stdio::piped())
        .stdout(Stdio::piped())
        .stderr(Stdio::piped())
        .spawn()
        .unwrap();
    let mut pipe = child.stdin.take().unwrap();
    let input = input.to_vec();
    // A child that reads nothing closes the pipe, which is no failure here.
    let feeder = std::thread::spawn(move || {
        let _ = pipe.write_all(&input);
    });
    let output = child.wait_with_output().unwrap();
    feeder.join().unwrap();
    output
}

fn code(output: &Output) -> Option<i32> {
    output.status.code()
}

fn scratch(name: &str) -> PathBuf {
    let folder = PathBuf::from(env!("CARGO_TARGET_TMPDIR"));
    folder.join(name)
}

#[test]
fn check_says_same_or_where() {
    let (input, expected) = (scratch("input"), scratch("expected"));
    fs::write(&input, "I 1 8 65\nD 9\n").unwrap();
    fs::write(&expected, "answer moves waits footprint volume\n0 0 0 10 8\n6 0 0 10 8\n").unwrap();
    let (input, expected) = (input.to_str().unwrap(), expected.to_str().unwrap());
    let words = ["check", "replay", input, expected];
    let same = twin(&words, b"");
    assert_eq!(String::from_utf8(same.stdout.clone()).unwrap(), format!("same replay {input}\n"));
    assert_eq!(code(&same), Some(0));

    for (stored, line) in [
        ("answer moves waits footprint volume\n0 0 0 10 8\n6 0 0 10 9\n", "line 3\n"),
        ("answer moves waits footprint volume\n0 0 0 10 8\n6 0 0 10 8", "line 3\n"),
        ("answer moves waits footprint volume\n0 0 0 10 8\n", "line 3\n"),
        ("answer moves waits footprint volume\n0 0 0 10 8\n6 0 0 10 8\nbad\n", "line 4\n"),
        ("", "line 1\n"),
    ] {
        fs::write(expected, stored).unwrap();
        let other = twin(&words, b"");
        assert_eq!(code(&other), Some(1), "{stored:?}");
        assert!(String::from_utf8(other.stdout).unwrap().contains(line), "{stored:?}");
    }
    assert_eq!(code(&twin(&["check", "replay", "/no/such/file", expected], b"")), Some(2));
}

#[test]
fn check_passes_words_on() {
    let (input, expected) = (scratch("map"), scratch("view"));
    fs::write(&input, b"RLM\0\x01\0\0").unwrap();
    fs::write(&expected, "1 0\n").unwrap();
    let (input, expected) = (input.to_str().unwrap(), expected.to_str().unwrap());
    assert_eq!(code(&twin(&["check", "mapview", input, expected, "5"], b"")), Some(0));
    assert_eq!(code(&twin(&["check", "mapview", input, expected], b"")), Some(1));
    assert_eq!(code(&twin(&["check", "other", input, expected], b"")), Some(2));
}

#[test]
fn wrong_words() {
    let wrong: [&[&str]; 7] = [
        &[],
        &["other"],
        &["replay", "1"],
        &["make"],
        &["make", "replay", "x", "1"],
        &["make", "map", "-1"],
        &["check", "replay"],
    ];
    for words in wrong {
        let output = twin(words, b"");
        assert_eq!((code(&output), output.stdout.len()), (Some(2), 0), "{words:?}");
        assert!(output.stderr.starts_with(b"usage"), "{words:?}");
    }
    let view = twin(&["mapview", "1", "2"], b"");
    assert_eq!((code(&view), &view.stdout[..]), (Some(0), &b"usage: mapview [A]\n"[..]));
}

#[test]
fn made_sessions_depend_on_the_seed_alone() {
    for program in ["replay", "drill"] {
        let first = twin(&["make", program, "11", "3000"], b"");
        let again = twin(&["make", program, "11", "3000"], b"");
        let other = twin(&["make", program, "12", "3000"], b"");
        assert_eq!(code(&first), Some(0));
        assert_eq!(first.stdout, again.stdout);
        assert_ne!(first.stdout, other.stdout);
        let answers = twin(&[program], &first.stdout);
        let heading = usize::from(program == "replay");
        let lines = answers.stdout.iter().filter(|&&byte| byte == b'\n').count();
        assert_eq!(lines, 3_000 + heading, "one line for each");
    }
}

/// Long enough sessions meet every answer their program can give.
#[test]
fn made_sessions_meet_every_answer() {
    let cases: [(&str, &str, &[&str]); 2] = [
        ("replay", "20000", &["0", "20", "3", "4", "5", "6", "7", "8", "bad"]),
        ("drill", "60000", &["0", "20", "1", "2", "3", "4", "5", "6", "7", "8", "9", "10", "bad"]),
    ];
    for (program, lines, answers) in cases {
        let session = twin(&["make", program, "21", lines], b"").stdout;
        let output = String::from_utf8(twin(&[program], &session).stdout).unwrap();
        for answer in answers {
            let met = output.lines().any(|line| {
                let mut words = line.split(' ');
                words.next() == Some(*answer) && (*answer == "bad" || words.next().is_some())
            });
            assert!(met, "{program} never answers {answer}");
        }
    }
}

#[test]
fn noise_does_no_harm() {
    let mut random = Random::new(4);
    for program in ["replay", "drill", "mapview"] {
        for _ in 0..20 {
            let length = random.below(40_000);
            let noise: Vec<u8> = (0..length)
                .map(|_| {
                    if random.percent(60) {
                        random.pick(b"IDSCFRAOL 0123456789\n")
                    } else {
                        random.byte()
                    }
                })
                .collect();
            let output = twin(&[program], &noise);
            assert_eq!((code(&output), output.stderr.len()), (Some(0), 0), "{program}");
        }
    }
}

#[test]
fn a_closed_pipe_is_reported() {
    let mut child = Command::new(env!("CARGO_BIN_EXE_twin"))
        .args(["make", "drill", "1", "100000"])
        .stdout(Stdio::piped())
        .stderr(Stdio::piped())
        .spawn()
        .unwrap();
    drop(child.stdout.take());
    let mut complaint = String::new();
    child.stderr.take().unwrap().read_to_string(&mut complaint).unwrap();
    assert_eq!(child.wait().unwrap().code(), Some(2));
    assert!(complaint.starts_with("twin: ") && !complaint.contains("panicked"), "{complaint}");
}
