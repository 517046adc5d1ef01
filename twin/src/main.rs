//! `twin`: the command line of Foliomoss's second program.
//!
//! - `twin replay`: the session program, standard input to standard output.
//! - `twin drill`: raw calls, one a line, standard input to standard output.
//! - `twin mapview [A]`: shows the map on standard input.
//! - `twin make replay SEED LINES`: prints an input for `replay`.
//! - `twin make drill SEED LINES`: prints an input for `drill`.
//! - `twin make map SEED`: prints one map's bytes; on standard error, one
//!   line with the area it was made for and its damage, or `sound`.
//! - `twin check PROGRAM INPUTFILE EXPECTEDFILE [ARGS..]`: runs `replay`,
//!   `drill` or `mapview` on a stored input and compares with a stored
//!   output. Prints `same PROGRAM INPUTFILE`, or the first line that
//!   differs, from both sides.
//!
//! Exit status: 0 if all went well, 1 if `check` found a difference, 2 for
//! a wrong command line or for input or output that failed.

use std::io::{self, BufWriter, Write};
use std::process::ExitCode;

use twin::check::{check, run_program};
use twin::maps::make_map;
use twin::sessions::{make_drill, make_replay};

const USAGE: &str = "usage: twin replay | drill | mapview [A]
       twin make replay SEED LINES | make drill SEED LINES | make map SEED
       twin check PROGRAM INPUTFILE EXPECTEDFILE [ARGS..]";

const DIFFERENT: u8 = 1;
const FAILED: u8 = 2;

fn main() -> ExitCode {
    // Words that are no text cannot be numbers or program names, so it does
    // no harm that they are changed here.
    let words: Vec<String> =
        std::env::args_os().skip(1).map(|word| word.to_string_lossy().into_owned()).collect();
    let mut output = BufWriter::new(io::stdout().lock());
    let done = command(&words, &mut output);
    match done.and_then(|code| output.flush().map(|()| code)) {
        Ok(code) => code,
        Err(error) => {
            complain(&format!("twin: {error}"));
            ExitCode::from(FAILED)
        }
    }
}

/// Carries out the command the words name.
fn command(words: &[String], output: &mut impl Write) -> io::Result<ExitCode> {
    let as_text: Vec<&str> = words.iter().map(String::as_str).collect();
    match as_text.as_slice() {
        ["make", "replay", seed, lines] => match (seed.parse(), lines.parse()) {
            (Ok(seed), Ok(lines)) => make_replay(seed, lines, output).map(|()| ExitCode::SUCCESS),
            _ => Ok(usage()),
        },
        ["make", "drill", seed, lines] => match (seed.parse(), lines.parse()) {
            (Ok(seed), Ok(lines)) => make_drill(seed, lines, output).map(|()| ExitCode::SUCCESS),
            _ => Ok(usage()),
        },
        ["make", "map", seed] => match seed.parse() {
            Ok(seed) => print_map(seed, output),
            Err(_) => Ok(usage()),
        },
        ["check", program, input, expected, ..] => {
            print_check(program, input, expected, &words[4..], output)
        }
        [program, ..] => match run_program(program, &words[1..], io::stdin().lock(), output) {
            Some(ran) => ran.map(|()| ExitCode::SUCCESS),
            None => Ok(usage()),
        },
        [] => Ok(usage()),
    }
}

fn print_map(seed: u64, output: &mut impl Write) -> io::Result<ExitCode> {
    let made = make_map(seed);
    let state = made.damage.map_or("sound".to_string(), |damage| format!("{damage:?}"));
    complain(&format!("{} {state}", made.area_length));
    output.write_all(&made.bytes)?;
    Ok(ExitCode::SUCCESS)
}

fn print_check(
    program: &str,
    input: &str,
    expected: &str,
    words: &[String],
    output: &mut impl Write,
) -> io::Result<ExitCode> {
    match check(program, input, expected, words).transpose()? {
        None => Ok(usage()),
        Some(None) => {
            writeln!(output, "same {program} {input}")?;
            Ok(ExitCode::SUCCESS)
        }
        Some(Some(difference)) => {
            writeln!(output, "differ {program} {input} {}", difference.describe())?;
            Ok(ExitCode::from(DIFFERENT))
        }
    }
}

fn usage() -> ExitCode {
    complain(USAGE);
    ExitCode::from(FAILED)
}

/// Standard error may be closed too; then nothing can be said.
fn complain(message: &str) {
    let _ = writeln!(io::stderr(), "{message}");
}
