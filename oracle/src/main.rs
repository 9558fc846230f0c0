//! Writes cases for the replay program, and answers them by the lent Rust.

use oracle::{answers, calls, cases, random};
use std::io::{self, Write};
use std::{env, process::ExitCode};

const USAGE: &str = "\
oracle cases                the replay's case file
oracle answers              the answers to the case file on stdin
oracle random SEED COUNT    random cases";

fn main() -> io::Result<ExitCode> {
    let words: Vec<String> = env::args().skip(1).collect();
    let words: Vec<&str> = words.iter().map(String::as_str).collect();
    let Some(text) = run(&words) else {
        eprintln!("{USAGE}");
        return Ok(ExitCode::FAILURE);
    };
    io::stdout().write_all(text.as_bytes())?;
    Ok(ExitCode::SUCCESS)
}

/// What a command writes; none where it is not one of the three.
fn run(words: &[&str]) -> Option<String> {
    let calls = calls::table();
    match *words {
        ["cases"] => Some(cases::cases(&calls)),
        ["answers"] => {
            let cases = io::read_to_string(io::stdin()).expect("stdin is text");
            Some(answers::answers(&calls, &cases))
        }
        ["random", seed, count] => {
            let (seed, count) = (seed.parse().ok()?, count.parse().ok()?);
            Some(cases::list_lines() + &random::cases(&calls, &cases::VALUES, seed, count))
        }
        _ => None,
    }
}
