//! Checks the laws on random commands: `laws SEED COUNT`.
//!
//! A broken law ends the run: the command is printed and written to a file, in the format of the
//! vectors and with the answer that was given.

use reference::case::Case;
use reference::engine::Answer;
use reference::generate;
use reference::laws;
use reference::random::Random;
use reference::vectors::Vector;
use std::process::ExitCode;

const PROGRESS_EVERY: u64 = 100_000;
/// Calls on the largest slice take long, so they are few.
const HEAVY_EVERY: u64 = 50_000;

fn main() -> ExitCode {
    let Some((seed, count)) = arguments() else {
        eprintln!("usage: laws SEED COUNT");
        return ExitCode::from(2);
    };
    run(seed, count)
}

fn arguments() -> Option<(u64, u64)> {
    let mut words = std::env::args().skip(1);
    let seed = words.next()?.parse().ok()?;
    let count = words.next()?.parse().ok()?;
    match words.next() {
        None => Some((seed, count)),
        Some(_) => None,
    }
}

fn run(seed: u64, count: u64) -> ExitCode {
    let mut random = Random::new(seed);
    for index in 1..=count {
        let case = match index % HEAVY_EVERY {
            0 => generate::heavy_command(&mut random),
            _ => generate::command(&mut random),
        };
        let answer = case.answer();
        if let Some((law, reason)) = laws::first_broken(&case, &answer) {
            println!("law {law}: {reason}");
            report(case, answer, &format!("broken-law-{seed}-{index}.txt"));
            println!("{index} commands, 1 broken law");
            return ExitCode::FAILURE;
        }
        if index % PROGRESS_EVERY == 0 {
            eprintln!("{index} of {count}");
        }
    }
    println!("{count} commands, 0 broken laws");
    ExitCode::SUCCESS
}

fn report(case: Case, answer: Answer, file: &str) {
    let line = format!("{}\n", Vector::new(case, answer));
    print!("{line}");
    match std::fs::write(file, line) {
        Ok(()) => println!("written to {file}"),
        Err(error) => println!("{file} can't be written: {error}"),
    }
}
