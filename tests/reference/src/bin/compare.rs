//! Compares an engine with the reference: `compare DRIVER-COMMAND VECTORS SEED COMMANDS REQUESTS`.
//!
//! DRIVER-COMMAND is a command of the shell that starts the driver. Every line of the file VECTORS is
//! played, then random commands and requests to the writer, and a pair of sessions for every hundred
//! commands. The first difference ends the run: it is shown, and kept in a file that can be VECTORS
//! of another run, and, where it is one command that isn't too large, in a file for the program
//! `bench` as well. The last line is the tally.

use reference::bench;
use reference::compare::{Comparison, Failure};
use reference::driver::Driver;
use reference::face::Request;
use reference::kept;
use reference::random::Random;
use std::process::ExitCode;

const COMMANDS_FOR_A_PAIR: u64 = 100;

struct Arguments {
    driver_command: String,
    vectors: String,
    seed: u64,
    commands: u64,
    requests: u64,
}

fn main() -> ExitCode {
    let Some(arguments) = arguments() else {
        eprintln!("usage: compare DRIVER-COMMAND VECTORS SEED COMMANDS REQUESTS");
        return ExitCode::from(2);
    };
    match run(&arguments) {
        Ok(0) => ExitCode::SUCCESS,
        Ok(_) => ExitCode::FAILURE,
        Err(reason) => {
            eprintln!("{reason}");
            ExitCode::from(2)
        }
    }
}

fn arguments() -> Option<Arguments> {
    let mut words = std::env::args().skip(1);
    let arguments = Arguments {
        driver_command: words.next()?,
        vectors: words.next()?,
        seed: words.next()?.parse().ok()?,
        commands: words.next()?.parse().ok()?,
        requests: words.next()?.parse().ok()?,
    };
    match words.next() {
        None => Some(arguments),
        Some(_) => None,
    }
}

/// How many failed: none, or the one that ended the run.
fn run(arguments: &Arguments) -> Result<u64, String> {
    let text = std::fs::read_to_string(&arguments.vectors)
        .map_err(|error| format!("{}: {error}", arguments.vectors))?;
    let lines =
        kept::parse_file(&text).map_err(|error| format!("{}: {error}", arguments.vectors))?;
    let driver = Driver::start(&arguments.driver_command).map_err(|error| error.to_string())?;
    // Each phase has a seed of its own, so that its run is the same whatever the others' sizes.
    let mut seeds = Random::new(arguments.seed);
    let mut random = || Random::new(seeds.number());
    let mut comparison = Comparison::new(driver, arguments.seed);
    let outcome = comparison
        .lines(lines)
        .and_then(|()| comparison.senses())
        .and_then(|()| comparison.commands(&mut random(), arguments.commands))
        .and_then(|()| comparison.requests(&mut random(), arguments.requests))
        .and_then(|()| comparison.pairs(&mut random(), arguments.commands / COMMANDS_FOR_A_PAIR));
    let passed = comparison.passed();
    let failed = match outcome {
        Ok(()) => end(comparison),
        Err(failure) => {
            report(&failure, arguments.seed);
            1
        }
    };
    println!("{passed} passed, {failed} failed");
    Ok(failed)
}

fn end(comparison: Comparison) -> u64 {
    match comparison.finish() {
        Ok(()) => 0,
        Err(reason) => {
            println!("the driver at the end of its input: {reason}");
            1
        }
    }
}

fn report(failure: &Failure, seed: u64) {
    println!("{}", failure.label);
    for line in &failure.what {
        println!("  {line}");
    }
    let name = format!("difference-{seed}-{}", failure.label);
    keep(
        &format!("{name}.txt"),
        (failure.lines.join("\n") + "\n").as_bytes(),
    );
    if let Some(file) = bench_file(failure) {
        keep(&format!("{name}.bench"), &file);
    }
}

/// A single command that isn't too large is kept for the program `bench` as well.
fn bench_file(failure: &Failure) -> Option<Vec<u8>> {
    let [line] = &failure.lines[..] else {
        return None;
    };
    match kept::parse(line) {
        Ok((Request::Execute(case), _)) if bench::takes(&case) => Some(bench::file_of(&case)),
        _ => None,
    }
}

fn keep(file: &str, content: &[u8]) {
    match std::fs::write(file, content) {
        Ok(()) => println!("kept in {file}"),
        Err(error) => println!("{file} can't be written: {error}"),
    }
}
