//! Tests the example server and its client: `server START SERVER CLIENT FOLDER KILLS`.
//!
//! START is the command that starts a program, SERVER and CLIENT are the two programs, FOLDER is an
//! empty folder with a short path, and KILLS is how often the server is killed at a random moment.
//! The last line is the tally.

use reference::server::{checks, Programs, Tally};
use std::path::{Path, PathBuf};
use std::process::ExitCode;

fn main() -> ExitCode {
    let words: Vec<String> = std::env::args().skip(1).collect();
    let Some((programs, folder, kills)) = arguments(&words) else {
        eprintln!("usage: server START SERVER CLIENT FOLDER KILLS");
        return ExitCode::from(2);
    };
    let mut tally = Tally {
        passed: 0,
        failed: 0,
    };
    checks::run(&programs, folder, kills, &mut tally);
    println!("{} passed, {} failed", tally.passed, tally.failed);
    match tally.failed {
        0 => ExitCode::SUCCESS,
        _ => ExitCode::FAILURE,
    }
}

fn arguments(words: &[String]) -> Option<(Programs, &Path, u64)> {
    let [start, server, client, folder, kills] = words else {
        return None;
    };
    let programs = Programs {
        start: PathBuf::from(start),
        server: PathBuf::from(server),
        client: PathBuf::from(client),
    };
    Some((programs, Path::new(folder), kills.parse().ok()?))
}
