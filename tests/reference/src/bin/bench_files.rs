//! Writes files for the program `bench`: `bench_files FOLDER SEED COUNT`.
//!
//! The file `expected` of the folder has a line for each: its name, and the line that the program prints.

use reference::bench;
use reference::generate::bench_file;
use reference::random::Random;
use std::path::Path;
use std::process::ExitCode;
use std::{fs, io};

fn main() -> ExitCode {
    let words: Vec<String> = std::env::args().skip(1).collect();
    let Some((folder, seed, count)) = arguments(&words) else {
        eprintln!("usage: bench_files FOLDER SEED COUNT");
        return ExitCode::from(2);
    };
    match write_all(folder, seed, count) {
        Ok(()) => ExitCode::SUCCESS,
        Err(error) => {
            eprintln!("{}: {error}", folder.display());
            ExitCode::FAILURE
        }
    }
}

fn arguments(words: &[String]) -> Option<(&Path, u64, usize)> {
    let [folder, seed, count] = words else {
        return None;
    };
    Some((Path::new(folder), seed.parse().ok()?, count.parse().ok()?))
}

fn write_all(folder: &Path, seed: u64, count: usize) -> io::Result<()> {
    let mut random = Random::new(seed);
    let mut expected = String::new();
    fs::create_dir_all(folder)?;
    for number in 1..=count {
        let name = format!("{number:04}.bin");
        let file = bench_file::draw(&mut random);
        expected += &format!("{name} {}\n", bench::line(&file));
        fs::write(folder.join(name), file)?;
    }
    fs::write(folder.join("expected"), expected)
}
