//! The example server and its client, from outside: as processes, a socket and a file.
//!
//! Frames and the object's file are written down here a second time, after `examples/protocol.h` and
//! `examples/store.h`. What a command does to the object is the reference's own answer.

pub mod checks;
mod commands;
mod file;
mod frames;
mod process;
mod rota;

use rota::Rota;
use std::fs;
use std::os::unix::fs::MetadataExt;
use std::path::{Path, PathBuf};
use std::sync::atomic::{AtomicU32, Ordering};

/// What starts a program, and the two programs.
pub struct Programs {
    pub start: PathBuf,
    pub server: PathBuf,
    pub client: PathBuf,
}

/// A folder of a check's own, with the paths in it.
struct Place<'a> {
    programs: &'a Programs,
    folder: PathBuf,
    logs: AtomicU32,
}

impl<'a> Place<'a> {
    fn new(programs: &'a Programs, work: &Path, name: &str) -> Result<Place<'a>, String> {
        let folder = work.join(name);
        fs::create_dir(&folder).map_err(|error| format!("{}: {error}", folder.display()))?;
        Ok(Place {
            programs,
            folder,
            logs: AtomicU32::new(0),
        })
    }

    /// Each start of a server has a log of its own.
    fn new_log(&self) -> PathBuf {
        let number = self.logs.fetch_add(1, Ordering::Relaxed);
        self.folder.join(format!("log{number}"))
    }

    fn socket(&self) -> PathBuf {
        self.folder.join("s")
    }

    fn file(&self) -> PathBuf {
        self.folder.join("rota")
    }

    fn new_file(&self) -> PathBuf {
        self.folder.join("rota.new")
    }

    fn bytes(&self) -> Result<Vec<u8>, String> {
        fs::read(self.file()).map_err(|error| format!("the object's file: {error}"))
    }

    /// A file that is replaced has another number, even where its bytes are the same.
    fn file_number(&self) -> Result<u64, String> {
        let found = fs::metadata(self.file());
        found
            .map(|found| found.ino())
            .map_err(|error| format!("the object's file: {error}"))
    }

    fn has(&self, rota: &Rota) -> Result<(), String> {
        match self.bytes()? == rota.file() {
            true => Ok(()),
            false => Err("the object's file isn't as it must be".to_string()),
        }
    }
}

/// The tally, and a line for each failure.
pub struct Tally {
    pub passed: u64,
    pub failed: u64,
}

impl Tally {
    fn count(&mut self, name: &str, outcome: Result<(), String>) {
        match outcome {
            Ok(()) => self.passed += 1,
            Err(reason) => {
                println!("{name}: {reason}");
                self.failed += 1;
            }
        }
    }
}

fn expect(holds: bool, otherwise: impl FnOnce() -> String) -> Result<(), String> {
    match holds {
        true => Ok(()),
        false => Err(otherwise()),
    }
}
