//! Written segments for Wireshark: `capture write DRIVER-COMMAND FOLDER SEED OTHERS` has requests with a
//! segment written by the engine behind the driver: one of every shape at the edges, and OTHERS of any
//! shape. FOLDER then has them as a capture, `segments.pcap`, and what is to be shown of it, `due.txt`.
//!
//! `capture compare DUE PDML` holds what `tshark` shows to that. The last line is the tally.

use reference::capture::comparison::{self, Outcome};
use reference::capture::fields::Due;
use reference::capture::{self, pdml, requests, Command};
use reference::command::CDB_BYTES;
use reference::driver::{Driver, Lending};
use reference::face::{Reply, Request, Writing};
use reference::generate::request::OwnedRequest;
use reference::random::Random;
use reference::segment::{HEADER_BYTES, MOST_BYTES};
use reference::writer::WRITTEN;
use std::fs;
use std::path::Path;
use std::process::ExitCode;

/// What the buffers hold before, so that a byte that isn't written is no zero.
const PATTERN: u8 = 0xA5;

fn main() -> ExitCode {
    let words: Vec<String> = std::env::args().skip(1).collect();
    let Some(outcome) = run(&words) else {
        eprintln!(
            "usage: capture write DRIVER-COMMAND FOLDER SEED OTHERS | capture compare DUE PDML"
        );
        return ExitCode::from(2);
    };
    match outcome {
        Ok(0) => ExitCode::SUCCESS,
        Ok(_) => ExitCode::FAILURE,
        Err(reason) => {
            eprintln!("{reason}");
            ExitCode::from(2)
        }
    }
}

/// How many frames failed; none where the words can't be understood.
fn run(words: &[String]) -> Option<Result<usize, String>> {
    let words: Vec<&str> = words.iter().map(String::as_str).collect();
    match words[..] {
        ["write", driver, folder, seed, others] => {
            let (seed, others) = (seed.parse().ok()?, others.parse().ok()?);
            Some(write(driver, Path::new(folder), seed, others).map(|()| 0))
        }
        ["compare", due, pdml] => Some(compare(due, pdml)),
        _ => None,
    }
}

fn write(driver: &str, folder: &Path, seed: u64, others: usize) -> Result<(), String> {
    let mut random = Random::new(seed);
    let requests = requests::draw(&mut random, others);
    let driver = Driver::start(driver).map_err(|error| error.to_string())?;
    let commands = written_commands(driver, &mut random, requests)?;
    let capture = capture::of(&commands);
    let due: Vec<String> = capture.due.iter().map(|due| due.line() + "\n").collect();
    fs::create_dir_all(folder)
        .and_then(|()| fs::write(folder.join("segments.pcap"), capture.file))
        .and_then(|()| fs::write(folder.join("due.txt"), due.concat()))
        .map_err(|error| format!("{}: {error}", folder.display()))
}

/// Has every request written through the driver.
fn written_commands(
    mut driver: Driver,
    random: &mut Random,
    requests: Vec<OwnedRequest>,
) -> Result<Vec<Command>, String> {
    let asked: Vec<Request> = requests.iter().map(writing).collect();
    for request in &asked {
        driver.add(request, Lending::draw(random));
    }
    driver.send();
    let mut commands = Vec::new();
    for (index, (request, asked)) in requests.into_iter().zip(&asked).enumerate() {
        let command = driver
            .receive(asked)
            .and_then(|reply| command(request, reply))
            .map_err(|reason| format!("request {}: {reason}", index + 1))?;
        commands.push(command);
    }
    driver.finish()?;
    Ok(commands)
}

/// With buffers for any command.
fn writing(request: &OwnedRequest) -> Request {
    Request::Write(Writing {
        request: request.clone(),
        flag: request.has_list.into(),
        cdb: vec![PATTERN; CDB_BYTES],
        segment: vec![PATTERN; MOST_BYTES],
    })
}

/// Every request is one to be accepted, with a segment.
fn command(request: OwnedRequest, reply: Reply) -> Result<Command, String> {
    let Reply::Written(written) = reply else {
        return Err("a reply of another kind".to_string());
    };
    let length = usize::try_from(written.segment_length).unwrap_or(usize::MAX);
    if written.number != WRITTEN || !(HEADER_BYTES..=MOST_BYTES).contains(&length) {
        return Err(format!(
            "number {} and a segment of {length} bytes",
            written.number
        ));
    }
    Ok(Command {
        request,
        cdb: written.cdb,
        segment: written.segment[..length].to_vec(),
    })
}

fn compare(due_file: &str, pdml_file: &str) -> Result<usize, String> {
    let due = read(due_file)?;
    let due: Vec<Due> = due
        .lines()
        .map(Due::parse)
        .collect::<Result<_, _>>()
        .map_err(|reason| format!("{due_file}: {reason}"))?;
    let text = read(pdml_file)?;
    let packets = pdml::packets(&text).map_err(|reason| format!("{pdml_file}: {reason}"))?;
    let Outcome {
        passed,
        failed,
        remarks,
    } = comparison::compare(&due, &packets);
    for line in remarks {
        println!("{line}");
    }
    println!("{passed} passed, {failed} failed");
    Ok(failed)
}

fn read(file: &str) -> Result<String, String> {
    let bytes = fs::read(file).map_err(|error| format!("{file}: {error}"))?;
    // A field that isn't looked at may have bytes of any kind.
    Ok(String::from_utf8_lossy(&bytes).into_owned())
}
