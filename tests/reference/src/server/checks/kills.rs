//! The server is killed during a change: the object is whole, as it was before or as it is after.

use super::super::commands::Command;
use super::super::frames::{self, Peer};
use super::super::process::Server;
use super::super::rota::Rota;
use super::super::{expect, Place, Tally};
use super::swaps::shows;
use crate::random::Random;
use std::sync::atomic::{AtomicUsize, Ordering};
use std::thread;
use std::time::{Duration, Instant};

/// A moment at which the server stops itself, and what a kill leaves there.
pub struct Moment {
    pub name: &'static str,
    is_changed: bool,
    /// The new file's size as a share of the whole, or none where it isn't there.
    new_file: NewFile,
    is_answered: bool,
}

#[derive(PartialEq)]
enum NewFile {
    None,
    Empty,
    Part,
    Whole,
}

const fn moment(
    name: &'static str,
    is_changed: bool,
    new_file: NewFile,
    is_answered: bool,
) -> Moment {
    Moment {
        name,
        is_changed,
        new_file,
        is_answered,
    }
}

pub const MOMENTS: &[Moment] = &[
    moment("made", false, NewFile::Empty, false),
    moment("begun", false, NewFile::Part, false),
    moment("written", false, NewFile::Whole, false),
    moment("synced", false, NewFile::Whole, false),
    moment("renamed", true, NewFile::None, false),
    moment("saved", true, NewFile::None, false),
    moment("answered", true, NewFile::None, true),
];

pub fn at_moment(place: &Place, moment: &Moment) -> Result<(), String> {
    let before = Rota::fresh();
    let (command, after) = before.swap(0, 2);
    Server::fresh(place)?.kill()?;
    let server = Server::start_to_stop_at(place, moment.name)?;
    let mut peer = Peer::connect(&place.socket())?;
    peer.send(&frames::request(&command, 0));
    server.wait_until_stopped()?;
    server.kill()?;
    let is_answered = matches!(peer.reply()?, frames::Reply::Answer(_));
    expect(is_answered == moment.is_answered, || {
        format!("answered: {is_answered}")
    })?;
    let left = if moment.is_changed { &after } else { &before };
    place.has(left)?;
    let new_file = new_file(place, after.file().len() as u64);
    expect(new_file == moment.new_file, || {
        "the new file isn't as it is at this moment".to_string()
    })?;
    // What was left is no obstacle to the next start and the next change.
    let _server = Server::again(place)?;
    shows(place, left)?;
    let (command, next) = left.swap(1, 2);
    Peer::connect(&place.socket())?.ask(&command, 0)?;
    place.has(&next)?;
    shows(place, &next)
}

fn new_file(place: &Place, whole: u64) -> NewFile {
    match place.new_file().metadata().map(|found| found.len()) {
        Err(_) => NewFile::None,
        Ok(0) => NewFile::Empty,
        Ok(size) if size == whole => NewFile::Whole,
        Ok(_) => NewFile::Part,
    }
}

/// Six rotas in a ring, each with the swap that makes the next one of it. A rota's two neighbours
/// differ, so the file tells whether a change that was answered is there.
struct Ring(Vec<(Rota, Command)>);

impl Ring {
    fn new() -> Ring {
        let mut rota = Rota::fresh();
        let mut ring = Vec::new();
        for step in 0..6 {
            let (command, after) = rota.swap(step % 2, step % 2 + 1);
            ring.push((rota, command));
            rota = after;
        }
        assert!(rota == ring[0].0, "the ring isn't closed");
        Ring(ring)
    }

    fn at(&self, step: usize) -> &(Rota, Command) {
        &self.0[step % self.0.len()]
    }
}

pub fn at_random(place: &Place, rounds: u64, tally: &mut Tally) {
    let ring = Ring::new();
    let mut random = Random::new(4);
    let mut step = 0;
    let mut changed = 0;
    // How long a change takes, so that the kills lie in all parts of one.
    let mut change = Duration::from_millis(3);
    if let Err(reason) = Server::fresh(place).and_then(Server::kill) {
        return tally.count("kills at random", Err(reason));
    }
    for round in 0..rounds {
        let answers = random.below(4) as usize;
        let delay = change * random.below(1200) as u32 / 1000;
        let outcome = one_kill(place, &ring, step, answers, delay);
        match outcome {
            Ok(killed) => {
                step = killed.step;
                changed += u64::from(killed.is_changed);
                change = (change * 3 + killed.change) / 4;
                tally.count("", Ok(()));
            }
            Err(reason) => {
                tally.count(
                    &format!("kill {round}, {delay:?} after {answers} answers"),
                    Err(reason),
                );
                return;
            }
        }
    }
    println!(
        "{rounds} kills at random moments: {} left the object as before the change under way, {changed} as after it",
        rounds - changed
    );
}

struct Killed {
    step: usize,
    is_changed: bool,
    change: Duration,
}

/// Changes run one after the other. So long after so many answers the server is killed.
fn one_kill(
    place: &Place,
    ring: &Ring,
    first: usize,
    answers: usize,
    delay: Duration,
) -> Result<Killed, String> {
    let server = Server::again(place)?;
    let peer = Peer::connect(&place.socket())?;
    let step = AtomicUsize::new(first);
    let change = thread::scope(|scope| {
        let changes = scope.spawn(|| change_until_killed(peer, ring, &step));
        // Where the changes have ended before, something is wrong, and the kill ends the wait.
        while step.load(Ordering::SeqCst) < first + answers && !changes.is_finished() {
            thread::yield_now();
        }
        let start = Instant::now();
        while start.elapsed() < delay {
            thread::yield_now();
        }
        server.kill()?;
        changes.join().map_err(|_| "a thread ended early")?
    })?;
    expect(Peer::connect(&place.socket()).is_err(), || {
        "somebody still listens after the kill".to_string()
    })?;
    let answered = step.load(Ordering::SeqCst);
    let bytes = place.bytes()?;
    let is_changed = match bytes {
        bytes if bytes == ring.at(answered).0.file() => false,
        bytes if bytes == ring.at(answered + 1).0.file() => true,
        _ => return Err("the object is neither as before nor as after".to_string()),
    };
    Ok(Killed {
        step: answered + usize::from(is_changed),
        is_changed,
        change,
    })
}

/// Returns how long a change took.
fn change_until_killed(
    mut peer: Peer,
    ring: &Ring,
    step: &AtomicUsize,
) -> Result<Duration, String> {
    let start = Instant::now();
    let mut count = 0;
    loop {
        let command = &ring.at(step.load(Ordering::SeqCst)).1;
        peer.send(&frames::request(command, 0));
        count += 1;
        match peer.reply() {
            Ok(frames::Reply::Answer(answer)) if answer.number == 0 => {
                step.fetch_add(1, Ordering::SeqCst);
            }
            Ok(frames::Reply::End) => return Ok(start.elapsed() / count),
            // The kill may come in the middle of an answer.
            Err(reason) if reason.starts_with("a reply is cut off") => {
                return Ok(start.elapsed() / count)
            }
            other => return Err(format!("{other:?}")),
        }
    }
}
