//! Several clients, and clients that don't behave.

use super::super::commands;
use super::super::frames::{self, Peer};
use super::super::process::{client, Server};
use super::super::rota::{Rota, PLACES, SLICE_BYTES};
use super::super::{expect, Place};
use super::swaps::shows;
use std::collections::BTreeMap;
use std::thread;
use std::time::{Duration, Instant};

const SWAPS_EACH: usize = 20;

/// A turn that is over soon, for clients that don't end theirs.
const SHORT_TURN: [&str; 3] = ["--fresh", "--turn", "500"];

/// A turn ends sooner than this, or never.
const PATIENCE: Duration = Duration::from_secs(60);

/// The names before and after a swap, as the client has shown them.
type Change = (Vec<String>, Vec<String>);

/// Two clients swap posts, one of them the same. Each swap is right by itself; and put in a fitting
/// order, each begins where another ends, from the first names to the last.
pub fn two_at_once(place: &Place) -> Result<(), String> {
    let _server = Server::fresh(place)?;
    let changes = thread::scope(|scope| {
        let left = scope.spawn(|| swap_often(place, 0, 1));
        let right = scope.spawn(|| swap_often(place, 1, 2));
        let mut changes = left.join().map_err(|_| "a thread ended early")??;
        changes.extend(right.join().map_err(|_| "a thread ended early")??);
        Ok::<Vec<Change>, String>(changes)
    })?;
    expect(changes.len() == 2 * SWAPS_EACH, || {
        format!("only {} swaps", changes.len())
    })?;
    let last = last_names(place)?;
    let mut balance: BTreeMap<Vec<String>, i64> = BTreeMap::new();
    *balance.entry(Rota::fresh().names()).or_default() += 1;
    *balance.entry(last).or_default() -= 1;
    for (before, after) in changes {
        *balance.entry(before).or_default() -= 1;
        *balance.entry(after).or_default() += 1;
    }
    expect(balance.values().all(|&open| open == 0), || {
        "no order of the swaps gives the rota that is there".to_string()
    })
}

fn swap_often(place: &Place, left: usize, right: usize) -> Result<Vec<Change>, String> {
    let words = [(left + 1).to_string(), (right + 1).to_string()];
    (0..SWAPS_EACH)
        .map(|_| {
            let shown = client(place, &["swap", &words[0], &words[1]])?;
            expect(shown.status == Some(0), || shown.message.clone())?;
            let (before, after) = change_shown(&shown.output);
            let mut due = before.clone();
            due.swap(left, right);
            expect(before.len() == PLACES.len() && after == due, || {
                format!("a swap makes {after:?} of {before:?}")
            })?;
            Ok((before, after))
        })
        .collect()
}

/// The columns behind the place: before, perhaps asked, after.
fn change_shown(output: &str) -> Change {
    output
        .lines()
        .filter_map(|line| {
            let words: Vec<&str> = line.split_whitespace().collect();
            let place = words
                .iter()
                .position(|word| PLACES.iter().any(|place| place.to_string() == *word))?;
            Some((words.get(place + 1)?.to_string(), words.last()?.to_string()))
        })
        .unzip()
}

/// What is in the file, held against a rota with these names.
fn last_names(place: &Place) -> Result<Vec<String>, String> {
    let bytes = place.bytes()?;
    let slice = &bytes[super::super::file::HEAD_BYTES..][..SLICE_BYTES];
    let rota = Rota {
        record: Rota::fresh().record,
        slice: slice.to_vec(),
    };
    place.has(&rota)?;
    Ok(rota.names())
}

/// A second client's READ is sent before the first one's WRITE, and sees it: its turn comes later.
pub fn turns(place: &Place) -> Result<(), String> {
    let before = Rota::fresh();
    let (command, after) = before.swap(0, 1);
    let read_all = commands::read(0, SLICE_BYTES as u64);
    let _server = Server::fresh(place)?;
    let mut first = Peer::connect(&place.socket())?;
    let seen = first.ask(&read_all, SLICE_BYTES as u32)?.input;
    expect(before.slice.starts_with(&seen), || {
        "the first client sees something else".to_string()
    })?;
    let mut second = Peer::connect(&place.socket())?;
    second.send(&frames::request(&read_all, SLICE_BYTES as u32));
    first.ask(&command, 0)?;
    drop(first);
    let seen = second.answer()?.input;
    expect(after.slice.starts_with(&seen) && !seen.is_empty(), || {
        "the second client doesn't see the first one's change".to_string()
    })
}

/// Others are served though this one keeps its connection, and it is told that it is late.
fn is_late(place: &Place, peer: &mut Peer) -> Result<(), String> {
    shows(place, &Rota::fresh())?;
    let reason = peer.refusal(1)?;
    expect(reason.starts_with("too late"), || reason)?;
    place.has(&Rota::fresh())
}

pub fn silent(place: &Place) -> Result<(), String> {
    let _server = Server::start(place, &SHORT_TURN)?;
    let mut peer = Peer::connect(&place.socket())?;
    is_late(place, &mut peer)?;
    // One that has been answered may not stay for ever either.
    let mut peer = Peer::connect(&place.socket())?;
    peer.ask(&commands::read(0, 1), 1)?;
    is_late(place, &mut peer)
}

pub fn halting(place: &Place) -> Result<(), String> {
    let _server = Server::start(place, &SHORT_TURN)?;
    let (command, _) = Rota::fresh().swap(0, 1);
    let frame = frames::request(&command, 0);
    for length in [2, 10, frame.len() - 1] {
        let mut peer = Peer::connect(&place.socket())?;
        peer.send(&frame[..length]);
        is_late(place, &mut peer)?;
    }
    Ok(())
}

/// Each byte comes in time after the one before, and yet the turn ends.
pub fn trickling(place: &Place) -> Result<(), String> {
    let _server = Server::start(place, &SHORT_TURN)?;
    let mut peer = Peer::connect(&place.socket())?;
    peer.send(&frames::head(236, 1 << 20, 0));
    let start = Instant::now();
    while peer.can_send(0) {
        expect(start.elapsed() < PATIENCE, || {
            "the turn doesn't end".to_string()
        })?;
        thread::sleep(Duration::from_millis(10));
    }
    is_late(place, &mut peer)
}

pub fn not_reading(place: &Place) -> Result<(), String> {
    let mut server = Server::start(place, &SHORT_TURN)?;
    let mut peer = Peer::connect(&place.socket())?;
    let read_all = frames::request(&commands::read(0, SLICE_BYTES as u64), SLICE_BYTES as u32);
    // More than a socket holds.
    for _ in 0..50 {
        peer.send(&read_all);
    }
    shows(place, &Rota::fresh())?;
    place.has(&Rota::fresh())?;
    expect(server.is_alive(), || "the server has ended".to_string())
}

/// All of the request is there, so it is carried out, and kept.
pub fn gone_before_answer(place: &Place) -> Result<(), String> {
    let mut server = Server::fresh(place)?;
    let mut rota = Rota::fresh();
    for round in 0..30 {
        let (command, after) = rota.swap(round % 2, 2);
        let mut peer = Peer::connect(&place.socket())?;
        peer.send(&frames::request(&command, 0));
        drop(peer);
        shows(place, &after)?;
        place.has(&after)?;
        rota = after;
    }
    expect(server.is_alive(), || "the server has ended".to_string())
}
