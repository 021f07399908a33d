//! Bytes on the socket that are no requests, or just are.

use super::super::commands::{self, Command};
use super::super::frames::{self, Peer};
use super::super::process::Server;
use super::super::rota::Rota;
use super::super::{expect, Place};
use super::swaps::shows;
use crate::random::Random;

const MIB: u32 = 1 << 20;

/// The server lives, and the object is as it was.
fn is_unharmed(place: &Place, server: &mut Server) -> Result<(), String> {
    expect(server.is_alive(), || "the server has ended".to_string())?;
    place.has(&Rota::fresh())?;
    shows(place, &Rota::fresh())
}

fn refuses(place: &Place, bytes: &[u8], is_all: bool, due: &str) -> Result<(), String> {
    let mut peer = Peer::connect(&place.socket())?;
    peer.send(bytes);
    if is_all {
        peer.end();
    }
    let reason = peer.refusal(1)?;
    expect(reason.starts_with(due), || {
        format!("refused with '{reason}' instead of '{due}'")
    })
}

/// Cut off behind each of its bytes: by an end after which the client still listens, or altogether.
pub fn cut_off_anywhere(place: &Place) -> Result<(), String> {
    let mut server = Server::fresh(place)?;
    let (command, after) = Rota::fresh().swap(0, 1);
    let frame = frames::request(&command, 0);
    for length in 1..frame.len() {
        refuses(place, &frame[..length], true, "cut off")?;
        Peer::connect(&place.socket())?.send(&frame[..length]);
    }
    is_unharmed(place, &mut server)?;
    let mut peer = Peer::connect(&place.socket())?;
    peer.send(&frame);
    peer.end();
    let answer = peer.answer()?;
    expect(answer.number == 0, || format!("{answer:?}"))?;
    place.has(&after)
}

pub fn no_request(place: &Place) -> Result<(), String> {
    let mut server = Server::fresh(place)?;
    refuses(place, b"", true, "nothing came")?;
    refuses(place, b"H", true, "cut off")?;
    refuses(place, b"HWQ1", true, "cut off")?;
    // Said at once: nobody has ended these, and a server that waits for more would call them late.
    for bytes in [
        &b"hello"[..],
        b"GET / HTTP/1.1\r\n\r\n",
        b"HWQ2",
        b"hwq1",
        b"HWA1",
        &[0; 4],
        &[0xFF; 5000],
    ] {
        refuses(place, bytes, false, "no request")?;
    }
    for lengths in [
        [1025, 0, 0],
        [0, MIB + 1, 0],
        [0, 0, MIB + 1],
        [u32::MAX, u32::MAX, u32::MAX],
        [u32::MAX, 0, 0],
        [236, 1 << 31, 0],
    ] {
        let head = frames::head(lengths[0], lengths[1], lengths[2]);
        refuses(place, &head, false, "over a limit")?;
    }
    is_unharmed(place, &mut server)
}

pub fn random_bytes(place: &Place) -> Result<(), String> {
    let mut random = Random::new(2);
    let mut server = Server::fresh(place)?;
    for _ in 0..500 {
        let length = random.between(4, 3000) as usize;
        let mut bytes = random.bytes(length);
        // Half of them begin as a request does, with lengths that are mostly over the limits.
        if random.one_in(2) {
            bytes[..4].copy_from_slice(b"HWQ1");
        }
        let mut peer = Peer::connect(&place.socket())?;
        peer.send(&bytes);
        peer.end();
        peer.refusal(1)?;
    }
    is_unharmed(place, &mut server)
}

/// Frames that are requests and no commands: the engine answers, and the turn goes on.
pub fn limits(place: &Place) -> Result<(), String> {
    let mut server = Server::fresh(place)?;
    let mut peer = Peer::connect(&place.socket())?;
    for (cdb, out, input) in [(0, 0, 0), (1024, MIB, MIB), (235, 1, 0), (237, 0, 1)] {
        let command = Command {
            cdb: vec![0x7F; cdb],
            out: vec![0; out as usize],
        };
        let answer = peer.ask(&command, input)?;
        expect(
            answer.number == 2 && answer.count == 0 && answer.input.is_empty(),
            || format!("{answer:?}"),
        )?;
    }
    is_unharmed_in_turn(peer)?;
    is_unharmed(place, &mut server)
}

fn is_unharmed_in_turn(mut peer: Peer) -> Result<(), String> {
    let answer = peer.ask(&commands::read(256, 16), 16)?;
    expect(answer.number == 0 && answer.count == 16, || {
        format!("{answer:?}")
    })
}

pub fn behind_a_request(place: &Place) -> Result<(), String> {
    let mut server = Server::fresh(place)?;
    let mut peer = Peer::connect(&place.socket())?;
    let mut bytes = frames::request(&commands::read(256, 16), 16);
    bytes.extend(b"and more");
    peer.send(&bytes);
    let answer = peer.answer()?;
    expect(answer.input.starts_with(b"Ilse\0"), || {
        format!("{answer:?}")
    })?;
    let reason = peer.refusal(1)?;
    expect(reason.starts_with("no request"), || reason)?;
    is_unharmed(place, &mut server)
}
