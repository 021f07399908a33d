//! Commands that are carried out, refused, or can't be kept.

use super::super::commands;
use super::super::frames::{Answer, Peer};
use super::super::process::{client, Server};
use super::super::rota::{Rota, SLICE_BYTES};
use super::super::{expect, Place};
use crate::command::Action;
use crate::numbers;
use crate::random::Random;
use std::fs;

/// The client shows these names, and that all is well.
pub fn shows(place: &Place, rota: &Rota) -> Result<(), String> {
    let shown = client(place, &["show"])?;
    expect(shown.status == Some(0), || {
        format!("show: {}", shown.message)
    })?;
    let names: Vec<&str> = shown
        .output
        .lines()
        .filter(|line| line.trim_start().starts_with(|c: char| c.is_ascii_digit()))
        .filter_map(|line| line.split_whitespace().last())
        .collect();
    expect(names == rota.names(), || format!("show: {names:?}"))
}

pub fn swap_and_restart(place: &Place) -> Result<(), String> {
    let before = Rota::fresh();
    let (_, after) = before.swap(0, 2);
    let server = Server::fresh(place)?;
    place.has(&before)?;
    shows(place, &before)?;
    let shown = client(place, &["swap", "1", "3"])?;
    expect(
        shown.status == Some(0) && shown.output.contains("The answer is 0, carried out."),
        || format!("swap: {} {}", shown.output, shown.message),
    )?;
    place.has(&after)?;
    shows(place, &after)?;
    server.kill()?;
    place.has(&after)?;
    let _server = Server::again(place)?;
    place.has(&after)?;
    shows(place, &after)
}

pub fn refused(place: &Place) -> Result<(), String> {
    let before = Rota::fresh();
    let _server = Server::fresh(place)?;
    let number = place.file_number()?;
    for (words, due) in [
        (
            ["swap", "1", "4"],
            "The answer is 11, refused: the caller has no permission",
        ),
        (["swap", "2", "2"], "The answer is 16, not written"),
    ] {
        let shown = client(place, &words)?;
        expect(
            shown.status == Some(1)
                && shown.output.contains(due)
                && shown.output.contains("Nothing was changed"),
            || format!("{words:?}: {} {}", shown.output, shown.message),
        )?;
        place.has(&before)?;
        shows(place, &before)?;
        expect(place.file_number()? == number, || {
            "the file was written anew".to_string()
        })?;
    }
    let (_, after) = before.swap(0, 3);
    let shown = client(place, &["--office", "swap", "1", "4"])?;
    expect(shown.status == Some(0), || shown.message)?;
    place.has(&after)
}

pub fn usage(place: &Place) -> Result<(), String> {
    for words in [
        &[][..],
        &["swap"],
        &["swap", "1"],
        &["swap", "0", "1"],
        &["swap", "1", "7"],
        &["swap", "1", "22"],
        &["swap", "1", "2", "3"],
        &["show", "1"],
        &["dance"],
    ] {
        let shown = client(place, words)?;
        expect(
            shown.status == Some(2) && shown.message.starts_with("usage:"),
            || format!("{words:?}: {:?} {}", shown.status, shown.message),
        )?;
    }
    let shown = client(place, &["show"])?;
    expect(
        shown.status == Some(2) && shown.message.starts_with("client: "),
        || format!("with no server: {:?} {}", shown.status, shown.message),
    )
}

/// What the server answers and keeps is what the reference answers, command by command.
pub fn random_commands(place: &Place) -> Result<(), String> {
    let mut random = Random::new(1);
    let mut rota = Rota::fresh();
    let mut server = Server::fresh(place)?;
    let mut changes = 0;
    for round in 0..8 {
        let mut peer = Peer::connect(&place.socket())?;
        for _ in 0..25 {
            let command = commands::draw(&mut random);
            let input_length = random.below(1000) as usize;
            let number = place.file_number()?;
            let (due, after) = rota.answered(&command, input_length);
            let answer = peer.ask(&command, input_length as u32)?;
            let sense = numbers::sense(due.number);
            let is_read = command.cdb[8..10] == Action::Read.code().to_be_bytes();
            let moved = if is_read { due.count as usize } else { 0 };
            let due_answer = Answer {
                number: due.number,
                key: sense.key.into(),
                code: sense.code.into(),
                status: if due.number == 0 { 0 } else { 2 },
                count: due.count,
                next_length: due.record.logical_length,
                input: due.data_in[..moved].to_vec(),
            };
            expect(answer == due_answer, || {
                format!("{answer:?} instead of {due_answer:?}")
            })?;
            let is_change = due.number == 0 && !is_read;
            expect((place.file_number()? != number) == is_change, || {
                format!(
                    "number {}, and the file is written anew: {}",
                    due.number, !is_change
                )
            })?;
            changes += u64::from(is_change);
            rota = after;
            place.has(&rota)?;
        }
        if round % 2 == 1 {
            server.kill()?;
            server = Server::again(place)?;
        }
    }
    expect(changes > 50, || format!("only {changes} changes"))
}

pub fn not_kept(place: &Place) -> Result<(), String> {
    let before = Rota::fresh();
    let (command, after) = before.swap(0, 2);
    let _server = Server::fresh(place)?;
    // A folder stands where the new file is to be made.
    fs::create_dir(place.new_file()).map_err(|error| error.to_string())?;
    let mut peer = Peer::connect(&place.socket())?;
    peer.send(&super::super::frames::request(&command, 0));
    let reason = peer.refusal(2)?;
    expect(
        reason.starts_with("not kept, and the object is as it was"),
        || reason,
    )?;
    let shown = client(place, &["swap", "1", "3"])?;
    expect(
        shown.status == Some(2) && shown.message.contains("not kept"),
        || format!("{:?} {}", shown.status, shown.message),
    )?;
    place.has(&before)?;
    shows(place, &before)?;
    fs::remove_dir(place.new_file()).map_err(|error| error.to_string())?;
    Peer::connect(&place.socket())?.ask(&command, 0)?;
    place.has(&after)?;
    shows(place, &after)
}

pub fn left_new_file(place: &Place) -> Result<(), String> {
    let mut rota = Rota::fresh();
    Server::fresh(place)?.kill()?;
    for left in [&[][..], b"half of somethi", &vec![7; 2 * SLICE_BYTES]] {
        fs::write(place.new_file(), left).map_err(|error| error.to_string())?;
        let _server = Server::again(place)?;
        let (command, after) = rota.swap(0, 2);
        let answer = Peer::connect(&place.socket())?.ask(&command, 0)?;
        expect(answer.number == 0, || format!("{answer:?}"))?;
        place.has(&after)?;
        expect(!place.new_file().exists(), || {
            "the new file is still there".to_string()
        })?;
        rota = after;
    }
    Ok(())
}
