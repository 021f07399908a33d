//! Starts: on files that are no object's, and where something stands in the way.

use super::super::file::{with_sum, HEAD_BYTES};
use super::super::process::{Ended, Server};
use super::super::rota::{Rota, SLICE_BYTES};
use super::super::{expect, Place};
use super::swaps::shows;
use crate::random::Random;
use std::fs;
use std::path::Path;

/// The server must end with status 1, and say what is wrong with what.
fn fails(
    place: &Place,
    options: &[&str],
    socket: &Path,
    file: &Path,
    due: &str,
) -> Result<(), String> {
    match Server::try_start(place, options, socket, file, None)? {
        Err(Ended { status, message }) => expect(
            status == Some(1) && message.starts_with("server: ") && message.contains(due),
            || format!("'{due}' is due, and not {status:?} '{message}'"),
        ),
        Ok(_) => Err(format!("it serves, and '{due}' is due")),
    }
}

pub fn damaged(place: &Place) -> Result<(), String> {
    let sound = Rota::fresh().file();
    for (bytes, due) in damaged_files(&sound) {
        fs::write(place.file(), &bytes).map_err(|error| error.to_string())?;
        fails(place, &[], &place.socket(), &place.file(), due)?;
        expect(place.bytes()? == bytes, || {
            "the damaged file was changed".to_string()
        })?;
    }
    fs::write(place.file(), &sound).map_err(|error| error.to_string())?;
    let _server = Server::again(place)?;
    shows(place, &Rota::fresh())
}

fn damaged_files(sound: &[u8]) -> Vec<(Vec<u8>, &'static str)> {
    let mut random = Random::new(3);
    let mut files = vec![
        (b"".to_vec(), "no object's file"),
        (b"something else".to_vec(), "no object's file"),
        ([sound, b"\0"].concat(), "goes on"),
    ];
    for length in [1, 7, 8, HEAD_BYTES - 1] {
        files.push((sound[..length].to_vec(), "no object's file"));
    }
    for length in [HEAD_BYTES, HEAD_BYTES + 1, 30_000, sound.len() - 1] {
        files.push((sound[..length].to_vec(), "ends early"));
    }
    for _ in 0..12 {
        let mut file = sound.to_vec();
        file[HEAD_BYTES + random.index(sound.len() - HEAD_BYTES)] ^= 1 << random.below(8);
        files.push((file, "sum"));
    }
    // Wrong in itself, with a sum that fits.
    let changed = |at: usize, byte: u8| {
        let mut file = sound[..HEAD_BYTES + SLICE_BYTES].to_vec();
        file[at] = byte;
        with_sum(file)
    };
    files.push((changed(12, 2), "over 16777216"));
    files.push((changed(8, 0xFF), "over 16777216"));
    files.push((changed(37, 1), "longer than its slice"));
    files.push((changed(0, b'h'), "no object's file"));
    // The slice's length says less, or more, than there is.
    files.push((changed(14, 0xFF), "ends early"));
    files
}

pub fn refused(place: &Place) -> Result<(), String> {
    let (socket, file) = (place.socket(), place.file());
    fails(place, &[], &socket, &file, "--fresh makes one")?;
    expect(!file.exists(), || "a file was made".to_string())?;
    let nowhere = place.folder.join("nowhere").join("rota");
    fails(place, &["--fresh"], &socket, &nowhere, "No such file")?;
    fails(place, &[], &socket, &place.folder, "Is a directory")?;
    let mut server = Server::fresh(place)?;
    let other_socket = place.folder.join("other");
    fails(place, &[], &other_socket, &file, "another server has it")?;
    let other_file = place.folder.join("other-rota");
    fails(
        place,
        &["--fresh"],
        &socket,
        &other_file,
        "another server listens there",
    )?;
    fails(
        place,
        &[],
        &other_file,
        &other_file,
        "it is there already, and is no socket",
    )?;
    let long = place.folder.join("s".repeat(108));
    fails(place, &[], &long, &other_file, "at most 107 bytes")?;
    shows(place, &Rota::fresh())?;
    expect(server.is_alive(), || "the server has ended".to_string())?;
    server.kill()?;
    fails(
        place,
        &["--fresh"],
        &socket,
        &file,
        "it is there already, and stays as it is",
    )?;
    for options in [
        &["--turn", "0"][..],
        &["--turn", "1s"],
        &["--turn"],
        &["--soon"],
    ] {
        match Server::try_start(place, options, &socket, &file, None)? {
            Err(ended) if ended.status == Some(2) && ended.message.starts_with("usage:") => {}
            Err(ended) => return Err(format!("{options:?}: {ended:?}")),
            Ok(_) => return Err(format!("{options:?}: it serves")),
        }
    }
    place.has(&Rota::fresh())
}

pub fn left_socket(place: &Place) -> Result<(), String> {
    Server::fresh(place)?.kill()?;
    expect(place.socket().exists(), || {
        "a kill leaves no socket, and there is nothing to check".to_string()
    })?;
    let _server = Server::again(place)?;
    shows(place, &Rota::fresh())
}
