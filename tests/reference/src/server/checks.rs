//! The checks, each on a fresh object in a folder of its own.

mod bytes;
mod clients;
mod kills;
mod start;
mod swaps;

use super::{Place, Programs, Tally};
use std::path::Path;

type Check = fn(&Place) -> Result<(), String>;

const CHECKS: &[(&str, Check)] = &[
    ("a swap, and a restart", swaps::swap_and_restart),
    ("a refused swap", swaps::refused),
    ("the client's words", swaps::usage),
    ("random commands", swaps::random_commands),
    ("a change that can't be kept", swaps::not_kept),
    ("a new file that was left", swaps::left_new_file),
    ("two clients at once", clients::two_at_once),
    ("one turn after the other", clients::turns),
    ("a client that says nothing", clients::silent),
    ("a client that stops in its request", clients::halting),
    ("a client that trickles", clients::trickling),
    ("a client that doesn't read", clients::not_reading),
    (
        "a client gone before its answer",
        clients::gone_before_answer,
    ),
    ("a request cut off anywhere", bytes::cut_off_anywhere),
    ("bytes that are no request", bytes::no_request),
    ("random bytes", bytes::random_bytes),
    ("requests at the limits", bytes::limits),
    ("bytes behind a request", bytes::behind_a_request),
    ("files that are no object's", start::damaged),
    ("a start that must fail", start::refused),
    ("a socket that was left", start::left_socket),
];

/// Runs all of them, in folders inside `work`, with so many kills at random moments.
pub fn run(programs: &Programs, work: &Path, kills: u64, tally: &mut Tally) {
    for (index, (name, check)) in CHECKS.iter().enumerate() {
        let outcome =
            Place::new(programs, work, &index.to_string()).and_then(|place| check(&place));
        tally.count(name, outcome);
    }
    for moment in kills::MOMENTS {
        let outcome = Place::new(programs, work, moment.name)
            .and_then(|place| kills::at_moment(&place, moment));
        tally.count(&format!("a kill at '{}'", moment.name), outcome);
    }
    match Place::new(programs, work, "kills") {
        Ok(place) => kills::at_random(&place, kills, tally),
        Err(reason) => tally.count("kills", Err(reason)),
    }
}
