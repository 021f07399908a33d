//! The engine: one call, and what each of the four commands does.

use crate::command::{Action, Range};
use crate::numbers::{self, Command, Number, CARRIED_OUT, READ_ENDED_EARLY};
use crate::record::Record;

/// The answer, and everything lent as it is afterwards.
#[derive(Clone, Debug, PartialEq, Eq)]
pub struct Answer {
    pub number: Number,
    pub count: u64,
    pub record: Record,
    pub slice: Vec<u8>,
    pub data_in: Vec<u8>,
}

pub fn answer(cdb: &[u8], out: &[u8], record: Record, slice: &[u8], data_in: &[u8]) -> Answer {
    let unchanged = Answer {
        number: CARRIED_OUT,
        count: 0,
        record,
        slice: slice.to_vec(),
        data_in: data_in.to_vec(),
    };
    // All refusals are known before the first byte moves.
    let command = match numbers::first_refusal(cdb, out, &record, slice.len(), data_in.len()) {
        Ok(command) => command,
        Err(number) => {
            return Answer {
                number,
                ..unchanged
            }
        }
    };
    match command.action {
        Action::Read => read(&command, unchanged),
        Action::Write => write(&command, command.data, unchanged),
        Action::Clear => clear(&command, unchanged),
        Action::Punch => punch(&command, unchanged),
    }
}

/// Puts the ranges' bytes, in list order, until a position isn't in the object.
fn read(command: &Command, before: Answer) -> Answer {
    let mut after = before;
    for position in positions(&command.ranges()) {
        if position >= u128::from(after.record.logical_length) {
            after.number = READ_ENDED_EARLY;
            return after;
        }
        after.data_in[after.count as usize] = after.slice[position as usize];
        after.count += 1;
    }
    after
}

/// Gives each position of the ranges, in list order, the next byte of `data`.
fn write(command: &Command, data: &[u8], before: Answer) -> Answer {
    let mut after = before;
    let old_length = after.record.logical_length;
    let ranges = command.ranges();
    let new_length = numbers::length_after_writing(&ranges, &after.record) as u64;
    // What the object grows over is zero first, so that no old byte of the slice shows in a gap.
    after.slice[old_length as usize..new_length as usize].fill(0);
    for (position, byte) in positions(&ranges).zip(data) {
        after.slice[position as usize] = *byte;
    }
    after.record = after.record.with_logical_length(new_length);
    after.count = command.fields.length;
    after
}

/// A WRITE of zeros. Row 14 bounds the range by the slice, except where it is empty.
fn clear(command: &Command, before: Answer) -> Answer {
    let zeros = vec![0; command.fields.length as usize];
    write(command, &zeros, before)
}

/// Removes the range, moves what follows down, and zeroes the tail that is freed.
fn punch(command: &Command, before: Answer) -> Answer {
    let mut after = before;
    let old_length = after.record.logical_length;
    let start = command.fields.starting_byte_address;
    // Row 12 has made sure of `start <= old_length`. Past the end there is nothing to remove.
    let removed = command.fields.length.min(old_length - start);
    let new_length = old_length - removed;
    for position in start..new_length {
        after.slice[position as usize] = after.slice[(position + removed) as usize];
    }
    after.slice[new_length as usize..old_length as usize].fill(0);
    after.record = after.record.with_logical_length(new_length);
    after.count = removed;
    after
}

/// Every position of every range, in list order.
fn positions(ranges: &[Range]) -> impl Iterator<Item = u128> + '_ {
    ranges
        .iter()
        .flat_map(|range| u128::from(range.start)..range.end())
}
