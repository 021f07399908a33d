//! The table of numbers: its rows in the order they are tested, and the sense of each number.

use crate::capability::{Capability, Place};
use crate::command::{self, Action, Fields, Range};
use crate::record::Record;
use crate::segment::{self, Contents};
use crate::{admission, bytes};

pub type Number = u32;

pub const CARRIED_OUT: Number = 0;
pub const READ_ENDED_EARLY: Number = 15;

pub const MOST_SLICE_BYTES: usize = 16_777_216;

/// A command that rows 2 to 8 let through: all of it can be read.
#[derive(Clone, Debug)]
pub struct Command<'a> {
    pub action: Action,
    pub fields: Fields,
    /// The list's entries; none where the segment has no list, which isn't the same as an empty one.
    pub list: Option<Vec<Range>>,
    /// The CDB's capability, then those of the segment as they follow each other.
    pub capabilities: Vec<(Place, Capability)>,
    /// What Data-Out has after the segment.
    pub data: &'a [u8],
}

impl Command<'_> {
    /// The list's entries, or without a list the one range of the CDB.
    pub fn ranges(&self) -> Vec<Range> {
        if let Some(entries) = &self.list {
            return entries.clone();
        }
        vec![Range {
            start: self.fields.starting_byte_address,
            length: self.fields.length,
        }]
    }
}

/// Rows 1 to 14 in their order: the command that none of them refuses, or the first that does.
pub fn first_refusal<'a>(
    cdb: &[u8],
    out: &'a [u8],
    record: &Record,
    slice_length: usize,
    data_in_length: usize,
) -> Result<Command<'a>, Number> {
    if row_1(record, slice_length) {
        return Err(1);
    }
    let command = rows_2_to_8(cdb, out, record)?;
    if row_9(&command) {
        return Err(9);
    }
    if row_10(&command) {
        return Err(10);
    }
    if row_11(&command, record) {
        return Err(11);
    }
    if row_12(&command, record) {
        return Err(12);
    }
    if row_13(&command, data_in_length) {
        return Err(13);
    }
    if row_14(&command, record, slice_length) {
        return Err(14);
    }
    Ok(command)
}

/// Rows 2 to 8 by themselves, because the admission question stops after them.
pub fn rows_2_to_8<'a>(cdb: &[u8], out: &'a [u8], record: &Record) -> Result<Command<'a>, Number> {
    if row_2(cdb) {
        return Err(2);
    }
    let fields = Fields::of(cdb);
    let Some(action) = Action::from_code(u64::from(fields.service_action)) else {
        return Err(3);
    };
    if row_4(&fields, record) {
        return Err(4);
    }
    if row_5(&fields, out) {
        return Err(5);
    }
    let (segment, data) = out.split_at(fields.continuation_length as usize);
    if row_6(&fields, segment) {
        return Err(6);
    }
    let Ok(contents) = segment::walk(segment) else {
        return Err(7);
    };
    if row_8(action, &contents) {
        return Err(8);
    }
    Ok(Command {
        action,
        fields,
        list: contents
            .list
            .map(|list| segment::list_entries(segment, &list)),
        capabilities: capabilities(cdb, segment, &contents),
        data,
    })
}

fn row_1(record: &Record, slice_length: usize) -> bool {
    slice_length > MOST_SLICE_BYTES || record.logical_length > slice_length as u64
}

fn row_2(cdb: &[u8]) -> bool {
    cdb.len() != command::CDB_BYTES
        || cdb[0] != command::OPERATION_CODE
        || cdb[7] != command::ADDITIONAL_LENGTH
}

fn row_4(fields: &Fields, record: &Record) -> bool {
    fields.partition_id != record.partition_id || fields.user_object_id != record.user_object_id
}

fn row_5(fields: &Fields, out: &[u8]) -> bool {
    let length = fields.continuation_length as usize;
    if length == 0 {
        return false;
    }
    !(segment::HEADER_BYTES..=segment::MOST_BYTES).contains(&length) || length > out.len()
}

fn row_6(fields: &Fields, segment: &[u8]) -> bool {
    if segment.is_empty() {
        return false;
    }
    segment[0] != segment::FORMAT || bytes::get_u16(segment, 2) != fields.service_action
}

fn row_8(action: Action, contents: &Contents) -> bool {
    contents.list.is_some() && !action.may_have_list()
}

fn row_9(command: &Command) -> bool {
    command.list.is_some() && command.fields.starting_byte_address != 0
}

fn row_10(command: &Command) -> bool {
    let Some(entries) = &command.list else {
        return false;
    };
    if command::total_length(entries) != u128::from(command.fields.length) {
        return true;
    }
    command.action == Action::Write && command::any_two_share_a_position(entries)
}

fn row_11(command: &Command, record: &Record) -> bool {
    !admission::admitted(command, record)
}

/// Every range is asked before anything is read or moved, empty and later ones too.
fn row_12(command: &Command, record: &Record) -> bool {
    if !matches!(command.action, Action::Read | Action::Punch) {
        return false;
    }
    command
        .ranges()
        .iter()
        .any(|range| range.start > record.logical_length)
}

fn row_13(command: &Command, data_in_length: usize) -> bool {
    match command.action {
        Action::Read => command.fields.length > data_in_length as u64,
        Action::Write => command.fields.length > command.data.len() as u64,
        Action::Clear | Action::Punch => false,
    }
}

fn row_14(command: &Command, record: &Record, slice_length: usize) -> bool {
    if !matches!(command.action, Action::Write | Action::Clear) {
        return false;
    }
    let raised = length_after_writing(&command.ranges(), record);
    // A length already above its maximum is no fault until raised.
    if raised == u128::from(record.logical_length) {
        return false;
    }
    raised > u128::from(record.maximum_length) || raised > slice_length as u128
}

/// The larger of the logical length and the highest written position plus one. An empty range
/// writes no position, so it raises nothing wherever it stands.
pub fn length_after_writing(ranges: &[Range], record: &Record) -> u128 {
    ranges
        .iter()
        .filter(|range| !range.is_empty())
        .map(|range| range.end())
        .fold(u128::from(record.logical_length), u128::max)
}

fn capabilities(cdb: &[u8], segment: &[u8], contents: &Contents) -> Vec<(Place, Capability)> {
    let in_segment = contents
        .extension
        .iter()
        .flat_map(segment::capability_offsets);
    std::iter::once(Place::Cdb)
        .chain(in_segment.map(Place::Segment))
        .map(|place| (place, Capability::from_bytes(place.bytes(cdb, segment))))
        .collect()
}

#[derive(Clone, Copy, Debug, PartialEq, Eq)]
pub struct Sense {
    pub key: u8,
    pub code: u16,
}

/// The sense of an engine's number; the writer's numbers have none.
pub fn sense(number: Number) -> Sense {
    let (key, code) = match number {
        0 => (0, 0x0000),
        1 => (4, 0x4400),
        2 => (5, 0x2000),
        3 | 4 | 5 | 9 | 11 | 12 | 13 => (5, 0x2400),
        6 | 7 | 8 | 10 => (5, 0x2600),
        14 => (7, 0x5507),
        15 => (1, 0x3B17),
        _ => panic!("{number} is not a number of the engine"),
    };
    Sense { key, code }
}

#[derive(Clone, Copy, Debug, PartialEq, Eq)]
pub enum Status {
    Good,
    CheckCondition,
}

pub fn status(number: Number) -> Status {
    match number {
        CARRIED_OUT => Status::Good,
        _ => Status::CheckCondition,
    }
}

/// Numbers 1 to 14: nothing was carried out.
pub fn is_refusal(number: Number) -> bool {
    (1..=14).contains(&number)
}
