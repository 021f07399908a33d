//! The C face of an engine: what can be asked through it, what is answered, and what the reference
//! answers.

use crate::admission;
use crate::capability::{Capability, Place};
use crate::case::Case;
use crate::command::{Range, CAPABILITY_AT};
use crate::engine::Answer;
use crate::generate::request::OwnedRequest;
use crate::numbers::{self, Number, Sense, Status};
use crate::writer;

#[derive(Clone, Debug, PartialEq, Eq)]
pub enum Request {
    Execute(Case),
    /// Which capability admits the range. Of the case, slice and Data-In aren't asked.
    Admission(Case, Range),
    Write(Writing),
    Sense(Number),
}

/// A request to the writer, with the buffers as they are before it.
#[derive(Clone, Debug, PartialEq, Eq)]
pub struct Writing {
    pub request: OwnedRequest,
    /// How a C caller says that there is a list: with any number but zero.
    pub flag: u32,
    pub cdb: Vec<u8>,
    pub segment: Vec<u8>,
}

#[derive(Clone, Debug, PartialEq, Eq)]
pub enum Reply {
    Executed(Executed),
    Admitted(Admitted),
    Written(Written),
    Sensed(Sensed),
}

#[derive(Clone, Debug, PartialEq, Eq)]
pub struct Executed {
    pub number: Number,
    pub sense: Sensed,
    pub count: u64,
    pub next_length: u64,
    pub slice: Vec<u8>,
    pub data_in: Vec<u8>,
    /// Whether CDB and Data-Out are as they were.
    pub kept: bool,
}

#[derive(Clone, Debug, PartialEq, Eq)]
pub struct Admitted {
    /// 0 for none, 1 for the CDB's, 2 for one in Data-Out.
    pub place: u32,
    pub offset: u64,
    /// The bytes at that place; none where there is no such place.
    pub capability: Vec<u8>,
    pub kept: bool,
}

#[derive(Clone, Debug, PartialEq, Eq)]
pub struct Written {
    pub number: Number,
    pub segment_length: u64,
    pub cdb: Vec<u8>,
    pub segment: Vec<u8>,
    pub kept: bool,
}

#[derive(Clone, Copy, Debug, PartialEq, Eq)]
pub struct Sensed {
    pub key: u32,
    pub code: u32,
    pub status: u32,
}

/// The reference's reply.
pub fn answer(request: &Request) -> Reply {
    match request {
        Request::Execute(case) => Reply::Executed(executed(&case.answer())),
        Request::Admission(case, range) => Reply::Admitted(admitted(case, *range)),
        Request::Write(writing) => Reply::Written(written(writing)),
        Request::Sense(number) => Reply::Sensed(sensed(*number)),
    }
}

/// An engine's answer as the C face hands it back: of the record, the length alone.
pub fn executed(answer: &Answer) -> Executed {
    Executed {
        number: answer.number,
        sense: sensed(answer.number),
        count: answer.count,
        next_length: answer.record.logical_length,
        slice: answer.slice.clone(),
        data_in: answer.data_in.clone(),
        kept: true,
    }
}

fn admitted(case: &Case, range: Range) -> Admitted {
    let (place, offset) = match admission::question(&case.cdb, &case.out, &case.record, range) {
        None => (0, 0),
        Some(Place::Cdb) => (1, CAPABILITY_AT),
        Some(Place::Segment(offset)) => (2, offset),
    };
    Admitted {
        place,
        offset: offset as u64,
        capability: capability_at(case, place, offset as u64),
        kept: true,
    }
}

/// The 104 bytes at a place as the C face names it; fewer or none where they aren't there.
pub fn capability_at(case: &Case, place: u32, offset: u64) -> Vec<u8> {
    let bytes: &[u8] = match place {
        1 => &case.cdb,
        2 => &case.out,
        _ => &[],
    };
    let first = usize::try_from(offset).unwrap_or(usize::MAX);
    let from_there = bytes.get(first..).unwrap_or(&[]);
    from_there[..from_there.len().min(Capability::BYTES)].to_vec()
}

fn written(writing: &Writing) -> Written {
    let mut cdb = writing.cdb.clone();
    let mut segment = writing.segment.clone();
    let (number, segment_length) = writer::write(&writing.request.borrow(), &mut cdb, &mut segment);
    Written {
        number,
        segment_length,
        cdb,
        segment,
        kept: true,
    }
}

/// Numbers that aren't the engine's have no sense, and yet a status.
pub fn sensed(number: Number) -> Sensed {
    let Sense { key, code } = match number {
        0..=15 => numbers::sense(number),
        _ => Sense { key: 0, code: 0 },
    };
    Sensed {
        key: key.into(),
        code: code.into(),
        status: match numbers::status(number) {
            Status::Good => 0,
            Status::CheckCondition => 2,
        },
    }
}

/// What differs between the reply that is due and the one that was given, a line each.
pub fn differences(due: &Reply, given: &Reply) -> Vec<String> {
    match (due, given) {
        (Reply::Executed(due), Reply::Executed(given)) => executed_differences(due, given),
        (Reply::Admitted(due), Reply::Admitted(given)) => admitted_differences(due, given),
        (Reply::Written(due), Reply::Written(given)) => written_differences(due, given),
        (Reply::Sensed(due), Reply::Sensed(given)) => sensed_differences(due, given),
        _ => vec!["a reply of another kind".to_string()],
    }
}

fn executed_differences(due: &Executed, given: &Executed) -> Vec<String> {
    let mut all = told_differences(due, given);
    all.extend(in_bytes("object", &due.slice, &given.slice));
    all.extend(in_kept(due.kept, given.kept));
    all
}

/// Of two answers, what a caller sees: everything but the object.
pub fn told_differences(due: &Executed, given: &Executed) -> Vec<String> {
    let mut all = Vec::new();
    all.extend(in_number("number", due.number, given.number));
    all.extend(sensed_differences(&due.sense, &given.sense));
    all.extend(in_number("count", due.count, given.count));
    all.extend(in_number(
        "logical length",
        due.next_length,
        given.next_length,
    ));
    all.extend(in_bytes("Data-In", &due.data_in, &given.data_in));
    all
}

fn admitted_differences(due: &Admitted, given: &Admitted) -> Vec<String> {
    let mut all = Vec::new();
    all.extend(in_number("place", due.place, given.place));
    all.extend(in_number("offset", due.offset, given.offset));
    all.extend(in_bytes("capability", &due.capability, &given.capability));
    all.extend(in_kept(due.kept, given.kept));
    all
}

fn written_differences(due: &Written, given: &Written) -> Vec<String> {
    let mut all = Vec::new();
    all.extend(in_number("number", due.number, given.number));
    all.extend(in_number(
        "segment length",
        due.segment_length,
        given.segment_length,
    ));
    all.extend(in_bytes("CDB buffer", &due.cdb, &given.cdb));
    all.extend(in_bytes("segment buffer", &due.segment, &given.segment));
    all.extend(in_kept(due.kept, given.kept));
    all
}

fn sensed_differences(due: &Sensed, given: &Sensed) -> Vec<String> {
    let mut all = Vec::new();
    all.extend(in_number("key", due.key, given.key));
    if due.code != given.code {
        all.push(format!(
            "code is {:04X} and not {:04X}",
            given.code, due.code
        ));
    }
    all.extend(in_number("status", due.status, given.status));
    all
}

fn in_number<T: PartialEq + std::fmt::Display>(name: &str, due: T, given: T) -> Option<String> {
    (due != given).then(|| format!("{name} is {given} and not {due}"))
}

/// Names the first byte that differs, and how many do.
fn in_bytes(name: &str, due: &[u8], given: &[u8]) -> Option<String> {
    if due.len() != given.len() {
        let (due, given) = (due.len(), given.len());
        return Some(format!("{name} has {given} bytes and not {due}"));
    }
    let other: Vec<usize> = (0..due.len())
        .filter(|&index| due[index] != given[index])
        .collect();
    let first = *other.first()?;
    Some(format!(
        "{name}: {} bytes differ; byte {first} is {:02x} and not {:02x}",
        other.len(),
        given[first],
        due[first]
    ))
}

fn in_kept(due: bool, given: bool) -> Option<String> {
    (due != given).then(|| "bytes that were lent only to be read have changed".to_string())
}
