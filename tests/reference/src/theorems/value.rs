//! Values as the book's language writes them.

use crate::capability::Place;
use crate::case::Case;
use crate::command::{Range, CAPABILITY_AT};
use crate::generate::request::OwnedRequest;
use crate::numbers::Status;
use crate::record::Record;
use crate::segment::{Cause, Contents, Descriptor, Fault};
use std::fmt::Display;

pub fn list<T: Display>(items: &[T]) -> String {
    let items: String = items.iter().map(|item| format!("{item} ∷ ")).collect();
    format!("({items}[])")
}

/// So many bytes of one value.
pub fn filled(size: usize, byte: u8) -> String {
    format!("(replicate {size} {byte})")
}

pub fn record(record: &Record) -> String {
    format!(
        "(record {{ partition = {}; object = {}; length = {}; maximum = {}; tag = {}; epoch = {} }})",
        record.partition_id,
        record.user_object_id,
        record.logical_length,
        record.maximum_length,
        record.policy_access_tag,
        record.boot_epoch,
    )
}

pub fn range(range: Range) -> String {
    let Range { start, length } = range;
    format!("(record {{ start = {start}; size = {length} }})")
}

/// A call without what is lent: CDB and Data-Out, with the record of the object that they meet.
pub fn command(case: &Case) -> String {
    format!(
        "record {{ cdb = {}; out = {}; on = {} }}",
        list(&case.cdb),
        list(&case.out),
        record(&case.record)
    )
}

/// The status byte that goes with a number: GOOD, or CHECK CONDITION.
pub fn status(status: Status) -> &'static str {
    match status {
        Status::Good => "0x00",
        Status::CheckCondition => "0x02",
    }
}

/// A capability as its bytes and the place where they stand; `None` where no capability admits.
pub fn held(place: Option<Place>, cdb: &[u8], out: &[u8]) -> String {
    let Some(place) = place else {
        return "None".to_string();
    };
    let (lent, at) = match place {
        Place::Cdb => ("in_cdb", CAPABILITY_AT),
        Place::Segment(offset) => ("in_out", offset),
    };
    let bytes = list(place.bytes(cdb, out));
    format!("(Some (record {{ lent = {lent}; at = {at}; bytes = {bytes} }}))")
}

pub fn walk(walk: Result<Contents, Fault>) -> String {
    match walk {
        Ok(contents) => format!(
            "(Ok (record {{ list = {}; extension = {} }}))",
            spot(contents.list),
            spot(contents.extension),
        ),
        Err(fault) => format!("(Err (fault {} {}))", cause(fault.cause), fault.offset),
    }
}

fn spot(descriptor: Option<Descriptor>) -> String {
    match descriptor {
        None => "None".to_string(),
        Some(descriptor) => format!(
            "Some (record {{ at = {}; size = {} }})",
            descriptor.data_at, descriptor.data_length
        ),
    }
}

fn cause(cause: Cause) -> &'static str {
    match cause {
        Cause::UnknownType => "Unknown",
        Cause::DataOverSupportedLength => "Over",
        Cause::DataAndPadNoMultipleOfEight => "Padding",
        Cause::DataDoesNotFitType => "Misfit",
        Cause::RunsPastSegment => "Past",
        Cause::TypeRepeated => "Repeated",
        Cause::RemainderNotZero => "Remainder",
    }
}

pub fn request(request: &OwnedRequest) -> String {
    format!(
        "(record {{ action = {}; partition = {}; object = {}; start = {}; size = {}; listed = {}; \
         offsets = {}; lengths = {}; capabilities = {} }})",
        request.service_action,
        request.partition_id,
        request.user_object_id,
        request.start,
        request.length,
        request.has_list,
        list(&request.offsets),
        list(&request.lengths),
        list(&request.capabilities),
    )
}
