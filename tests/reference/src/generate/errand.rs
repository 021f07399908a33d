//! Requests to the writer together with an object for the written command to meet.

use super::object::{self, Object};
use super::request::{self, OwnedRequest};
use super::{amount, capabilities, ranges};
use crate::capability::Capability;
use crate::case::Case;
use crate::command::{Action, Range, CDB_BYTES};
use crate::face::Writing;
use crate::random::Random;
use crate::record::Record;
use crate::segment::MOST_BYTES;
use crate::writer;

pub struct Errand {
    pub request: OwnedRequest,
    record: Record,
    slice: Vec<u8>,
    data: Vec<u8>,
    data_in: Vec<u8>,
}

impl Errand {
    /// Half of them fit their object. The others are mostly refused somewhere, also by the writer.
    pub fn draw(random: &mut Random) -> Errand {
        match random.below(4) {
            0 => {
                let request = request::sound(random);
                any_object(random, request)
            }
            1 => {
                let request = request::slipped(random);
                any_object(random, request)
            }
            _ => fitting(random),
        }
    }

    /// The written command as a call.
    pub fn case(&self, cdb: &[u8], segment: &[u8]) -> Case {
        Case {
            cdb: cdb.to_vec(),
            out: [segment, &self.data].concat(),
            record: self.record,
            slice: self.slice.clone(),
            data_in: self.data_in.clone(),
        }
    }
}

/// The request with buffers that are exactly right, a byte short, or longer, full of random bytes:
/// those past the written ones must stay.
pub fn writing(random: &mut Random, request: &OwnedRequest) -> Writing {
    let needed = segment_length(request);
    let cdb_size = match random.below(8) {
        0 => random.pick(&[0, 1, CDB_BYTES - 1]),
        1 => CDB_BYTES + 1 + random.index(20),
        _ => CDB_BYTES,
    };
    let segment_size = match random.below(8) {
        0 => needed.saturating_sub(1),
        1 => needed + 1 + random.index(100),
        2 => random.pick(&[0, 1, MOST_BYTES]),
        _ => needed,
    };
    let flags = match request.has_list {
        true => [1, 1, 2, 1 << 16, 1 << 31, u32::MAX],
        false => [0; 6],
    };
    Writing {
        request: request.clone(),
        flag: random.pick(&flags),
        cdb: random.bytes(cdb_size),
        segment: random.bytes(segment_size),
    }
}

/// Zero for a request that is refused.
fn segment_length(request: &OwnedRequest) -> usize {
    let mut cdb = [0; CDB_BYTES];
    let mut segment = [0; MOST_BYTES];
    writer::write(&request.borrow(), &mut cdb, &mut segment).1 as usize
}

/// An object with the request's identifiers, else of any kind.
fn any_object(random: &mut Random, request: OwnedRequest) -> Errand {
    let object = object::draw(random, false);
    let record = Record {
        partition_id: request.partition_id,
        user_object_id: request.user_object_id,
        ..object.record
    };
    let data = random.bytes(50);
    let data_in = random.bytes(50);
    Errand {
        request,
        record,
        slice: object.slice,
        data,
        data_in,
    }
}

/// A request made for its object: capabilities that admit it, and as much data as it uses.
fn fitting(random: &mut Random) -> Errand {
    let object = object::draw(random, false);
    let action = random.pick(&Action::ALL);
    let has_list = action.may_have_list() && random.one_in(2);
    let mut ranges = ranges::draw(random, &object, action, has_list);
    if random.one_in(6) {
        ranges::slip(random, &object, action, has_list, &mut ranges);
    }
    let mut capabilities = capabilities::draw(random, &object.record, action, &ranges);
    if random.one_in(6) {
        capabilities::slip(random, &object.record, action, &ranges, &mut capabilities);
    }
    let request = request_for(random, &object, action, has_list, &ranges, &capabilities);
    let length = ranges
        .iter()
        .fold(0u64, |sum, range| sum.wrapping_add(range.length));
    let data = amount(random, action == Action::Write, length);
    let data_in = amount(random, action == Action::Read, length);
    Errand {
        request,
        record: object.record,
        slice: object.slice,
        data,
        data_in,
    }
}

fn request_for(
    random: &mut Random,
    object: &Object,
    action: Action,
    has_list: bool,
    ranges: &[Range],
    capabilities: &[Capability],
) -> OwnedRequest {
    let (start, length) = match has_list {
        true => (0, random.number()),
        false => (ranges[0].start, ranges[0].length),
    };
    OwnedRequest {
        service_action: action.code().into(),
        partition_id: object.record.partition_id,
        user_object_id: object.record.user_object_id,
        start,
        length,
        has_list,
        offsets: ranges.iter().map(|range| range.start).collect(),
        lengths: ranges.iter().map(|range| range.length).collect(),
        capabilities: capability_bytes(random, capabilities),
    }
}

/// The bytes that have no name are random: they must come through as they are.
fn capability_bytes(random: &mut Random, capabilities: &[Capability]) -> Vec<u8> {
    let mut all = random.bytes(capabilities.len() * Capability::BYTES);
    for (capability, place) in capabilities
        .iter()
        .zip(all.chunks_exact_mut(Capability::BYTES))
    {
        capability.put(place);
    }
    all
}
