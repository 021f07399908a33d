//! The host's writer: a request becomes a CDB and, where needed, a segment.

use crate::bytes;
use crate::capability::Capability;
use crate::command::{self, Action, Fields, Range, CAPABILITY_AT, CDB_BYTES};
use crate::numbers::Number;
use crate::segment::{
    DESCRIPTOR_HEADER_BYTES, EXTENSION_TYPE, FORMAT, HEADER_BYTES, LIST_ENTRY_BYTES, LIST_TYPE,
    MOST_EXTENSION_CAPABILITIES, MOST_LIST_ENTRIES,
};

pub const WRITTEN: Number = 0;
pub const BAD_REQUEST: Number = 16;
pub const BUFFER_TOO_SHORT: Number = 17;

/// One capability for the CDB and as many as the segment may have.
pub const MOST_CAPABILITY_BYTES: usize = (1 + MOST_EXTENSION_CAPABILITIES) * Capability::BYTES;

#[derive(Clone, Copy, Debug)]
pub struct Request<'a> {
    /// Wider than the field, so that a number that doesn't fit it is refused and not cut.
    pub service_action: u64,
    pub partition_id: u64,
    pub user_object_id: u64,
    pub start: u64,
    /// Not used with a list: then LENGTH is the list's sum.
    pub length: u64,
    pub has_list: bool,
    /// Offsets and lengths of the list's entries. Without the flag neither is looked at.
    pub offsets: &'a [u64],
    pub lengths: &'a [u64],
    /// 104 bytes each; the first is for the CDB, the others for the segment.
    pub capabilities: &'a [u8],
}

/// What an acceptable request asks for, with nothing left to refuse but the buffers.
struct Plan<'a> {
    fields: Fields,
    cdb_capability: &'a [u8],
    list: Option<Vec<Range>>,
    extension: &'a [u8],
}

/// Writes the command, and answers 0 and the segment's length. A refusal answers its number and
/// 0, and comes before the first byte is written, so both buffers are as they were.
pub fn write(request: &Request, cdb_buffer: &mut [u8], segment_buffer: &mut [u8]) -> (Number, u64) {
    let Some(plan) = plan(request) else {
        return (BAD_REQUEST, 0);
    };
    let segment_length = plan.fields.continuation_length as usize;
    if cdb_buffer.len() < CDB_BYTES || segment_buffer.len() < segment_length {
        return (BUFFER_TOO_SHORT, 0);
    }
    write_cdb(&plan, &mut cdb_buffer[..CDB_BYTES]);
    write_segment(&plan, &mut segment_buffer[..segment_length]);
    (WRITTEN, segment_length as u64)
}

/// None where the request is refused with 16.
fn plan<'a>(request: &Request<'a>) -> Option<Plan<'a>> {
    let action = Action::from_code(request.service_action)?;
    if !capability_bytes_are_acceptable(request.capabilities) {
        return None;
    }
    let (cdb_capability, extension) = request.capabilities.split_at(Capability::BYTES);
    let mut fields = Fields {
        service_action: action.code(),
        partition_id: request.partition_id,
        user_object_id: request.user_object_id,
        length: request.length,
        starting_byte_address: request.start,
        continuation_length: 0,
    };
    let mut list = None;
    if request.has_list {
        let entries = acceptable_entries(action, request)?;
        fields.length = u64::try_from(command::total_length(&entries)).ok()?;
        list = Some(entries);
    }
    fields.continuation_length = segment_length(list.as_deref(), extension) as u32;
    Some(Plan {
        fields,
        cdb_capability,
        list,
        extension,
    })
}

fn capability_bytes_are_acceptable(capabilities: &[u8]) -> bool {
    !capabilities.is_empty()
        && capabilities.len() <= MOST_CAPABILITY_BYTES
        && capabilities.len() % Capability::BYTES == 0
}

/// The list's entries, or none where the list is refused. Its sum is left to the caller.
fn acceptable_entries(action: Action, request: &Request) -> Option<Vec<Range>> {
    if request.offsets.len() != request.lengths.len() || request.offsets.len() > MOST_LIST_ENTRIES {
        return None;
    }
    if !action.may_have_list() || request.start != 0 {
        return None;
    }
    let entries: Vec<Range> = std::iter::zip(request.offsets, request.lengths)
        .map(|(&start, &length)| Range { start, length })
        .collect();
    if action == Action::Write && command::any_two_share_a_position(&entries) {
        return None;
    }
    Some(entries)
}

/// With neither list nor extension there is no segment. A list without entries is a list.
fn segment_length(list: Option<&[Range]>, extension: &[u8]) -> usize {
    let list_bytes = match list {
        Some(entries) => DESCRIPTOR_HEADER_BYTES + entries.len() * LIST_ENTRY_BYTES,
        None => 0,
    };
    let extension_bytes = match extension.len() {
        0 => 0,
        length => DESCRIPTOR_HEADER_BYTES + length,
    };
    if list_bytes + extension_bytes == 0 {
        return 0;
    }
    HEADER_BYTES + list_bytes + extension_bytes
}

fn write_cdb(plan: &Plan, cdb: &mut [u8]) {
    cdb.fill(0);
    plan.fields.put(cdb);
    bytes::put(cdb, CAPABILITY_AT, plan.cdb_capability);
}

fn write_segment(plan: &Plan, segment: &mut [u8]) {
    if segment.is_empty() {
        return;
    }
    segment.fill(0);
    segment[0] = FORMAT;
    bytes::put_u16(segment, 2, plan.fields.service_action);
    let mut at = HEADER_BYTES;
    if let Some(entries) = &plan.list {
        let data: Vec<u8> = entries
            .iter()
            .flat_map(|entry| entry_bytes(*entry))
            .collect();
        at = write_descriptor(segment, at, LIST_TYPE, &data);
    }
    if !plan.extension.is_empty() {
        write_descriptor(segment, at, EXTENSION_TYPE, plan.extension);
    }
}

/// Writes one descriptor without pad, and answers where the next one begins.
fn write_descriptor(segment: &mut [u8], at: usize, code: u16, data: &[u8]) -> usize {
    bytes::put_u16(segment, at, code);
    bytes::put_u32(segment, at + 4, data.len() as u32);
    bytes::put(segment, at + DESCRIPTOR_HEADER_BYTES, data);
    at + DESCRIPTOR_HEADER_BYTES + data.len()
}

fn entry_bytes(entry: Range) -> [u8; LIST_ENTRY_BYTES] {
    let mut to = [0; LIST_ENTRY_BYTES];
    bytes::put_u64(&mut to, 0, entry.start);
    bytes::put_u64(&mut to, 8, entry.length);
    to
}
