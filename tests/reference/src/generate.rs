//! Random calls: most of them sound, the others with a slip at an edge of the table.
//!
//! A call is drawn in stages, and each stage can slip: the object, the ranges, the capabilities
//! that cover them, the amounts of data, the segment, and last the CDB's bytes. Later stages fit
//! themselves to earlier ones. So a slip in the ranges meets the row it aims at, and isn't refused
//! before for want of a capability.

pub mod bench_file;
mod capabilities;
pub mod errand;
mod layout;
mod object;
pub mod question;
mod ranges;
pub mod request;
pub mod segment;
pub mod session;

use crate::capability::Capability;
use crate::case::Case;
use crate::command::{Action, Fields, Range};
use crate::numbers::MOST_SLICE_BYTES;
use crate::random::Random;
use layout::Layout;
use object::Object;

/// Beyond this no data is made for a command: a longer LENGTH finds its buffer too short.
const MOST_DATA: u64 = 4096;

#[derive(Clone, Copy, PartialEq, Eq)]
enum Slip {
    Object,
    Ranges,
    Capabilities,
    Amounts,
    Segment,
    Cdb,
}

const SLIPS: [Slip; 6] = [
    Slip::Object,
    Slip::Ranges,
    Slip::Capabilities,
    Slip::Amounts,
    Slip::Segment,
    Slip::Cdb,
];

/// One random call, small enough for a program that limits its input: a CDB of at most 1,024
/// bytes, Data-Out of at most 8,192 and a slice of at most 16,384.
pub fn command(random: &mut Random) -> Case {
    let slips = draw_slips(random);
    let object = object::draw(random, slips.contains(&Slip::Object));
    on_object(random, object, &slips)
}

/// A call on the largest slice there may be, or on one that is a byte larger. Such calls are slow
/// to check, so they are apart from the others.
pub fn heavy_command(random: &mut Random) -> Case {
    let slips = draw_slips(random);
    let object = object::draw_heavy(random);
    on_object(random, object, &slips)
}

/// How long a slice might be, at an edge that rows 1 and 14 ask about. No such slice is made.
pub fn slice_length(random: &mut Random, case: &Case) -> usize {
    let edge = random.pick(&[
        MOST_SLICE_BYTES as u64,
        case.record.logical_length,
        case.record.maximum_length,
    ]);
    random.near(edge) as usize
}

/// Mostly none or one; two together show that the earlier row is given.
fn draw_slips(random: &mut Random) -> Vec<Slip> {
    let count = random.pick(&[0, 0, 0, 0, 1, 1, 1, 2]);
    (0..count).map(|_| random.pick(&SLIPS)).collect()
}

fn on_object(random: &mut Random, object: Object, slips: &[Slip]) -> Case {
    let action = random.pick(&[
        Action::Read,
        Action::Read,
        Action::Write,
        Action::Write,
        Action::Clear,
        Action::Punch,
    ]);
    let has_list = action.may_have_list() && random.one_in(2);
    let mut ranges = ranges::draw(random, &object, action, has_list);
    if slips.contains(&Slip::Ranges) {
        ranges::slip(random, &object, action, has_list, &mut ranges);
    }
    let mut capabilities = capabilities::draw(random, &object.record, action, &ranges);
    if slips.contains(&Slip::Capabilities) {
        capabilities::slip(random, &object.record, action, &ranges, &mut capabilities);
    }
    let mut layout = lay_out(random, &object, action, has_list, &ranges, &capabilities);
    let mut data = amount(random, action == Action::Write, layout.fields.length);
    let mut data_in = amount(random, action == Action::Read, layout.fields.length);
    if slips.contains(&Slip::Amounts) {
        slip_in_amounts(random, has_list, &mut layout, &mut data, &mut data_in);
    }
    if slips.contains(&Slip::Segment) {
        layout::slip(random, &mut layout);
    }
    let segment = layout.segment(random);
    let mut cdb = layout.cdb(random, segment.len());
    if slips.contains(&Slip::Cdb) {
        layout::slip_in_cdb(random, &mut cdb);
    }
    Case {
        cdb,
        out: [segment, data].concat(),
        record: object.record,
        slice: object.slice,
        data_in,
    }
}

fn lay_out(
    random: &mut Random,
    object: &Object,
    action: Action,
    has_list: bool,
    ranges: &[Range],
    capabilities: &[Capability],
) -> Layout {
    // A sum past 2^64 is cut here on purpose: an engine that wraps would find it right.
    let sum = ranges
        .iter()
        .fold(0u64, |sum, range| sum.wrapping_add(range.length));
    let fields = Fields {
        service_action: action.code(),
        partition_id: object.record.partition_id,
        user_object_id: object.record.user_object_id,
        length: sum,
        starting_byte_address: if has_list { 0 } else { ranges[0].start },
        continuation_length: 0,
    };
    Layout::draw(random, fields, has_list.then_some(ranges), capabilities)
}

/// Exactly as many bytes as the command uses, or some more; some where it uses none.
fn amount(random: &mut Random, is_used: bool, length: u64) -> Vec<u8> {
    let used = if is_used { length.min(MOST_DATA) } else { 0 };
    let surplus = match random.below(3) {
        0 => random.below(20),
        _ => 0,
    };
    random.bytes((used + surplus) as usize)
}

fn slip_in_amounts(
    random: &mut Random,
    has_list: bool,
    layout: &mut Layout,
    data: &mut Vec<u8>,
    data_in: &mut Vec<u8>,
) {
    match random.below(if has_list { 4 } else { 2 }) {
        0 => one_byte_short(layout.fields.length, data),
        1 => one_byte_short(layout.fields.length, data_in),
        2 => layout.fields.length = other_length(random, layout.fields.length),
        _ => layout.fields.starting_byte_address = random.pick(&[1, 1 << 63, u64::MAX]),
    }
}

fn one_byte_short(length: u64, buffer: &mut Vec<u8>) {
    buffer.truncate(length.saturating_sub(1).min(MOST_DATA) as usize);
}

fn other_length(random: &mut Random, length: u64) -> u64 {
    random.pick(&[
        length.wrapping_add(1),
        length.wrapping_sub(1),
        0,
        u64::MAX,
        length / 2,
    ])
}
