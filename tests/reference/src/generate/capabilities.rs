//! The capabilities of a random command: a set that admits it, decoys, and slips.

use crate::capability::{
    permission_for, Capability, TO_THE_LAST_BYTE, USER_DESCRIPTOR_TYPE, USER_OBJECT_TYPE,
};
use crate::command::{Action, Range};
use crate::random::Random;
use crate::record::Record;
use crate::segment::MOST_EXTENSION_CAPABILITIES;

const MOST: usize = 1 + MOST_EXTENSION_CAPABILITIES;

/// Capabilities that admit all the ranges, the first for the CDB, with decoys among them.
pub fn draw(
    random: &mut Random,
    record: &Record,
    action: Action,
    ranges: &[Range],
) -> Vec<Capability> {
    let mut all = covering(random, record, action, ranges);
    let decoys = match random.below(4) {
        0 => random.below((MOST - all.len()) as u64 + 1),
        _ => 0,
    };
    for _ in 0..decoys {
        let chosen = random.index(all.len());
        let mut decoy = all[chosen];
        spoil(random, record, action, &mut decoy);
        let at = random.index(all.len() + 1);
        all.insert(at, decoy);
    }
    all
}

/// Spoils one of the capabilities, or all of them, in a single way each; or cuts the first
/// position or the last one off the only cover of a range.
pub fn slip(
    random: &mut Random,
    record: &Record,
    action: Action,
    ranges: &[Range],
    all: &mut Vec<Capability>,
) {
    match random.below(3) {
        0 => {
            let chosen = random.index(all.len());
            spoil(random, record, action, &mut all[chosen]);
        }
        1 => {
            for capability in all.iter_mut() {
                spoil(random, record, action, capability);
            }
        }
        _ => {
            let mut only = over_all(random, record, action, ranges);
            cut_by_one(random, &mut only);
            *all = vec![only];
        }
    }
}

fn covering(
    random: &mut Random,
    record: &Record,
    action: Action,
    ranges: &[Range],
) -> Vec<Capability> {
    if random.one_in(3) && !ranges.is_empty() && ranges.len() <= MOST {
        return one_for_each(random, record, action, ranges);
    }
    let mut only = over_all(random, record, action, ranges);
    match random.below(4) {
        0 => only.allowed_start = 0,
        1 => {
            only.allowed_start = 0;
            only.allowed_length = TO_THE_LAST_BYTE;
        }
        2 => only.allowed_length = TO_THE_LAST_BYTE,
        _ => {}
    }
    if only.allowed_start == 0 && only.allowed_length != TO_THE_LAST_BYTE {
        let end = ranges.iter().map(|range| range.end()).max().unwrap_or(0);
        only.allowed_length = u64::try_from(end).unwrap_or(TO_THE_LAST_BYTE);
    }
    vec![only]
}

fn one_for_each(
    random: &mut Random,
    record: &Record,
    action: Action,
    ranges: &[Range],
) -> Vec<Capability> {
    let mut all = Vec::new();
    for range in ranges {
        let mut fitting = matching(random, record, action);
        fitting.allowed_start = range.start;
        fitting.allowed_length = range.length;
        all.push(fitting);
    }
    random.shuffle(&mut all);
    all
}

/// One that covers all the ranges and nothing more, if its length can say so.
fn over_all(random: &mut Random, record: &Record, action: Action, ranges: &[Range]) -> Capability {
    let start = ranges.iter().map(|range| range.start).min().unwrap_or(0);
    let end = ranges.iter().map(|range| range.end()).max().unwrap_or(0);
    let mut only = matching(random, record, action);
    only.allowed_start = start;
    only.allowed_length = u64::try_from(end - u128::from(start)).unwrap_or(TO_THE_LAST_BYTE);
    only
}

/// Matches the command; the bits and fields that don't matter are random.
fn matching(random: &mut Random, record: &Record, action: Action) -> Capability {
    let any_epoch = random.number() as u16;
    let epoch = match record.boot_epoch {
        0 => any_epoch,
        epoch => epoch,
    };
    Capability {
        object_type: USER_OBJECT_TYPE,
        permissions: permission_for(action) | random.byte(),
        descriptor_type: USER_DESCRIPTOR_TYPE,
        policy_access_tag: random.pick(&[0, record.policy_access_tag]),
        boot_epoch: random.pick(&[0, epoch]),
        allowed_partition: record.partition_id,
        allowed_object: record.user_object_id,
        allowed_length: 0,
        allowed_start: 0,
    }
}

/// Changes one thing, so that it no longer matches or no longer covers what it did.
fn spoil(random: &mut Random, record: &Record, action: Action, capability: &mut Capability) {
    match random.below(10) {
        0 => capability.object_type = random.pick(&[0x00, 0x01, 0x02, 0x40, 0x81, 0xC0]),
        1 => capability.descriptor_type = random.pick(&[0, 2, 3, 9, 15]),
        2 => capability.permissions &= !permission_for(action),
        3 => capability.allowed_partition = other_identifier(random, capability.allowed_partition),
        4 => capability.allowed_object = other_identifier(random, capability.allowed_object),
        5 => capability.policy_access_tag = other_tag(random, record),
        6 if record.boot_epoch != 0 => capability.boot_epoch = other_epoch(record),
        7 => wrap(capability),
        _ => cut_by_one(random, capability),
    }
}

fn other_identifier(random: &mut Random, identifier: u64) -> u64 {
    let bit = 1 << random.below(64);
    random.pick(&[0, identifier ^ bit])
}

/// Neither zero nor the record's.
fn other_tag(random: &mut Random, record: &Record) -> u32 {
    let flipped = record.policy_access_tag ^ 1 << random.below(32);
    match flipped {
        0 => !record.policy_access_tag,
        tag => tag,
    }
}

/// Neither zero nor the record's.
fn other_epoch(record: &Record) -> u16 {
    match record.boot_epoch {
        1 => 2,
        epoch => epoch ^ 1,
    }
}

/// Takes the first position off the allowed range, or the last one.
fn cut_by_one(random: &mut Random, capability: &mut Capability) {
    if random.one_in(2) {
        capability.allowed_start = capability.allowed_start.saturating_add(1);
        if capability.allowed_length != TO_THE_LAST_BYTE {
            capability.allowed_length = capability.allowed_length.saturating_sub(1);
        }
        return;
    }
    capability.allowed_length = capability.allowed_length.saturating_sub(1);
}

/// An allowed range near 2^64 whose end, added in 64 bits, would come out where it was.
fn wrap(capability: &mut Capability) {
    let end = capability
        .allowed_start
        .wrapping_add(capability.allowed_length);
    capability.allowed_start = u64::MAX - 10;
    capability.allowed_length = end.wrapping_sub(capability.allowed_start);
}
