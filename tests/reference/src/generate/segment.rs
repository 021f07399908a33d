//! Segments to walk over: those of random commands, and such as are changed in a place or two.

use crate::bytes;
use crate::capability::Capability;
use crate::case::Case;
use crate::command::{Fields, CDB_BYTES};
use crate::random::Random;
use crate::segment::{
    self, DESCRIPTOR_HEADER_BYTES, EXTENSION_TYPE, HEADER_BYTES, LIST_ENTRY_BYTES, LIST_TYPE,
};

/// How many bytes are added behind a segment: too few for a header, or just enough.
const ADDED: [usize; 6] = [1, 2, 7, 7, 8, 9];

/// Data lengths at the edges of what is supported and of what fits a type.
const DATA_LENGTHS: [u32; 14] = [
    0, 8, 15, 16, 96, 103, 104, 208, 832, 833, 936, 1024, 1025, 1040,
];

/// The segment of a random command. Most commands are sound, so most segments are changed; two
/// changes together show that the earlier fault is given.
pub fn draw(random: &mut Random) -> Vec<u8> {
    let mut drawn = of_some_command(random);
    for _ in 0..random.below(3) {
        change(random, &mut drawn);
    }
    drawn
}

fn of_some_command(random: &mut Random) -> Vec<u8> {
    loop {
        let case = super::command(random);
        if let Some(segment) = of_command(&case) {
            return segment.to_vec();
        }
    }
}

/// None where the continuation length is refused before anyone walks.
fn of_command(case: &Case) -> Option<&[u8]> {
    if case.cdb.len() != CDB_BYTES {
        return None;
    }
    let length = Fields::of(&case.cdb).continuation_length as usize;
    match length < HEADER_BYTES {
        true => None,
        false => case.out.get(..length),
    }
}

fn change(random: &mut Random, segment: &mut Vec<u8>) {
    let headers = headers(segment);
    match random.below(5) {
        0 if !headers.is_empty() => {
            let at = random.pick(&headers) + random.index(DESCRIPTOR_HEADER_BYTES);
            let any = random.byte();
            segment[at] = random.pick(&[0x00, 0x01, 0x04, 0x10, 0x68, 0xEE, 0xFF, any]);
        }
        1 if !headers.is_empty() => {
            let data_length = random.pick(&DATA_LENGTHS);
            bytes::put_u32(segment, random.pick(&headers) + 4, data_length);
        }
        2 => segment.truncate(random.between(HEADER_BYTES as u64, segment.len() as u64) as usize),
        3 => add_descriptor(random, segment),
        _ => add_bytes(random, segment),
    }
}

/// Of a type that the segment may have already.
fn add_descriptor(random: &mut Random, segment: &mut Vec<u8>) {
    let (code, size) = random.pick(&[
        (LIST_TYPE, LIST_ENTRY_BYTES),
        (EXTENSION_TYPE, Capability::BYTES),
    ]);
    let mut descriptor = vec![0; DESCRIPTOR_HEADER_BYTES + size];
    bytes::put_u16(&mut descriptor, 0, code);
    bytes::put_u32(&mut descriptor, 4, size as u32);
    segment.extend(descriptor);
}

/// Zeros, of which the last may be something else.
fn add_bytes(random: &mut Random, segment: &mut Vec<u8>) {
    let mut added = vec![0; random.pick(&ADDED)];
    let last = added.len() - 1;
    added[last] = random.pick(&[0, 1]);
    segment.extend(added);
}

/// Where the walk meets a whole header, the one that ends it included.
fn headers(segment: &[u8]) -> Vec<usize> {
    let mut met = Vec::new();
    let mut at = HEADER_BYTES;
    while at + DESCRIPTOR_HEADER_BYTES <= segment.len() {
        met.push(at);
        let Ok(Some(descriptor)) = segment::step(segment, at) else {
            break;
        };
        at = descriptor.data_at + descriptor.data_length + descriptor.pad_length;
    }
    met
}
