//! Random requests to the host's writer.

use crate::capability::Capability;
use crate::command::{Action, CDB_BYTES};
use crate::random::Random;
use crate::segment::{MOST_BYTES, MOST_LIST_ENTRIES};
use crate::writer::{self, Request, MOST_CAPABILITY_BYTES, WRITTEN};

/// A request with the slices that it borrows.
#[derive(Clone, Debug, PartialEq, Eq)]
pub struct OwnedRequest {
    pub service_action: u64,
    pub partition_id: u64,
    pub user_object_id: u64,
    pub start: u64,
    pub length: u64,
    pub has_list: bool,
    pub offsets: Vec<u64>,
    pub lengths: Vec<u64>,
    pub capabilities: Vec<u8>,
}

impl OwnedRequest {
    pub fn borrow(&self) -> Request<'_> {
        Request {
            service_action: self.service_action,
            partition_id: self.partition_id,
            user_object_id: self.user_object_id,
            start: self.start,
            length: self.length,
            has_list: self.has_list,
            offsets: &self.offsets,
            lengths: &self.lengths,
            capabilities: &self.capabilities,
        }
    }
}

/// A request that is accepted.
pub fn sound(random: &mut Random) -> OwnedRequest {
    let action = random.pick(&Action::ALL);
    let has_list = action.may_have_list() && !random.one_in(3);
    let (offsets, lengths) = match has_list {
        true => disjoint_entries(random),
        false => unused_entries(random),
    };
    let start = number(random);
    let capabilities = random.between(1, (MOST_CAPABILITY_BYTES / Capability::BYTES) as u64);
    OwnedRequest {
        service_action: u64::from(action.code()),
        partition_id: number(random),
        user_object_id: number(random),
        start: if has_list { 0 } else { start },
        length: number(random),
        has_list,
        offsets,
        lengths,
        capabilities: random.bytes(capabilities as usize * Capability::BYTES),
    }
}

/// A request of which one thing was changed: it is mostly, but not always, refused.
pub fn slipped(random: &mut Random) -> OwnedRequest {
    match random.below(10) {
        0..=2 => slipped_anywhere(random),
        _ => slipped_in_list(random),
    }
}

fn slipped_anywhere(random: &mut Random) -> OwnedRequest {
    let mut request = sound(random);
    match random.below(3) {
        0 => request.service_action = unknown_action(random),
        1 => {
            let size = random.pick(&[0, 1, 103, 105, 207, 935, 936, 937, 1040]);
            request.capabilities.resize(size, 0);
        }
        _ => {
            request.has_list = true;
            request.service_action = u64::from(random.pick(&[Action::Clear, Action::Punch]).code());
        }
    }
    request
}

fn slipped_in_list(random: &mut Random) -> OwnedRequest {
    let mut request = sound_with_list(random);
    match random.below(7) {
        0 => {
            request.offsets.pop();
        }
        1 => {
            let size = random.between(63, 66) as usize;
            request.offsets.resize(size, u64::MAX);
            request.lengths.resize(size, 0);
        }
        2 => request.start = random.pick(&[0, 1, 1 << 63, u64::MAX]),
        3 => {
            let sizes = random.pick(&[[u64::MAX, 0], [u64::MAX, 1], [1 << 63, 1 << 63]]);
            request.offsets = vec![0, u64::MAX];
            request.lengths = sizes.to_vec();
        }
        _ => share_or_touch(random, &mut request),
    }
    request
}

fn sound_with_list(random: &mut Random) -> OwnedRequest {
    loop {
        let request = sound(random);
        if request.has_list {
            return request;
        }
    }
}

fn number(random: &mut Random) -> u64 {
    let any = random.number();
    random.pick(&[0, 1, 0x1_0000, u64::MAX, any])
}

/// Entries in any order of which no two share a position, with a sum that fits.
fn disjoint_entries(random: &mut Random) -> (Vec<u64>, Vec<u64>) {
    let most = MOST_LIST_ENTRIES as u64;
    let few = random.below(6);
    let count = random.pick(&[0, few, few, few, most]);
    let mut next = random.below(1 << 40);
    let mut entries = Vec::new();
    for _ in 0..count {
        let start = next + random.pick(&[0, 0, 1, 1 << 30]);
        let length = random.pick(&[0, 1, 2, 1 << 20, 1 << 50]);
        next = start + length;
        entries.push((start, length));
    }
    random.shuffle(&mut entries);
    entries.into_iter().unzip()
}

/// Without the flag the two slices may hold anything, of any lengths.
fn unused_entries(random: &mut Random) -> (Vec<u64>, Vec<u64>) {
    let counts = random.pick(&[[0, 0], [3, 3], [2, 5], [70, 70], [65, 0]]);
    let offsets = (0..counts[0]).map(|_| number(random)).collect();
    let lengths = (0..counts[1]).map(|_| number(random)).collect();
    (offsets, lengths)
}

/// Also numbers whose low 16 bits are a known action.
fn unknown_action(random: &mut Random) -> u64 {
    random.pick(&[0, 0x8883, 0x8887, 0x1_8885, 0x8886 << 16, u64::MAX])
}

/// A second entry that shares a position with the first, only touches it, or lies empty in it.
fn share_or_touch(random: &mut Random, request: &mut OwnedRequest) {
    let start = random.below(1000) + 10;
    let length = random.between(1, 9);
    let end = start + length;
    let second = random.pick(&[start - 1, start, start + length / 2, end - 1, end]);
    let mut entries = [(start, length), (second, random.below(3))];
    random.shuffle(&mut entries);
    (request.offsets, request.lengths) = entries.into_iter().unzip();
}

/// How long the CDB's buffer and the segment's are: exactly right, short mostly by one
/// byte, or longer.
pub fn buffer_sizes(random: &mut Random, request: &OwnedRequest) -> (usize, usize) {
    let segment = segment_length(random, request);
    match random.below(8) {
        0 => (CDB_BYTES - 1, segment),
        1 => (CDB_BYTES, segment.saturating_sub(1)),
        2 => (random.index(CDB_BYTES + 1), random.index(segment + 1)),
        3 | 4 => (
            CDB_BYTES + random.between(0, 9) as usize,
            segment + random.between(1, 70) as usize,
        ),
        _ => (CDB_BYTES, segment),
    }
}

/// A request that is refused has no segment, so its buffer may have any length.
fn segment_length(random: &mut Random, request: &OwnedRequest) -> usize {
    let mut cdb = [0; CDB_BYTES];
    let mut segment = [0; MOST_BYTES];
    match writer::write(&request.borrow(), &mut cdb, &mut segment) {
        (WRITTEN, length) => length as usize,
        _ => random.index(100),
    }
}
