//! What is measured: one call each, with everything that it is lent.

use crate::bare;
use crate::face::{Face, PROVED};
use std::hint::black_box;

pub const READ: u64 = 0x8885;
pub const WRITE: u64 = 0x8886;
pub const CLEAR: u64 = 0x8889;
pub const PUNCH: u64 = 0x8884;

const PARTITION: u64 = 0x10000;
const OBJECT: u64 = 0x10001;
const TAG: u32 = 7;
const EPOCH: u16 = 3;
const CDB_BYTES: usize = 236;
const MOST_SEGMENT_BYTES: usize = 1912;

/// What one call hands back beside the lent bytes.
#[derive(Clone, Copy, Debug, PartialEq, Eq)]
pub struct Told {
    pub number: u32,
    pub first: u64,
    pub second: u64,
}

pub trait Task {
    fn call(&mut self, face: &Face) -> Told;

    /// The same moves with nothing decided, where the task moves bytes.
    fn bare(&mut self) -> bool;

    /// Everything lent that a call may write.
    fn written(&self) -> [&[u8]; 2];

    /// Makes it again what it was before the first call.
    fn restore(&mut self);

    /// Whether the number is that of a call which does what it was made for.
    fn is_served(&self, number: u32) -> bool {
        number == 0
    }
}

/// One command on an object of which every byte is in use.
pub struct Command {
    cdb: Vec<u8>,
    out: Vec<u8>,
    slice: Vec<u8>,
    input: Vec<u8>,
    segment: usize,
    action: u64,
    ranges: Vec<(usize, usize)>,
}

impl Command {
    /// READ, WRITE or CLEAR of `bytes` bytes, which are the whole object. A list's entries are equal parts of it, in an order
    /// in which none follows its neighbour.
    pub fn moving(
        action: u64,
        bytes: usize,
        entries: Option<usize>,
        capabilities: &[u8],
    ) -> Command {
        let ranges = match entries {
            None => vec![(0, bytes)],
            Some(count) => parts(bytes, count),
        };
        Command::new(action, bytes, ranges, entries.is_some(), capabilities)
    }

    /// PUNCH of the object's first bytes: so many are removed, what follows moves down, and the tail becomes zero.
    pub fn punching(bytes: usize, removed: usize, capabilities: &[u8]) -> Command {
        Command::new(PUNCH, bytes, vec![(0, removed)], false, capabilities)
    }

    fn new(
        action: u64,
        bytes: usize,
        ranges: Vec<(usize, usize)>,
        listed: bool,
        capabilities: &[u8],
    ) -> Command {
        let request = Request::new(action, &ranges, listed, capabilities);
        let (cdb, segment) = request.written_by(&PROVED);
        let mut command = Command {
            cdb,
            segment: segment.len(),
            out: segment,
            slice: vec![0; bytes],
            input: vec![0; if action == READ { bytes } else { 0 }],
            action,
            ranges,
        };
        let data = if action == WRITE { bytes } else { 0 };
        command.out.resize(command.segment + data, 0);
        command.restore();
        command
    }

    fn moves(&mut self) {
        let (mut done, data) = (0, self.segment);
        for &(start, size) in &self.ranges {
            match self.action {
                READ => bare::copy(&self.slice, start, &mut self.input, done, size),
                WRITE => bare::copy(&self.out, data + done, &mut self.slice, start, size),
                CLEAR => bare::clear(&mut self.slice, start, size),
                _ => {
                    let behind = self.slice.len() - start - size;
                    bare::move_within(&mut self.slice, start + size, start, behind);
                    bare::clear(&mut self.slice, start + behind, size);
                }
            }
            done += size;
        }
    }
}

/// Equal parts of `bytes`, every fifth of them after the last one taken.
fn parts(bytes: usize, count: usize) -> Vec<(usize, usize)> {
    let size = bytes / count;
    (0..count)
        .map(|index| (index * 5 % count * size, size))
        .collect()
}

/// Bytes that aren't all alike.
fn fill(bytes: &mut [u8], seed: usize) {
    for (index, byte) in bytes.iter_mut().enumerate() {
        *byte = (index
            .wrapping_mul(31)
            .wrapping_add(index >> 8)
            .wrapping_add(seed)) as u8;
    }
}

impl Task for Command {
    fn call(&mut self, face: &Face) -> Told {
        let length = self.slice.len();
        let (mut first, mut second) = (0, 0);
        // SAFETY: the buffers are this task's own, none overlaps another, and the lengths are theirs.
        let number = unsafe {
            (face.execute)(
                black_box(self.cdb.as_ptr()),
                self.cdb.len(),
                self.out.as_ptr(),
                self.out.len(),
                PARTITION,
                OBJECT,
                length as u64,
                length as u64,
                TAG,
                EPOCH,
                self.slice.as_mut_ptr(),
                length,
                self.input.as_mut_ptr(),
                self.input.len(),
                &mut first,
                &mut second,
            )
        };
        Told {
            number,
            first,
            second,
        }
    }

    fn bare(&mut self) -> bool {
        self.moves();
        true
    }

    fn written(&self) -> [&[u8]; 2] {
        [&self.slice, &self.input]
    }

    fn restore(&mut self) {
        fill(&mut self.slice, 1);
        fill(&mut self.input, 2);
        let data = self.segment;
        fill(&mut self.out[data..], 3);
    }
}

/// The question which capability admits a range.
pub struct Question {
    cdb: Vec<u8>,
    out: Vec<u8>,
}

impl Question {
    pub fn new(capabilities: &[u8]) -> Question {
        let request = Request::new(READ, &[(0, 64)], false, capabilities);
        let (cdb, out) = request.written_by(&PROVED);
        Question { cdb, out }
    }
}

impl Task for Question {
    fn call(&mut self, face: &Face) -> Told {
        let mut first = 0;
        // SAFETY: as for a command.
        let number = unsafe {
            (face.admission)(
                black_box(self.cdb.as_ptr()),
                self.cdb.len(),
                self.out.as_ptr(),
                self.out.len(),
                PARTITION,
                OBJECT,
                64,
                64,
                TAG,
                EPOCH,
                0,
                64,
                &mut first,
            )
        };
        Told {
            number,
            first,
            second: 0,
        }
    }

    fn bare(&mut self) -> bool {
        false
    }

    fn written(&self) -> [&[u8]; 2] {
        [&[], &[]]
    }

    fn restore(&mut self) {}

    /// A capability is found, be it the CDB's or the segment's.
    fn is_served(&self, number: u32) -> bool {
        number != 0
    }
}

/// A request to the writer.
pub struct Request {
    action: u64,
    start: u64,
    size: u64,
    listed: bool,
    offsets: Vec<u64>,
    lengths: Vec<u64>,
    capabilities: Vec<u8>,
    cdb: Vec<u8>,
    segment: Vec<u8>,
}

impl Request {
    pub fn new(
        action: u64,
        ranges: &[(usize, usize)],
        listed: bool,
        capabilities: &[u8],
    ) -> Request {
        let sole = ranges
            .first()
            .copied()
            .filter(|_| !listed)
            .unwrap_or((0, 0));
        let list = if listed { ranges } else { &[] };
        Request {
            action,
            start: sole.0 as u64,
            size: sole.1 as u64,
            listed,
            offsets: list.iter().map(|range| range.0 as u64).collect(),
            lengths: list.iter().map(|range| range.1 as u64).collect(),
            capabilities: capabilities.to_vec(),
            cdb: vec![0; CDB_BYTES],
            segment: vec![0; MOST_SEGMENT_BYTES],
        }
    }

    /// WRITE of 4 KiB, with or without a list.
    pub fn to_write(entries: Option<usize>, capabilities: &[u8]) -> Request {
        match entries {
            None => Request::new(WRITE, &[(0, 4096)], false, capabilities),
            Some(count) => Request::new(WRITE, &parts(4096, count), true, capabilities),
        }
    }

    /// The CDB and the segment.
    fn written_by(mut self, face: &Face) -> (Vec<u8>, Vec<u8>) {
        let told = self.call(face);
        assert_eq!(told.number, 0, "a measured command can be written");
        self.segment.truncate(told.first as usize);
        (self.cdb, self.segment)
    }
}

impl Task for Request {
    fn call(&mut self, face: &Face) -> Told {
        let mut first = 0;
        // SAFETY: as for a command.
        let number = unsafe {
            (face.write)(
                self.action,
                PARTITION,
                OBJECT,
                self.start,
                self.size,
                self.listed.into(),
                black_box(self.offsets.as_ptr()),
                self.offsets.len(),
                self.lengths.as_ptr(),
                self.lengths.len(),
                self.capabilities.as_ptr(),
                self.capabilities.len(),
                self.cdb.as_mut_ptr(),
                self.cdb.len(),
                self.segment.as_mut_ptr(),
                self.segment.len(),
                &mut first,
            )
        };
        Told {
            number,
            first,
            second: 0,
        }
    }

    fn bare(&mut self) -> bool {
        false
    }

    fn written(&self) -> [&[u8]; 2] {
        [&self.cdb, &self.segment]
    }

    fn restore(&mut self) {
        fill(&mut self.cdb, 4);
        fill(&mut self.segment, 5);
    }
}

/// So many capabilities that match, of which only the last allows anything at all.
pub fn capabilities(count: usize) -> Vec<u8> {
    (1..=count)
        .flat_map(|index| capability(if index == count { u64::MAX } else { 0 }))
        .collect()
}

fn capability(allowed: u64) -> [u8; 104] {
    let mut bytes = [0; 104];
    bytes[48] = 0x80;
    bytes[49] = 0xC0;
    bytes[55] = 0x10;
    bytes[60..64].copy_from_slice(&TAG.to_be_bytes());
    bytes[64..66].copy_from_slice(&EPOCH.to_be_bytes());
    bytes[72..80].copy_from_slice(&PARTITION.to_be_bytes());
    bytes[80..88].copy_from_slice(&OBJECT.to_be_bytes());
    bytes[88..96].copy_from_slice(&allowed.to_be_bytes());
    bytes
}
