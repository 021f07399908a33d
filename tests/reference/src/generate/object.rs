//! The object of a random call: its record and its slice.

use crate::numbers::MOST_SLICE_BYTES;
use crate::random::Random;
use crate::record::Record;

pub struct Object {
    pub record: Record,
    /// Random bytes above the logical length too, so that an old byte that shows is seen.
    pub slice: Vec<u8>,
}

impl Object {
    /// The highest length that WRITE and CLEAR may leave behind.
    pub fn room(&self) -> u64 {
        let limit = self.record.maximum_length.min(self.slice.len() as u64);
        limit.max(self.record.logical_length)
    }
}

pub fn draw(random: &mut Random, with_slip: bool) -> Object {
    let size = match random.below(10) {
        0 => 0,
        1 => random.between(1, 3),
        2..=7 => random.below(65),
        8 => random.below(600),
        _ => random.below(4097),
    };
    let mut object = of_size(random, size);
    if with_slip {
        slip(random, &mut object);
    }
    object
}

/// The largest slice, or one byte more.
pub fn draw_heavy(random: &mut Random) -> Object {
    let size = MOST_SLICE_BYTES as u64 + u64::from(random.one_in(4));
    of_size(random, size)
}

fn of_size(random: &mut Random, size: u64) -> Object {
    let logical_length = match random.below(5) {
        0 => 0,
        1 => size,
        _ => random.between(0, size),
    };
    let maximum_length = match random.below(8) {
        0 => 0,
        1 => random.between(0, logical_length),
        2 => logical_length,
        3 => random.between(logical_length, size),
        4 => size,
        5 => size + 1,
        6 => u64::MAX,
        _ => size + random.below(100),
    };
    let record = Record {
        partition_id: identifier(random),
        user_object_id: identifier(random),
        logical_length,
        maximum_length,
        policy_access_tag: random.pick(&[0, 1, 0xFFFF_FFFF, 0x0001_0000]),
        boot_epoch: random.pick(&[0, 1, 0xFFFF, 0x0100]),
    };
    let slice = random.bytes(size as usize);
    Object { record, slice }
}

fn identifier(random: &mut Random) -> u64 {
    let any = random.number() | 1;
    random.pick(&[0x1_0000, 1, 1 << 63, u64::MAX, any])
}

/// A length above the slice, or an identifier that no capability may name.
fn slip(random: &mut Random, object: &mut Object) {
    let size = object.slice.len() as u64;
    match random.below(6) {
        0 => object.record.partition_id = 0,
        1 => object.record.user_object_id = 0,
        2 | 3 => object.record.logical_length = size + 1,
        4 => object.record.logical_length = u64::MAX,
        _ => object.record.logical_length = random.between(size + 1, u64::MAX),
    }
}
