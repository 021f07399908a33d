//! Random files for the program `bench`: most of them sound, the others damaged.

use super::object;
use crate::bench::{self, MOST_CDB, MOST_OUT, MOST_SLICE};
use crate::capability::{Capability, TO_THE_LAST_BYTE, USER_DESCRIPTOR_TYPE, USER_OBJECT_TYPE};
use crate::case::Case;
use crate::command::{Action, CDB_BYTES};
use crate::random::Random;
use crate::record::Record;
use crate::writer::{self, Request};

const LIMITS: [usize; 4] = [MOST_CDB, MOST_OUT, Record::BYTES, MOST_SLICE];

pub fn draw(random: &mut Random) -> Vec<u8> {
    match random.below(16) {
        0 => at_a_limit(random),
        1 => bench::file_of(&long_read(random)),
        2 => record_of_another_size(random),
        3 => count_over_its_limit(random),
        4 => section_over_its_limit(random),
        5 => ends_early(random),
        6 => goes_on(random),
        _ => sound(random),
    }
}

fn sound(random: &mut Random) -> Vec<u8> {
    bench::file_of(&super::command(random))
}

/// The sections of a sound file.
fn sections(random: &mut Random) -> [Vec<u8>; 4] {
    let case = super::command(random);
    [
        case.cdb,
        case.out,
        case.record.to_bytes().to_vec(),
        case.slice,
    ]
}

fn file(sections: &[Vec<u8>; 4]) -> Vec<u8> {
    bench::file([&sections[0], &sections[1], &sections[2], &sections[3]])
}

/// A section exactly as long as it may be: a CDB like that is refused, but the file is sound.
fn at_a_limit(random: &mut Random) -> Vec<u8> {
    let mut sections = sections(random);
    let chosen = random.index(LIMITS.len());
    sections[chosen].resize(LIMITS[chosen], 0);
    file(&sections)
}

/// A READ of about as many bytes as the program's Data-In has, from the largest slice.
fn long_read(random: &mut Random) -> Case {
    let mut object = object::draw(random, false);
    object.slice = random.bytes(MOST_SLICE);
    object.record.logical_length = random.between(3_000, MOST_SLICE as u64);
    let capability = Capability {
        object_type: USER_OBJECT_TYPE,
        permissions: 0xFF,
        descriptor_type: USER_DESCRIPTOR_TYPE,
        policy_access_tag: 0,
        boot_epoch: 0,
        allowed_partition: object.record.partition_id,
        allowed_object: object.record.user_object_id,
        allowed_length: TO_THE_LAST_BYTE,
        allowed_start: 0,
    };
    let request = Request {
        service_action: Action::Read.code().into(),
        partition_id: object.record.partition_id,
        user_object_id: object.record.user_object_id,
        start: random.below(3_000),
        length: random.near(4_096),
        has_list: false,
        offsets: &[],
        lengths: &[],
        capabilities: &capability.to_bytes(),
    };
    let mut cdb = vec![0; CDB_BYTES];
    writer::write(&request, &mut cdb, &mut []);
    Case {
        cdb,
        out: Vec::new(),
        record: object.record,
        slice: object.slice,
        data_in: Vec::new(),
    }
}

fn record_of_another_size(random: &mut Random) -> Vec<u8> {
    let mut sections = sections(random);
    let size = random.pick(&[0, 1, 37, 39, 76]);
    sections[2].resize(size, 0);
    file(&sections)
}

/// The count alone: the bytes are as many as they were.
fn count_over_its_limit(random: &mut Random) -> Vec<u8> {
    let sections = sections(random);
    let chosen = random.index(LIMITS.len());
    let count_at: usize = sections[..chosen].iter().map(|one| 4 + one.len()).sum();
    let over = LIMITS[chosen] as u32 + 1;
    let count = random.pick(&[over, 1 << 16, 1 << 31, u32::MAX]);
    let mut file = file(&sections);
    file[count_at..count_at + 4].copy_from_slice(&count.to_be_bytes());
    file
}

/// As many bytes as the count says, and more than there may be.
fn section_over_its_limit(random: &mut Random) -> Vec<u8> {
    let mut sections = sections(random);
    let chosen = random.index(LIMITS.len());
    let size = LIMITS[chosen] + random.pick(&[1, 2, 1000]);
    sections[chosen].resize(size, 0);
    file(&sections)
}

/// Anywhere, at the end of a section, or a byte before the end of the file.
fn ends_early(random: &mut Random) -> Vec<u8> {
    let sections = sections(random);
    let whole = random.index(LIMITS.len());
    let at_section: usize = sections[..whole].iter().map(|one| 4 + one.len()).sum();
    let mut file = file(&sections);
    let anywhere = random.index(file.len());
    file.truncate(random.pick(&[anywhere, anywhere, at_section, file.len() - 1]));
    file
}

/// By some bytes, or by a fifth section without any.
fn goes_on(random: &mut Random) -> Vec<u8> {
    let more = random.pick(&[1, 4, 4, 100, 5000]);
    [sound(random), vec![0; more]].concat()
}
