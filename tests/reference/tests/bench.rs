//! The program's files and lines: the example of the page on scope, and each way to be bad.

use reference::bench::{file, file_of, line, takes, BAD_FILE, MOST_CDB, MOST_OUT, MOST_SLICE};
use reference::capability::Capability;
use reference::case::Case;
use reference::record::Record;
use reference::writer::{self, Request};

/// The object of the marked examples, and a READ of it.
fn reads(start: u64, length: u64) -> Case {
    let capability = Capability {
        object_type: 0x80,
        permissions: 0xC0,
        descriptor_type: 1,
        policy_access_tag: 0,
        boot_epoch: 0,
        allowed_partition: 0x1_0000,
        allowed_object: 0x1_0000,
        allowed_length: 16,
        allowed_start: 0,
    };
    let request = Request {
        service_action: 0x8885,
        partition_id: 0x1_0000,
        user_object_id: 0x1_0000,
        start,
        length,
        has_list: false,
        offsets: &[],
        lengths: &[],
        capabilities: &capability.to_bytes(),
    };
    let mut cdb = vec![0; 236];
    assert_eq!(writer::write(&request, &mut cdb, &mut []).0, 0);
    Case {
        cdb,
        out: Vec::new(),
        record: Record {
            partition_id: 0x1_0000,
            user_object_id: 0x1_0000,
            logical_length: 8,
            maximum_length: 16,
            policy_access_tag: 0,
            boot_epoch: 0,
        },
        slice: b"ABCDEFGH\0\0\0\0\0\0\0\0".to_vec(),
        data_in: Vec::new(),
    }
}

#[test]
fn the_marked_example_prints_its_line() {
    assert_eq!(line(&file_of(&reads(2, 3))), "0 0 0000 3 8");
    assert_eq!(line(&file_of(&reads(6, 4))), "15 1 3B17 2 8");
    assert_eq!(line(&file_of(&reads(9, 0))), "12 5 2400 0 8");
}

#[test]
fn a_file_that_ends_early_or_goes_on_is_bad() {
    let good = file_of(&reads(2, 3));
    for size in 0..good.len() {
        assert_eq!(line(&good[..size]), BAD_FILE, "{size} bytes of it");
    }
    let longer = [&good[..], &[0]].concat();
    assert_eq!(line(&longer), BAD_FILE);
}

#[test]
fn each_section_has_its_limit() {
    let record = reads(0, 0).record.to_bytes();
    let of_sizes = |cdb: usize, out: usize, slice: usize| {
        let zeros = vec![0; MOST_SLICE + 1];
        line(&file([
            &zeros[..cdb],
            &zeros[..out],
            &record,
            &zeros[..slice],
        ]))
    };
    assert_eq!(of_sizes(MOST_CDB, MOST_OUT, MOST_SLICE), "2 5 2000 0 8");
    assert_eq!(of_sizes(MOST_CDB + 1, 0, 8), BAD_FILE);
    assert_eq!(of_sizes(0, MOST_OUT + 1, 8), BAD_FILE);
    assert_eq!(of_sizes(0, 0, MOST_SLICE + 1), BAD_FILE);
}

#[test]
fn a_record_of_another_size_is_bad() {
    let longer = [&reads(0, 0).record.to_bytes()[..], &[0]].concat();
    for size in 0..=longer.len() {
        let bad = line(&file([&[], &[], &longer[..size], &[0; 8]]));
        assert_eq!(bad == BAD_FILE, size != Record::BYTES, "{size} bytes");
    }
}

#[test]
fn a_call_within_the_limits_is_taken() {
    let mut case = reads(0, 0);
    case.cdb = vec![0; MOST_CDB];
    case.out = vec![0; MOST_OUT];
    case.slice = vec![0; MOST_SLICE];
    assert!(takes(&case));
    assert_ne!(line(&file_of(&case)), BAD_FILE);
    case.slice.push(0);
    assert!(!takes(&case));
}
