//! The admission question by examples; its law is checked with the others.

use reference::admission;
use reference::capability::{Capability, Place, READ_PERMISSION, WRITE_PERMISSION};
use reference::command::Range;
use reference::record::Record;
use reference::writer::{self, Request};

const READ: u64 = 0x8885;
const WRITE: u64 = 0x8886;

fn record() -> Record {
    Record {
        partition_id: 7,
        user_object_id: 9,
        logical_length: 8,
        maximum_length: 16,
        policy_access_tag: 5,
        boot_epoch: 6,
    }
}

fn allowing(permissions: u8, allowed_start: u64, allowed_length: u64) -> Capability {
    Capability {
        object_type: 0x80,
        permissions,
        descriptor_type: 1,
        policy_access_tag: 5,
        boot_epoch: 6,
        allowed_partition: 7,
        allowed_object: 9,
        allowed_length,
        allowed_start,
    }
}

/// A command with these capabilities, as CDB and Data-Out.
fn command(service_action: u64, capabilities: &[Capability]) -> (Vec<u8>, Vec<u8>) {
    let bytes: Vec<u8> = capabilities
        .iter()
        .flat_map(|capability| capability.to_bytes())
        .collect();
    let request = Request {
        service_action,
        partition_id: 7,
        user_object_id: 9,
        start: 0,
        length: 0,
        has_list: false,
        offsets: &[],
        lengths: &[],
        capabilities: &bytes,
    };
    let mut cdb = vec![0; 236];
    let mut out = vec![0; 2048];
    let (number, length) = writer::write(&request, &mut cdb, &mut out);
    assert_eq!(number, 0);
    out.truncate(length as usize);
    (cdb, out)
}

fn asked(cdb: &[u8], out: &[u8], start: u64, length: u64) -> Option<Place> {
    admission::question(cdb, out, &record(), Range { start, length })
}

#[test]
fn the_first_that_admits_is_named_and_the_cdb_comes_first() {
    let all = [
        allowing(READ_PERMISSION, 0, 4),
        allowing(READ_PERMISSION, 4, 4),
        allowing(READ_PERMISSION, 0, 8),
    ];
    let (cdb, out) = command(READ, &all);
    assert_eq!(asked(&cdb, &out, 0, 4), Some(Place::Cdb));
    assert_eq!(asked(&cdb, &out, 4, 4), Some(Place::Segment(48)));
    assert_eq!(asked(&cdb, &out, 3, 2), Some(Place::Segment(48 + 104)));
    assert_eq!(asked(&cdb, &out, 3, 6), None);
    // An empty range must lie inside too: at the end of an allowed range it does.
    assert_eq!(asked(&cdb, &out, 4, 0), Some(Place::Cdb));
    assert_eq!(asked(&cdb, &out, 9, 0), None);
}

#[test]
fn the_place_has_the_bytes() {
    let all = [
        allowing(READ_PERMISSION, 0, 4),
        allowing(READ_PERMISSION, 4, 4),
    ];
    let (cdb, out) = command(READ, &all);
    let bytes = asked(&cdb, &out, 5, 1).unwrap().bytes(&cdb, &out);
    assert_eq!(bytes, all[1].to_bytes());
    let bytes = asked(&cdb, &out, 0, 1).unwrap().bytes(&cdb, &out);
    assert_eq!(bytes, all[0].to_bytes());
}

#[test]
fn only_matching_capabilities_admit() {
    let sound = allowing(WRITE_PERMISSION, 0, 8);
    let spoilt = [
        Capability {
            object_type: 0x40,
            ..sound
        },
        Capability {
            descriptor_type: 2,
            ..sound
        },
        Capability {
            permissions: READ_PERMISSION,
            ..sound
        },
        Capability {
            policy_access_tag: 4,
            ..sound
        },
        Capability {
            boot_epoch: 5,
            ..sound
        },
        Capability {
            allowed_partition: 8,
            ..sound
        },
        Capability {
            allowed_partition: 0,
            ..sound
        },
        Capability {
            allowed_object: 8,
            ..sound
        },
        Capability {
            allowed_object: 0,
            ..sound
        },
    ];
    for capability in spoilt {
        let (cdb, out) = command(WRITE, &[capability]);
        assert_eq!(asked(&cdb, &out, 0, 1), None, "{capability:?}");
        let (cdb, out) = command(WRITE, &[capability, sound]);
        assert_eq!(asked(&cdb, &out, 0, 1), Some(Place::Segment(48)));
    }
    for capability in [
        Capability {
            policy_access_tag: 0,
            ..sound
        },
        Capability {
            boot_epoch: 0,
            ..sound
        },
        Capability {
            permissions: 0xFF,
            ..sound
        },
    ] {
        let (cdb, out) = command(WRITE, &[capability]);
        assert_eq!(asked(&cdb, &out, 0, 1), Some(Place::Cdb), "{capability:?}");
    }
}

#[test]
fn ranges_near_the_last_position() {
    let to_the_last = |start| command(READ, &[allowing(READ_PERMISSION, start, u64::MAX)]);
    let (cdb, out) = to_the_last(0);
    assert_eq!(asked(&cdb, &out, u64::MAX, 1), Some(Place::Cdb));
    assert_eq!(asked(&cdb, &out, u64::MAX, 2), None);
    assert_eq!(asked(&cdb, &out, 1, u64::MAX), Some(Place::Cdb));
    assert_eq!(asked(&cdb, &out, 2, u64::MAX), None);
    let (cdb, out) = to_the_last(10);
    assert_eq!(asked(&cdb, &out, u64::MAX, 1), Some(Place::Cdb));
    assert_eq!(asked(&cdb, &out, 9, 1), None);
    // Allowed start and length that pass 2^64 together don't wrap to a small end.
    let (cdb, out) = command(READ, &[allowing(READ_PERMISSION, 16, u64::MAX - 1)]);
    assert_eq!(asked(&cdb, &out, 20, 20), Some(Place::Cdb));
    assert_eq!(asked(&cdb, &out, u64::MAX, 2), Some(Place::Cdb));
}

#[test]
fn a_command_that_rows_2_to_8_refuse_has_no_capability() {
    let (cdb, out) = command(READ, &[allowing(READ_PERMISSION, 0, 8); 2]);
    assert_eq!(asked(&cdb, &out, 0, 8), Some(Place::Cdb));
    for length in [0, 1, 80, 184, 235] {
        assert_eq!(asked(&cdb[..length], &out, 0, 8), None, "row 2, {length}");
    }
    let longer = [&cdb[..], &[0]].concat();
    assert_eq!(asked(&longer, &out, 0, 8), None, "row 2");
    let changed = |at: usize| {
        let mut cdb = cdb.clone();
        cdb[at] ^= 1;
        asked(&cdb, &out, 0, 8)
    };
    assert_eq!(changed(0), None, "row 2");
    assert_eq!(changed(8), None, "row 3");
    assert_eq!(changed(23), None, "row 4");
    assert_eq!(changed(31), None, "row 4");
    assert_eq!(changed(48), None, "row 5");
    assert_eq!(asked(&cdb, &out[..out.len() - 1], 0, 8), None, "row 5");
    let changed_out = |at: usize| {
        let mut out = out.clone();
        out[at] ^= 1;
        asked(&cdb, &out, 0, 8)
    };
    assert_eq!(changed_out(0), None, "row 6");
    assert_eq!(changed_out(3), None, "row 6");
    assert_eq!(changed_out(47), None, "row 7");
}

#[test]
fn rows_1_9_and_10_are_not_looked_at() {
    let all = [allowing(WRITE_PERMISSION, 0, 8); 2];
    let (mut cdb, out) = command(WRITE, &all);
    let too_long = record().with_logical_length(u64::MAX);
    let range = Range {
        start: 0,
        length: 8,
    };
    let named = admission::question(&cdb, &out, &too_long, range);
    assert_eq!(named, Some(Place::Cdb), "row 1");
    // A list that overlaps and doesn't sum up, beside a start that isn't zero.
    let mut entries = vec![0x00, 0x01, 0, 0, 0, 0, 0, 32];
    for number in [1u64, 2, 2, 2] {
        entries.extend(number.to_be_bytes());
    }
    let with_list = [&out[..], &entries].concat();
    cdb[51] = with_list.len() as u8;
    cdb[50] = (with_list.len() >> 8) as u8;
    cdb[47] = 1;
    cdb[39] = 200;
    assert_eq!(
        asked(&cdb, &with_list, 0, 8),
        Some(Place::Cdb),
        "rows 9 and 10"
    );
}
