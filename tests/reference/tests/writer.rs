//! The host's writer: what it writes is read back, what it refuses leaves both buffers alone.

use reference::case::Case;
use reference::generate::request::{self, OwnedRequest};
use reference::laws::reading;
use reference::random::Random;
use reference::record::Record;
use reference::writer;

const REQUESTS: usize = 20_000;
const CDB: usize = 236;

const READ: u64 = 0x8885;
const WRITE: u64 = 0x8886;
const CLEAR: u64 = 0x8889;
const PUNCH: u64 = 0x8884;

/// What the buffers hold before, so that every byte that stays is seen to stay.
const PATTERN: u8 = 0xA5;

/// An answer of the writer, and both buffers afterwards.
#[derive(Debug, PartialEq, Eq)]
struct Written {
    number: u32,
    segment_length: u64,
    cdb: Vec<u8>,
    segment: Vec<u8>,
}

fn write(request: &OwnedRequest, cdb_size: usize, segment_size: usize) -> Written {
    let mut cdb = vec![PATTERN; cdb_size];
    let mut segment = vec![PATTERN; segment_size];
    let (number, segment_length) = writer::write(&request.borrow(), &mut cdb, &mut segment);
    Written {
        number,
        segment_length,
        cdb,
        segment,
    }
}

fn refusal(number: u32, cdb_size: usize, segment_size: usize) -> Written {
    Written {
        number,
        segment_length: 0,
        cdb: vec![PATTERN; cdb_size],
        segment: vec![PATTERN; segment_size],
    }
}

/// The segment's length, from the document's sizes.
fn segment_length(request: &OwnedRequest) -> usize {
    let capabilities = request.capabilities.len() / 104;
    let list = match request.has_list {
        true => 8 + 16 * request.offsets.len(),
        false => 0,
    };
    let extension = match capabilities {
        1 => 0,
        more => 8 + 104 * (more - 1),
    };
    match list + extension {
        0 => 0,
        descriptors => 40 + descriptors,
    }
}

/// The two parts as they must be, put together byte by byte from the request.
fn expected(request: &OwnedRequest) -> (Vec<u8>, Vec<u8>) {
    let action = (request.service_action as u16).to_be_bytes();
    let length = match request.has_list {
        true => request.lengths.iter().sum(),
        false => request.length,
    };
    let (own, extension) = request.capabilities.split_at(104);
    let mut cdb = vec![0x7F, 0, 0, 0, 0, 0, 0, 228];
    cdb.extend(action);
    cdb.extend([0; 6]);
    cdb.extend(request.partition_id.to_be_bytes());
    cdb.extend(request.user_object_id.to_be_bytes());
    cdb.extend(length.to_be_bytes());
    cdb.extend(request.start.to_be_bytes());
    cdb.extend((segment_length(request) as u32).to_be_bytes());
    cdb.extend([0; 28]);
    cdb.extend(own);
    cdb.extend([0; 52]);
    let mut segment = Vec::new();
    if segment_length(request) == 0 {
        return (cdb, segment);
    }
    segment.extend([0x01, 0]);
    segment.extend(action);
    segment.extend([0; 36]);
    if request.has_list {
        segment.extend([0x00, 0x01, 0, 0]);
        segment.extend((16 * request.offsets.len() as u32).to_be_bytes());
        for (offset, length) in request.offsets.iter().zip(&request.lengths) {
            segment.extend(offset.to_be_bytes());
            segment.extend(length.to_be_bytes());
        }
    }
    if !extension.is_empty() {
        segment.extend([0xFF, 0xEE, 0, 0]);
        segment.extend((extension.len() as u32).to_be_bytes());
        segment.extend(extension);
    }
    (cdb, segment)
}

fn sound_requests(seed: u64) -> impl Iterator<Item = OwnedRequest> {
    let mut random = Random::new(seed);
    (0..REQUESTS).map(move |_| request::sound(&mut random))
}

/// The written command as a call, on an object with the command's own IDs.
fn as_call(request: &OwnedRequest, written: &Written) -> Case {
    Case {
        cdb: written.cdb.clone(),
        out: written.segment.clone(),
        record: Record {
            partition_id: request.partition_id,
            user_object_id: request.user_object_id,
            logical_length: 0,
            maximum_length: 0,
            policy_access_tag: 0,
            boot_epoch: 0,
        },
        slice: Vec::new(),
        data_in: Vec::new(),
    }
}

#[test]
fn what_is_written_is_what_was_asked_for() {
    for request in sound_requests(1) {
        let size = segment_length(&request);
        let written = write(&request, CDB, size);
        let (cdb, segment) = expected(&request);
        assert_eq!(
            written,
            Written {
                number: 0,
                segment_length: size as u64,
                cdb,
                segment
            },
            "{request:?}"
        );
    }
}

#[test]
fn what_is_written_is_not_refused_by_the_rows_on_form() {
    for request in sound_requests(2) {
        let written = write(&request, CDB, segment_length(&request));
        let call = as_call(&request, &written);
        for row in [2, 3, 4, 5, 6, 7, 8, 9, 10] {
            assert!(!reading::holds(row, &call), "row {row}: {request:?}");
        }
    }
}

#[test]
fn what_is_written_is_read_back() {
    for request in sound_requests(3) {
        let written = write(&request, CDB, segment_length(&request));
        let call = as_call(&request, &written);
        let ranges: Vec<(u128, u128)> = reading::ranges(&call)
            .iter()
            .map(|span| (span.start, span.length))
            .collect();
        let asked: Vec<(u128, u128)> = match request.has_list {
            true => request
                .offsets
                .iter()
                .zip(&request.lengths)
                .map(|(&offset, &length)| (offset.into(), length.into()))
                .collect(),
            false => vec![(request.start.into(), request.length.into())],
        };
        assert_eq!(ranges, asked);
        let capabilities: Vec<&[u8]> = reading::capabilities(&call)
            .into_iter()
            .map(|(_, bytes)| bytes)
            .collect();
        let given: Vec<&[u8]> = request.capabilities.chunks(104).collect();
        assert_eq!(capabilities, given);
    }
}

#[test]
fn longer_buffers_keep_what_is_past_the_written_bytes() {
    for request in sound_requests(4) {
        let size = segment_length(&request);
        let written = write(&request, CDB + 9, size + 70);
        let (cdb, segment) = expected(&request);
        assert_eq!(written.number, 0);
        assert_eq!(written.segment_length, size as u64);
        assert_eq!(written.cdb[..CDB], cdb);
        assert_eq!(written.cdb[CDB..], [PATTERN; 9]);
        assert_eq!(written.segment[..size], segment);
        assert_eq!(written.segment[size..], [PATTERN; 70]);
    }
}

#[test]
fn a_buffer_one_byte_short_is_refused_with_17() {
    for request in sound_requests(5) {
        let size = segment_length(&request);
        let short_cdb = write(&request, CDB - 1, size);
        assert_eq!(short_cdb, refusal(17, CDB - 1, size));
        assert_eq!(write(&request, 0, size), refusal(17, 0, size));
        if size > 0 {
            let short_segment = write(&request, CDB, size - 1);
            assert_eq!(short_segment, refusal(17, CDB, size - 1));
            assert_eq!(write(&request, CDB, 0), refusal(17, CDB, 0));
        }
    }
}

#[test]
fn without_the_flag_the_two_slices_are_not_used() {
    let mut random = Random::new(6);
    for request in sound_requests(6).filter(|request| !request.has_list) {
        let size = segment_length(&request);
        let mut other = request.clone();
        other.offsets = (0..random.below(90)).map(|_| random.number()).collect();
        other.lengths = (0..random.below(90)).map(|_| random.number()).collect();
        assert_eq!(write(&request, CDB, size), write(&other, CDB, size));
    }
}

#[test]
fn with_a_list_the_given_length_is_not_used() {
    for request in sound_requests(7).filter(|request| request.has_list) {
        let size = segment_length(&request);
        let mut other = request.clone();
        other.length = !request.length;
        assert_eq!(write(&request, CDB, size), write(&other, CDB, size));
    }
}

/// Whether the document refuses the request with 16, asked apart from the writer.
fn is_refused(request: &OwnedRequest) -> bool {
    let size = request.capabilities.len();
    if ![READ, WRITE, CLEAR, PUNCH].contains(&request.service_action)
        || !(1..=9).any(|count| count * 104 == size)
    {
        return true;
    }
    if !request.has_list {
        return false;
    }
    let sum: u128 = request
        .lengths
        .iter()
        .map(|&length| u128::from(length))
        .sum();
    request.offsets.len() != request.lengths.len()
        || request.offsets.len() > 64
        || [CLEAR, PUNCH].contains(&request.service_action)
        || request.start != 0
        || sum >= 1 << 64
        || request.service_action == WRITE && overlaps(request)
}

fn overlaps(request: &OwnedRequest) -> bool {
    let mut spans: Vec<(u128, u128)> = request
        .offsets
        .iter()
        .zip(&request.lengths)
        .filter(|(_, &length)| length > 0)
        .map(|(&offset, &length)| (offset.into(), u128::from(offset) + u128::from(length)))
        .collect();
    spans.sort();
    spans.windows(2).any(|two| two[1].0 < two[0].1)
}

#[test]
fn slips_are_refused_with_16_whatever_the_buffers() {
    let mut random = Random::new(8);
    let mut refused = 0;
    for _ in 0..REQUESTS {
        let request = request::slipped(&mut random);
        let (cdb_size, segment_size) = random.pick(&[(CDB, 2048), (CDB + 4, 2050), (0, 0)]);
        let written = write(&request, cdb_size, segment_size);
        if is_refused(&request) {
            assert_eq!(written, refusal(16, cdb_size, segment_size), "{request:?}");
            refused += 1;
        } else {
            assert_ne!(written.number, 16, "{request:?}");
        }
    }
    assert!(refused > REQUESTS / 3 && refused < REQUESTS);
}

/// A request that is accepted, to change one thing of.
fn list_request(service_action: u64, entries: &[(u64, u64)]) -> OwnedRequest {
    OwnedRequest {
        service_action,
        partition_id: 1,
        user_object_id: 2,
        start: 0,
        length: 3,
        has_list: true,
        offsets: entries.iter().map(|entry| entry.0).collect(),
        lengths: entries.iter().map(|entry| entry.1).collect(),
        capabilities: vec![7; 104],
    }
}

/// The number with buffers that are long enough.
fn number(request: &OwnedRequest) -> u32 {
    let written = write(request, CDB, 2048);
    if written.number != 0 {
        assert_eq!(written, refusal(written.number, CDB, 2048));
    }
    written.number
}

#[test]
fn each_refusal_by_an_example() {
    let two = [(0, 4), (8, 4)];
    assert_eq!(number(&list_request(READ, &two)), 0);
    assert_eq!(number(&list_request(WRITE, &two)), 0);
    assert_eq!(number(&list_request(0x8887, &two)), 16);
    assert_eq!(number(&list_request(0x1_8885, &two)), 16);
    assert_eq!(number(&list_request(CLEAR, &two)), 16);
    assert_eq!(number(&list_request(PUNCH, &[])), 16);
    for (size, answer) in [
        (0, 16),
        (103, 16),
        (105, 16),
        (936, 0),
        (937, 16),
        (1040, 16),
    ] {
        let mut request = list_request(READ, &two);
        request.capabilities = vec![7; size];
        assert_eq!(number(&request), answer, "{size} capability bytes");
    }
    let mut unequal = list_request(READ, &two);
    unequal.lengths.pop();
    assert_eq!(number(&unequal), 16);
    assert_eq!(number(&list_request(WRITE, &[(5, 0); 64])), 0);
    assert_eq!(number(&list_request(WRITE, &[(5, 0); 65])), 16);
    let mut started = list_request(READ, &[]);
    started.start = 1;
    assert_eq!(number(&started), 16);
}

#[test]
fn sums_and_overlaps_at_their_edges() {
    let most = u64::MAX;
    assert_eq!(number(&list_request(READ, &[(0, most), (0, 0)])), 0);
    assert_eq!(number(&list_request(READ, &[(0, most), (0, 1)])), 16);
    assert_eq!(
        number(&list_request(READ, &[(0, 1 << 63), (0, 1 << 63)])),
        16
    );
    assert_eq!(number(&list_request(WRITE, &[(0, most), (most, 0)])), 0);
    assert_eq!(number(&list_request(READ, &[(1, 2), (2, 2)])), 0);
    assert_eq!(number(&list_request(WRITE, &[(1, 2), (2, 2)])), 16);
    assert_eq!(number(&list_request(WRITE, &[(2, 2), (1, 2)])), 16);
    assert_eq!(number(&list_request(WRITE, &[(1, 2), (3, 2)])), 0);
    assert_eq!(number(&list_request(WRITE, &[(1, 4), (2, 0)])), 0);
    assert_eq!(number(&list_request(WRITE, &[(1, 4), (9, 1), (4, 1)])), 16);
    // The first ends above 2^64; in 64 bits it would end at 3 and miss the second.
    assert_eq!(
        number(&list_request(WRITE, &[(most - 1, 5), (most, 1)])),
        16
    );
}

#[test]
fn a_list_without_entries_is_a_list() {
    let request = list_request(WRITE, &[]);
    let written = write(&request, CDB, 48);
    assert_eq!((written.number, written.segment_length), (0, 48));
    assert_eq!(written.segment[40..48], [0, 1, 0, 0, 0, 0, 0, 0]);
    assert_eq!(written.cdb[32..40], [0; 8]);
}

#[test]
fn the_largest_command_fits_a_segment() {
    let entries: Vec<(u64, u64)> = (0..64).map(|index| (index * 10, 10)).collect();
    let mut request = list_request(WRITE, &entries);
    request.capabilities = vec![7; 936];
    let written = write(&request, CDB, 1912);
    assert_eq!((written.number, written.segment_length), (0, 1912));
    let (cdb, segment) = expected(&request);
    assert_eq!(written.cdb, cdb);
    assert_eq!(written.segment, segment);
}
