//! The marked examples W1 to W14, each with everything it leaves behind.

use reference::engine::{self, Answer};
use reference::numbers::{self, Sense, Status};
use reference::record::Record;

const READ: u16 = 0x8885;
const WRITE: u16 = 0x8886;
const CLEAR: u16 = 0x8889;
const PUNCH: u16 = 0x8884;

const IDENTIFIER: u64 = 0x10000;
const ALL_ONES: u64 = u64::MAX;

/// What Data-In holds before a command, so that a byte that must stay is seen to stay.
const UNTOUCHED: u8 = b'.';

/// A command of the table, with the capability's start and length.
struct Marked<'a> {
    action: u16,
    start: u64,
    length: u64,
    list: Option<&'a [(u64, u64)]>,
    data: &'a [u8],
    capability: (u64, u64),
}

impl<'a> Marked<'a> {
    fn plain(action: u16, start: u64, length: u64) -> Marked<'a> {
        Marked {
            action,
            start,
            length,
            list: None,
            data: b"",
            capability: (0, 16),
        }
    }

    fn list(action: u16, entries: &'a [(u64, u64)], data: &'a [u8]) -> Marked<'a> {
        Marked {
            length: entries.iter().map(|(_, length)| length).sum(),
            list: Some(entries),
            data,
            ..Marked::plain(action, 0, 0)
        }
    }

    fn cdb(&self) -> Vec<u8> {
        let mut cdb = vec![0; 236];
        cdb[0] = 0x7F;
        cdb[7] = 228;
        put(&mut cdb, 8, &self.action.to_be_bytes());
        put(&mut cdb, 16, &IDENTIFIER.to_be_bytes());
        put(&mut cdb, 24, &IDENTIFIER.to_be_bytes());
        put(&mut cdb, 32, &self.length.to_be_bytes());
        put(&mut cdb, 40, &self.start.to_be_bytes());
        put(&mut cdb, 48, &(self.segment().len() as u32).to_be_bytes());
        let capability = 80;
        cdb[capability + 48] = 0x80;
        cdb[capability + 49] = 0x80 | 0x40;
        cdb[capability + 55] = 0x10;
        put(&mut cdb, capability + 72, &IDENTIFIER.to_be_bytes());
        put(&mut cdb, capability + 80, &IDENTIFIER.to_be_bytes());
        put(&mut cdb, capability + 88, &self.capability.1.to_be_bytes());
        put(&mut cdb, capability + 96, &self.capability.0.to_be_bytes());
        cdb
    }

    fn segment(&self) -> Vec<u8> {
        let Some(entries) = self.list else {
            return Vec::new();
        };
        let mut segment = vec![0; 48];
        segment[0] = 0x01;
        put(&mut segment, 2, &self.action.to_be_bytes());
        segment[41] = 0x01;
        put(&mut segment, 44, &(16 * entries.len() as u32).to_be_bytes());
        for (offset, length) in entries {
            segment.extend(offset.to_be_bytes());
            segment.extend(length.to_be_bytes());
        }
        segment
    }

    fn on(&self, record: Record, slice: &[u8]) -> Answer {
        let out = [&self.segment(), self.data].concat();
        let data_in = vec![UNTOUCHED; self.length as usize];
        engine::answer(&self.cdb(), &out, record, slice, &data_in)
    }

    fn afresh(&self) -> Answer {
        self.on(first_record(), FIRST_SLICE)
    }
}

const FIRST_SLICE: &[u8] = b"ABCDEFGH\0\0\0\0\0\0\0\0";

fn first_record() -> Record {
    Record {
        partition_id: IDENTIFIER,
        user_object_id: IDENTIFIER,
        logical_length: 8,
        maximum_length: 16,
        policy_access_tag: 0,
        boot_epoch: 0,
    }
}

fn put(bytes: &mut [u8], at: usize, value: &[u8]) {
    bytes[at..at + value.len()].copy_from_slice(value);
}

fn sense_is(number: u32, key: u8, code: u16) {
    assert_eq!(numbers::sense(number), Sense { key, code });
    let status = match number {
        0 => Status::Good,
        _ => Status::CheckCondition,
    };
    assert_eq!(numbers::status(number), status);
}

/// A command carried out: all of the answer, given what it leaves.
fn left(answer: &Answer, number: u32, count: u64, length: u64, slice: &[u8], data_in: &[u8]) {
    assert_eq!(answer.number, number, "number");
    assert_eq!(answer.count, count, "count");
    assert_eq!(
        answer.record,
        first_record().with_logical_length(length),
        "record"
    );
    assert_eq!(answer.slice, slice, "slice");
    assert_eq!(answer.data_in, data_in, "Data-In");
}

/// A refusal: everything as it was, Data-In of `length` bytes included.
fn refused(answer: &Answer, number: u32, length: usize) {
    left(answer, number, 0, 8, FIRST_SLICE, &vec![UNTOUCHED; length]);
}

#[test]
fn w1_read_inside() {
    let answer = Marked::plain(READ, 2, 3).afresh();
    left(&answer, 0, 3, 8, FIRST_SLICE, b"CDE");
    sense_is(answer.number, 0, 0x0000);
}

#[test]
fn w2_read_past_the_end() {
    let answer = Marked::plain(READ, 6, 4).afresh();
    left(&answer, 15, 2, 8, FIRST_SLICE, b"GH..");
    sense_is(answer.number, 1, 0x3B17);
}

#[test]
fn w3_read_from_the_end() {
    let answer = Marked::plain(READ, 8, 1).afresh();
    left(&answer, 15, 0, 8, FIRST_SLICE, b".");
    sense_is(answer.number, 1, 0x3B17);
}

#[test]
fn w4_read_nothing_above_the_end() {
    let answer = Marked::plain(READ, 9, 0).afresh();
    refused(&answer, 12, 0);
    sense_is(answer.number, 5, 0x2400);
}

#[test]
fn w5_write_a_list() {
    let answer = Marked::list(WRITE, &[(1, 2), (5, 2)], b"wxyz").afresh();
    left(&answer, 0, 4, 8, b"AwxDEyzH\0\0\0\0\0\0\0\0", b"....");
    sense_is(answer.number, 0, 0x0000);
}

#[test]
fn w6_write_a_list_then_read_it_in_another_order() {
    let written = Marked::list(WRITE, &[(1, 2), (5, 2)], b"wxyz").afresh();
    left(&written, 0, 4, 8, b"AwxDEyzH\0\0\0\0\0\0\0\0", b"....");
    let read = Marked::list(READ, &[(5, 2), (1, 2)], b"").on(written.record, &written.slice);
    left(&read, 0, 4, 8, b"AwxDEyzH\0\0\0\0\0\0\0\0", b"yzwx");
    sense_is(read.number, 0, 0x0000);
}

#[test]
fn w7_write_a_list_that_overlaps() {
    let answer = Marked::list(WRITE, &[(1, 2), (2, 2)], b"wxyz").afresh();
    refused(&answer, 10, 4);
    sense_is(answer.number, 5, 0x2600);
}

#[test]
fn w8_write_a_list_out_of_the_capability_and_out_of_the_object() {
    let mut command = Marked::list(WRITE, &[(1, 2), (15, 2)], b"wxyz");
    let answer = command.afresh();
    refused(&answer, 11, 4);
    sense_is(answer.number, 5, 0x2400);
    command.capability = (0, ALL_ONES);
    let answer = command.afresh();
    refused(&answer, 14, 4);
    sense_is(answer.number, 7, 0x5507);
}

#[test]
fn w9_write_with_a_gap() {
    let mut command = Marked::plain(WRITE, 10, 2);
    command.data = b"mn";
    let answer = command.afresh();
    left(&answer, 0, 2, 12, b"ABCDEFGH\0\0mn\0\0\0\0", b"..");
    sense_is(answer.number, 0, 0x0000);
}

#[test]
fn w9_write_with_a_gap_over_old_bytes() {
    let mut command = Marked::plain(WRITE, 10, 2);
    command.data = b"mn";
    let answer = command.on(first_record(), b"ABCDEFGHijklmnop");
    left(&answer, 0, 2, 12, b"ABCDEFGH\0\0mnmnop", b"..");
}

#[test]
fn w10_punch_inside() {
    let answer = Marked::plain(PUNCH, 5, 2).afresh();
    left(&answer, 0, 2, 6, b"ABCDEH\0\0\0\0\0\0\0\0\0\0", b"..");
    sense_is(answer.number, 0, 0x0000);
}

#[test]
fn w11_punch_past_the_end() {
    let answer = Marked::plain(PUNCH, 5, 9).afresh();
    left(
        &answer,
        0,
        3,
        5,
        b"ABCDE\0\0\0\0\0\0\0\0\0\0\0",
        b".........",
    );
    sense_is(answer.number, 0, 0x0000);
}

#[test]
fn w12_clear_over_the_end() {
    let answer = Marked::plain(CLEAR, 7, 3).afresh();
    left(&answer, 0, 3, 10, b"ABCDEFG\0\0\0\0\0\0\0\0\0", b"...");
    sense_is(answer.number, 0, 0x0000);
}

#[test]
fn w13_write_nothing_above_the_end() {
    let answer = Marked::plain(WRITE, 12, 0).afresh();
    left(&answer, 0, 0, 8, FIRST_SLICE, b"");
    sense_is(answer.number, 0, 0x0000);
}

#[test]
fn w14_read_at_the_edges_of_a_capability() {
    let within = |start, length| {
        let mut command = Marked::plain(READ, start, length);
        command.capability = (4, 4);
        command.afresh()
    };
    let answer = within(4, 4);
    left(&answer, 0, 4, 8, FIRST_SLICE, b"EFGH");
    sense_is(answer.number, 0, 0x0000);
    let answer = within(3, 2);
    refused(&answer, 11, 2);
    sense_is(answer.number, 5, 0x2400);
    let answer = within(4, 5);
    refused(&answer, 11, 5);
    sense_is(answer.number, 5, 0x2400);
}
