//! The other contestant: the same commands, written straightforwardly in Rust and for speed. It decides first, with the
//! list and the matching capabilities read once into arrays on the stack, and moves bytes with `copy_from_slice`,
//! `copy_within` and `fill`.

use crate::decide::{decide, question, Command, Lent, Record, Verb};
use crate::face::Face;
use crate::writer;
use std::slice::{from_raw_parts, from_raw_parts_mut};

/// A number, a count and the length afterwards.
type Answer = (u32, u64, u64);

fn execute(cdb: &[u8], out: &[u8], on: &Record, lent: Lent) -> Answer {
    let answer = decide(cdb, out, on, lent, |command, lent| match command.verb {
        Verb::Read => read(command, on, lent.slice, lent.input),
        Verb::Write => write(command, on, lent.slice),
        Verb::Clear => clear(command, on, lent.slice),
        Verb::Punch => punch(command, on, lent.slice),
    });
    answer.unwrap_or_else(|number| (number, 0, on.length))
}

fn read(command: &Command, on: &Record, slice: &[u8], input: &mut [u8]) -> Answer {
    let object = &slice[..on.length as usize];
    let mut done = 0;
    for range in command.ranges {
        let rest = &object[range.start as usize..];
        let size = (rest.len() as u64).min(range.size) as usize;
        input[done..done + size].copy_from_slice(&rest[..size]);
        done += size;
        if (size as u64) < range.size {
            return (15, done as u64, on.length);
        }
    }
    (0, done as u64, on.length)
}

fn write(command: &Command, on: &Record, slice: &mut [u8]) -> Answer {
    grow(command, on, slice);
    let mut data = command.data;
    for range in command.ranges {
        if range.size == 0 {
            continue;
        }
        let (now, later) = data.split_at(range.size as usize);
        let start = range.start as usize;
        slice[start..start + now.len()].copy_from_slice(now);
        data = later;
    }
    (0, command.size, command.raised as u64)
}

fn clear(command: &Command, on: &Record, slice: &mut [u8]) -> Answer {
    grow(command, on, slice);
    if command.size != 0 {
        let start = command.start as usize;
        slice[start..start + command.size as usize].fill(0);
    }
    (0, command.size, command.raised as u64)
}

/// What a list may leave unwritten becomes zero. Without one only the gap in front of the range does.
fn grow(command: &Command, on: &Record, slice: &mut [u8]) {
    let old = on.length as usize;
    if old == command.raised {
        return;
    }
    let new = match command.has_list {
        true => command.raised,
        false => old.max(command.start as usize),
    };
    slice[old..new].fill(0);
}

fn punch(command: &Command, on: &Record, slice: &mut [u8]) -> Answer {
    let old = on.length as usize;
    let start = command.start as usize;
    let count = command.size.min((old - start) as u64) as usize;
    slice.copy_within(start + count..old, start);
    slice[old - count..old].fill(0);
    (0, count as u64, (old - count) as u64)
}

/// A null pointer with length 0 is an empty slice.
unsafe fn lent<'a, T>(start: *const T, length: usize) -> &'a [T] {
    if length == 0 {
        return &[];
    }
    from_raw_parts(start, length)
}

unsafe fn lent_mut<'a, T>(start: *mut T, length: usize) -> &'a mut [T] {
    if length == 0 {
        return &mut [];
    }
    from_raw_parts_mut(start, length)
}

unsafe extern "C" fn execute_face(
    cdb: *const u8,
    cdb_len: usize,
    out: *const u8,
    out_len: usize,
    partition: u64,
    object: u64,
    length: u64,
    maximum: u64,
    tag: u32,
    epoch: u16,
    slice: *mut u8,
    slice_len: usize,
    input: *mut u8,
    input_len: usize,
    count: *mut u64,
    next_length: *mut u64,
) -> u32 {
    let on = Record {
        partition,
        object,
        length,
        maximum,
        tag,
        epoch,
    };
    let (number, moved, next) = execute(
        lent(cdb, cdb_len),
        lent(out, out_len),
        &on,
        Lent {
            slice: lent_mut(slice, slice_len),
            input: lent_mut(input, input_len),
        },
    );
    *count = moved;
    *next_length = next;
    number
}

unsafe extern "C" fn admission_face(
    cdb: *const u8,
    cdb_len: usize,
    out: *const u8,
    out_len: usize,
    partition: u64,
    object: u64,
    length: u64,
    maximum: u64,
    tag: u32,
    epoch: u16,
    start: u64,
    size: u64,
    offset: *mut u64,
) -> u32 {
    let on = Record {
        partition,
        object,
        length,
        maximum,
        tag,
        epoch,
    };
    let (number, place) = question(lent(cdb, cdb_len), lent(out, out_len), &on, start, size);
    *offset = place as u64;
    number
}

unsafe extern "C" fn write_face(
    action: u64,
    partition: u64,
    object: u64,
    start: u64,
    size: u64,
    listed: u32,
    offsets: *const u64,
    offsets_len: usize,
    lengths: *const u64,
    lengths_len: usize,
    capabilities: *const u8,
    capabilities_len: usize,
    cdb: *mut u8,
    cdb_len: usize,
    segment: *mut u8,
    segment_len: usize,
    segment_length: *mut u64,
) -> u32 {
    let request = writer::Request {
        action,
        partition,
        object,
        start,
        size,
        listed: listed != 0,
        offsets: lent(offsets, offsets_len),
        lengths: lent(lengths, lengths_len),
        capabilities: lent(capabilities, capabilities_len),
    };
    let written = writer::write(
        &request,
        lent_mut(cdb, cdb_len),
        lent_mut(segment, segment_len),
    );
    match written {
        Ok(length) => {
            *segment_length = length as u64;
            0
        }
        Err(number) => {
            *segment_length = 0;
            number
        }
    }
}

pub const RUST: Face = Face {
    execute: execute_face,
    admission: admission_face,
    write: write_face,
};
