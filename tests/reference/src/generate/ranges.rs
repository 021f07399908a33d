//! The ranges of a random command: first such as can be carried out, then slips at their edges.

use super::object::Object;
use crate::command::{Action, Range};
use crate::random::Random;
use crate::segment::MOST_LIST_ENTRIES;

/// The entries of a list, or exactly one range without a list.
pub fn draw(random: &mut Random, object: &Object, action: Action, has_list: bool) -> Vec<Range> {
    let count = match has_list {
        true => entry_count(random),
        false => 1,
    };
    match action {
        Action::Read => (0..count).map(|_| readable(random, object)).collect(),
        Action::Write | Action::Clear => writable(random, object, count, has_list),
        Action::Punch => vec![removable(random, object)],
    }
}

fn entry_count(random: &mut Random) -> usize {
    match random.below(16) {
        0 => 0,
        1 => MOST_LIST_ENTRIES,
        2 => random.between(5, 20) as usize,
        _ => random.between(1, 4) as usize,
    }
}

/// Starts inside the object or at its end; sometimes goes on past it, which isn't refused.
fn readable(random: &mut Random, object: &Object) -> Range {
    let start = random.between(0, object.record.logical_length);
    let rest = object.record.logical_length - start;
    let length = match random.below(20) {
        0 => 0,
        1 => rest.min(1000),
        2 => rest.min(1000) + 1,
        3 => random.below(40),
        _ => random.below(12).min(rest),
    };
    Range { start, length }
}

/// Ranges that share no position and end at or below the room there is, in any order.
fn writable(random: &mut Random, object: &Object, count: usize, has_list: bool) -> Vec<Range> {
    let room = object.room();
    let first = random.between(0, room);
    let at_the_end = random.near(object.record.logical_length).min(room);
    let mut next = random.pick(&[0, first, at_the_end]);
    let mut ranges = Vec::new();
    for _ in 0..count {
        let start = next.saturating_add(random.pick(&[0, 0, 1, 5])).min(room);
        let length = random.below(9).min(room - start);
        next = start + length;
        ranges.push(Range { start, length });
    }
    if let Some(last) = ranges.last_mut() {
        if random.one_in(4) {
            last.length = (room - last.start).min(1000);
        }
    }
    if has_list && random.one_in(3) && ranges.len() < MOST_LIST_ENTRIES {
        ranges.push(empty_anywhere(random, &ranges));
    }
    random.shuffle(&mut ranges);
    ranges
}

/// An empty range writes nothing: inside another, above every limit or at the last position.
fn empty_anywhere(random: &mut Random, ranges: &[Range]) -> Range {
    let inside = match ranges.is_empty() {
        true => 0,
        false => {
            let chosen = random.pick(ranges);
            chosen.start + chosen.length / 2
        }
    };
    Range {
        start: random.pick(&[inside, 1 << 40, u64::MAX]),
        length: 0,
    }
}

fn removable(random: &mut Random, object: &Object) -> Range {
    let start = random.between(0, object.record.logical_length);
    let rest = object.record.logical_length - start;
    let some = random.between(0, rest);
    let length = random.pick(&[
        0,
        1,
        some,
        some,
        rest,
        rest.saturating_add(1),
        rest.saturating_add(50),
        u64::MAX - start,
    ]);
    Range { start, length }
}

/// Moves a range over an edge, or just up to one.
pub fn slip(
    random: &mut Random,
    object: &Object,
    action: Action,
    has_list: bool,
    ranges: &mut Vec<Range>,
) {
    if ranges.is_empty() {
        ranges.push(Range {
            start: 0,
            length: 0,
        });
    }
    match random.below(if has_list { 6 } else { 4 }) {
        0 => end_at_the_last_position(random, ranges),
        1..=3 => match action {
            Action::Read | Action::Punch => start_past_the_end(random, object, ranges),
            Action::Write | Action::Clear => end_at_a_limit(random, object, ranges),
        },
        4 => share_or_touch(random, ranges),
        _ => sum_past_all_numbers(random, ranges),
    }
    ranges.truncate(MOST_LIST_ENTRIES);
}

fn start_past_the_end(random: &mut Random, object: &Object, ranges: &mut [Range]) {
    let length = object.record.logical_length;
    let chosen = random.index(ranges.len());
    ranges[chosen].start = match random.below(5) {
        0 => random.between(length, u64::MAX),
        1 => length,
        _ => length.saturating_add(1),
    };
}

fn end_at_a_limit(random: &mut Random, object: &Object, ranges: &mut [Range]) {
    let limit = random.pick(&[
        object.record.maximum_length,
        object.slice.len() as u64,
        object.record.logical_length,
        object.room(),
        object.room().saturating_add(1),
    ]);
    let end = random.near(limit);
    let length = random.between(0, 3).min(end);
    let chosen = random.index(ranges.len());
    ranges[chosen] = Range {
        start: end - length,
        length,
    };
}

/// Ends one below 2^64, at it, or one above it.
fn end_at_the_last_position(random: &mut Random, ranges: &mut [Range]) {
    let start = random.pick(&[u64::MAX, u64::MAX - 1, u64::MAX - 7, 1 << 63, 2, 1]);
    let to_the_last = u64::MAX - start;
    let chosen = random.index(ranges.len());
    ranges[chosen] = Range {
        start,
        length: to_the_last + random.pick(&[0, 1, 2]).min(start),
    };
}

/// A second entry that shares a position with another, only touches it, or lies empty in it.
fn share_or_touch(random: &mut Random, ranges: &mut Vec<Range>) {
    let chosen = random.pick(ranges);
    let end = chosen.start.saturating_add(chosen.length);
    let starts = [
        chosen.start,
        chosen.start.saturating_sub(1),
        chosen.start.saturating_sub(2),
        end.saturating_sub(1),
        end,
    ];
    let another = Range {
        start: random.pick(&starts),
        length: random.below(4),
    };
    let at = random.index(ranges.len() + 1);
    ranges.insert(at, another);
}

/// Lengths whose sum is 2^64 or more, so that a sum in 64 bits would come out small.
fn sum_past_all_numbers(random: &mut Random, ranges: &mut Vec<Range>) {
    let two = random.pick(&[[1 << 63, 1 << 63], [u64::MAX, 1], [u64::MAX, 5]]);
    for length in two {
        let at = random.index(ranges.len() + 1);
        ranges.insert(at, Range { start: 0, length });
    }
}
