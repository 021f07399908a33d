//! Laws that every answer keeps, checked position by position against what was given.
//!
//! Nothing here uses the engine's way to its answer: the table is read a second time in
//! [`reading`], and the bytes afterwards are asked one by one.

pub mod reading;

use crate::admission;
use crate::capability::Place;
use crate::case::Case;
use crate::command::Range;
use crate::engine::Answer;
use reading::{Span, CLEAR, PUNCH, READ, WRITE};

/// Why a law is broken; `Ok` where it is kept.
pub type Verdict = Result<(), String>;

pub struct Law {
    pub number: u32,
    pub says: &'static str,
    pub check: fn(&Case, &Answer) -> Verdict,
}

pub const LAWS: [Law; 8] = [
    Law {
        number: 1,
        says: "the number is that of the first row that holds, else 15 for a short READ, else 0",
        check: law_1_number,
    },
    Law {
        number: 2,
        says: "a refusal counts nothing and alters nothing",
        check: law_2_refusal,
    },
    Law {
        number: 3,
        says: "READ puts the ranges' bytes in list order up to the object's end",
        check: law_3_read,
    },
    Law {
        number: 4,
        says: "WRITE and CLEAR write their ranges, zero the gap and touch nothing else",
        check: law_4_write_and_clear,
    },
    Law {
        number: 5,
        says: "PUNCH moves down what followed and zeroes the freed tail",
        check: law_5_punch,
    },
    Law {
        number: 6,
        says: "of the record only the length changes, and it keeps its limits",
        check: law_6_record,
    },
    Law {
        number: 7,
        says: "a list or extension that row 7 lets through has no pad and lies in the segment",
        check: law_7_segment,
    },
    Law {
        number: 8,
        says: "the admission question names the first capability that matches and covers",
        check: law_8_admission,
    },
];

/// The first law that the answer breaks, with its reason.
pub fn first_broken(case: &Case, answer: &Answer) -> Option<(u32, String)> {
    LAWS.iter()
        .find_map(|law| Some((law.number, (law.check)(case, answer).err()?)))
}

fn law_1_number(case: &Case, answer: &Answer) -> Verdict {
    let expected = match reading::first_row(case) {
        Some(row) => row,
        None if reading::action(case) == Some(READ) && reading::goes_past_the_end(case) => 15,
        None => 0,
    };
    ensure(answer.number == expected, || {
        format!("number {} where {expected} is due", answer.number)
    })
}

fn law_2_refusal(case: &Case, answer: &Answer) -> Verdict {
    if !is_refusal(answer) {
        return Ok(());
    }
    count_is(0, answer)?;
    ensure(answer.record == case.record, || {
        "a refusal changes the record".to_string()
    })?;
    slice_is_as_it_was(case, answer)?;
    data_in_is_as_it_was_from(0, case, answer)
}

fn law_3_read(case: &Case, answer: &Answer) -> Verdict {
    if !is_carried_out(case, answer, &[READ]) {
        return Ok(());
    }
    ensure(answer.record == case.record, || {
        "READ changes the record".to_string()
    })?;
    slice_is_as_it_was(case, answer)?;
    let count = answer.count as usize;
    data_in_is_as_it_was_from(count, case, answer)?;
    let mut positions = positions(reading::ranges(case));
    for index in 0..count {
        let position = positions.next().ok_or("more bytes put than ranges have")?;
        ensure(position < reading::old_length(case), || {
            format!("Data-In byte {index} is from {position}, past the object")
        })?;
        ensure(
            answer.data_in[index] == case.slice[position as usize],
            || format!("Data-In byte {index} isn't the object's byte {position}"),
        )?;
    }
    let is_short = match positions.next() {
        None => false,
        Some(position) if position >= reading::old_length(case) => true,
        Some(position) => return Err(format!("READ stopped before {position}")),
    };
    let count_is_below_length = u128::from(answer.count) < reading::length(case);
    ensure(
        is_short == count_is_below_length && is_short == (answer.number == 15),
        || format!("number {} with count {count}", answer.number),
    )
}

fn law_4_write_and_clear(case: &Case, answer: &Answer) -> Verdict {
    if !is_carried_out(case, answer, &[WRITE, CLEAR]) {
        return Ok(());
    }
    let old_length = reading::old_length(case);
    let new_length = reading::highest_end(case);
    new_length_is(new_length, answer)?;
    count_is(reading::length(case), answer)?;
    data_in_is_as_it_was_from(0, case, answer)?;
    slice_keeps_its_size(case, answer)?;
    let ranges = reading::ranges(case);
    for (index, &byte) in answer.slice.iter().enumerate() {
        let position = index as u128;
        let expected = match place_in_command_data(&ranges, position) {
            Some(_) if reading::action(case) == Some(CLEAR) => 0,
            Some(place) => reading::command_data(case)[place as usize],
            None if (old_length..new_length).contains(&position) => 0,
            None => case.slice[index],
        };
        ensure(byte == expected, || {
            format!("slice byte {index} is {byte:02x} and not {expected:02x}")
        })?;
    }
    Ok(())
}

fn law_5_punch(case: &Case, answer: &Answer) -> Verdict {
    if !is_carried_out(case, answer, &[PUNCH]) {
        return Ok(());
    }
    let range = reading::ranges(case)[0];
    let old_length = reading::old_length(case);
    let removed = range.end().min(old_length) - range.start;
    let new_length = old_length - removed;
    new_length_is(new_length, answer)?;
    count_is(removed, answer)?;
    data_in_is_as_it_was_from(0, case, answer)?;
    slice_keeps_its_size(case, answer)?;
    for (index, &byte) in answer.slice.iter().enumerate() {
        let position = index as u128;
        let expected = if position < range.start || position >= old_length {
            case.slice[index]
        } else if position < new_length {
            case.slice[index + removed as usize]
        } else {
            0
        };
        ensure(byte == expected, || {
            format!("slice byte {index} is {byte:02x} and not {expected:02x}")
        })?;
    }
    Ok(())
}

fn law_6_record(case: &Case, answer: &Answer) -> Verdict {
    let before = case.record;
    let after = answer.record;
    ensure(
        after.with_logical_length(before.logical_length) == before,
        || "the record changed beside its length".to_string(),
    )?;
    slice_keeps_its_size(case, answer)?;
    let slice_length = case.slice.len() as u64;
    ensure(
        before.logical_length > slice_length || after.logical_length <= slice_length,
        || "the length passed the slice".to_string(),
    )?;
    ensure(
        after.logical_length <= after.maximum_length
            || before.logical_length > before.maximum_length,
        || "the length passed its maximum".to_string(),
    )
}

fn law_7_segment(case: &Case, _: &Answer) -> Verdict {
    // Row 7 is only asked of a segment that the rows about its place let through.
    if reading::first_row(case).is_some_and(|row| row <= 7) {
        return Ok(());
    }
    let segment_length = case.out.len() - reading::command_data(case).len();
    for (code, unit) in [(0x0001, 16), (0xFFEE, 104)] {
        for (data_at, data, pad) in reading::descriptors(case, code) {
            ensure(pad == 0, || format!("type {code:04X} has pad {pad}"))?;
            ensure(data % unit == 0 && data_at + data <= segment_length, || {
                format!("type {code:04X} at {data_at} leaves the segment")
            })?;
        }
    }
    Ok(())
}

/// Asked for the command's own ranges and for a few more, at the edges of what can be asked.
fn law_8_admission(case: &Case, _: &Answer) -> Verdict {
    let others = [(0, 0), (0, 1), (u64::MAX, 0), (u64::MAX, 1), (u64::MAX, 2)]
        .map(|(start, length)| Range { start, length });
    let own = reading::ranges(case).into_iter().map(|span| Range {
        start: span.start as u64,
        length: span.length as u64,
    });
    own.chain(others)
        .try_for_each(|range| the_right_capability_admits(case, range))
}

fn the_right_capability_admits(case: &Case, range: Range) -> Verdict {
    let answered = admission::question(&case.cdb, &case.out, &case.record, range);
    let span = Span {
        start: range.start.into(),
        length: range.length.into(),
    };
    let is_readable = (2..=8).all(|row| !reading::holds(row, case));
    let expected = reading::capabilities(case)
        .into_iter()
        .filter(|_| is_readable)
        .find(|(_, bytes)| reading::matches(case, bytes) && reading::covers(bytes, span))
        .map(|(offset, _)| match offset {
            None => Place::Cdb,
            Some(offset) => Place::Segment(offset),
        });
    ensure(answered == expected, || {
        format!("{range:?} is admitted by {answered:?} and not by {expected:?}")
    })
}

fn ensure(kept: bool, reason: impl FnOnce() -> String) -> Verdict {
    match kept {
        true => Ok(()),
        false => Err(reason()),
    }
}

fn is_refusal(answer: &Answer) -> bool {
    answer.number != 0 && answer.number != 15
}

/// Whether the answer says that one of these commands was carried out. Whether it rightly says so
/// is law 1; a wrong "carried out" has no ranges to ask for and is left to that law.
fn is_carried_out(case: &Case, answer: &Answer, actions: &[u128]) -> bool {
    !is_refusal(answer)
        && reading::first_row(case).is_none()
        && reading::action(case).is_some_and(|action| actions.contains(&action))
}

fn count_is(due: u128, answer: &Answer) -> Verdict {
    ensure(u128::from(answer.count) == due, || {
        format!("count {} where {due} is due", answer.count)
    })
}

fn new_length_is(due: u128, answer: &Answer) -> Verdict {
    let length = answer.record.logical_length;
    ensure(u128::from(length) == due, || {
        format!("length {length} where {due} is due")
    })
}

fn slice_keeps_its_size(case: &Case, answer: &Answer) -> Verdict {
    ensure(answer.slice.len() == case.slice.len(), || {
        "the slice has another size".to_string()
    })
}

fn slice_is_as_it_was(case: &Case, answer: &Answer) -> Verdict {
    ensure(answer.slice == case.slice, || {
        "the slice changed".to_string()
    })
}

fn data_in_is_as_it_was_from(first: usize, case: &Case, answer: &Answer) -> Verdict {
    let same = answer.data_in.len() == case.data_in.len()
        && answer.data_in.get(first..) == case.data_in.get(first..);
    ensure(same && first <= case.data_in.len(), || {
        format!("Data-In changed at or after byte {first}")
    })
}

fn positions(ranges: Vec<Span>) -> impl Iterator<Item = u128> {
    ranges.into_iter().flat_map(|span| span.start..span.end())
}

/// Which byte of the command data belongs to a position, where a range has the position.
fn place_in_command_data(ranges: &[Span], position: u128) -> Option<u128> {
    let mut before = 0;
    for range in ranges {
        if (range.start..range.end()).contains(&position) {
            return Some(before + position - range.start);
        }
        before += range.length;
    }
    None
}
