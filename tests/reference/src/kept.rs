//! Requests to the C face with the replies due, as lines of text.
//!
//! A command is a line of [`vectors`](crate::vectors). The rest of the C face has lines that begin
//! with a word of their own:
//!
//! * `ask cdb out record start length -> place offset`
//! * `write action partition object start length flag offsets lengths capabilities cdb segment ->
//!   number segment-length cdb segment`; offsets and lengths are bytes too, eight to a number
//! * `sense number -> key code status`
//!
//! Bytes are in hex with `-` for none, numbers in decimal, the sense code in hex.

use crate::bytes;
use crate::case::Case;
use crate::command::Range;
use crate::engine::Answer;
use crate::face::{self, Admitted, Executed, Reply, Request, Sensed, Writing, Written};
use crate::generate::request::OwnedRequest;
use crate::numbers::Sense;
use crate::vectors::{decimal, from_hex, record_from_hex, to_hex, Vector};

/// A line, for a reply of the request's own kind.
pub fn line(request: &Request, due: &Reply) -> String {
    match (request, due) {
        (Request::Execute(case), Reply::Executed(due)) => vector(case, due).to_string(),
        (Request::Admission(case, range), Reply::Admitted(due)) => ask_line(case, *range, due),
        (Request::Write(writing), Reply::Written(due)) => write_line(writing, due),
        (Request::Sense(number), Reply::Sensed(due)) => sense_line(*number, due),
        _ => panic!("a reply of another kind than its request"),
    }
}

pub fn parse(line: &str) -> Result<(Request, Reply), String> {
    let words: Vec<&str> = line.split_whitespace().collect();
    match words[..] {
        ["ask", ..] => parse_ask(&words[1..]),
        ["write", ..] => parse_write(&words[1..]),
        ["sense", ..] => parse_sense(&words[1..]),
        _ => parse_vector(line),
    }
}

/// The lines of a whole file, each with its line number. Remarks and blank lines are passed over.
pub fn parse_file(text: &str) -> Result<Vec<(usize, Request, Reply)>, String> {
    text.lines()
        .enumerate()
        .map(|(index, line)| (index + 1, line.trim()))
        .filter(|(_, line)| !line.is_empty() && !line.starts_with('#'))
        .map(|(number, line)| match parse(line) {
            Ok((request, due)) => Ok((number, request, due)),
            Err(reason) => Err(format!("line {number}: {reason}")),
        })
        .collect()
}

fn vector(case: &Case, due: &Executed) -> Vector {
    Vector {
        case: case.clone(),
        sense: Sense {
            key: due.sense.key as u8,
            code: due.sense.code as u16,
        },
        answer: Answer {
            number: due.number,
            count: due.count,
            record: case.record.with_logical_length(due.next_length),
            slice: due.slice.clone(),
            data_in: due.data_in.clone(),
        },
    }
}

fn parse_vector(line: &str) -> Result<(Request, Reply), String> {
    let vector = Vector::parse(line)?;
    let due = Executed {
        sense: Sensed {
            key: vector.sense.key.into(),
            code: vector.sense.code.into(),
            ..face::sensed(vector.answer.number)
        },
        ..face::executed(&vector.answer)
    };
    Ok((Request::Execute(vector.case), Reply::Executed(due)))
}

fn ask_line(case: &Case, range: Range, due: &Admitted) -> String {
    format!(
        "ask {} {} {} {} {} -> {} {}",
        to_hex(&case.cdb),
        to_hex(&case.out),
        to_hex(&case.record.to_bytes()),
        range.start,
        range.length,
        due.place,
        due.offset,
    )
}

fn parse_ask(words: &[&str]) -> Result<(Request, Reply), String> {
    let [cdb, out, record, start, length, "->", place, offset] = words[..] else {
        return Err("not the words of a question".to_string());
    };
    let case = Case {
        cdb: from_hex(cdb)?,
        out: from_hex(out)?,
        record: record_from_hex(record)?,
        slice: Vec::new(),
        data_in: Vec::new(),
    };
    let range = Range {
        start: decimal(start)?,
        length: decimal(length)?,
    };
    let place = decimal(place)?;
    let offset = decimal(offset)?;
    let due = Admitted {
        place,
        offset,
        capability: face::capability_at(&case, place, offset),
        kept: true,
    };
    Ok((Request::Admission(case, range), Reply::Admitted(due)))
}

fn write_line(writing: &Writing, due: &Written) -> String {
    let request = &writing.request;
    format!(
        "write {} {} {} {} {} {} {} {} {} {} {} -> {} {} {} {}",
        request.service_action,
        request.partition_id,
        request.user_object_id,
        request.start,
        request.length,
        writing.flag,
        numbers_to_hex(&request.offsets),
        numbers_to_hex(&request.lengths),
        to_hex(&request.capabilities),
        to_hex(&writing.cdb),
        to_hex(&writing.segment),
        due.number,
        due.segment_length,
        to_hex(&due.cdb),
        to_hex(&due.segment),
    )
}

fn parse_write(words: &[&str]) -> Result<(Request, Reply), String> {
    let other = "not the words of a request to the writer";
    let [action, partition, object, start, length, flag, offsets, lengths, rest @ ..] = words
    else {
        return Err(other.to_string());
    };
    let [capabilities, cdb, segment, "->", number, segment_length, cdb_after, segment_after] = rest
    else {
        return Err(other.to_string());
    };
    let flag = decimal(flag)?;
    let writing = Writing {
        request: OwnedRequest {
            service_action: decimal(action)?,
            partition_id: decimal(partition)?,
            user_object_id: decimal(object)?,
            start: decimal(start)?,
            length: decimal(length)?,
            has_list: flag != 0,
            offsets: numbers_from_hex(offsets)?,
            lengths: numbers_from_hex(lengths)?,
            capabilities: from_hex(capabilities)?,
        },
        flag,
        cdb: from_hex(cdb)?,
        segment: from_hex(segment)?,
    };
    let due = Written {
        number: decimal(number)?,
        segment_length: decimal(segment_length)?,
        cdb: from_hex(cdb_after)?,
        segment: from_hex(segment_after)?,
        kept: true,
    };
    Ok((Request::Write(writing), Reply::Written(due)))
}

fn sense_line(number: u32, due: &Sensed) -> String {
    let Sensed { key, code, status } = due;
    format!("sense {number} -> {key} {code:04X} {status}")
}

fn parse_sense(words: &[&str]) -> Result<(Request, Reply), String> {
    let [number, "->", key, code, status] = words[..] else {
        return Err("not the words of a number's sense".to_string());
    };
    let due = Sensed {
        key: decimal(key)?,
        code: u32::from_str_radix(code, 16).map_err(|_| format!("code {code}"))?,
        status: decimal(status)?,
    };
    Ok((Request::Sense(decimal(number)?), Reply::Sensed(due)))
}

fn numbers_to_hex(numbers: &[u64]) -> String {
    let all: Vec<u8> = numbers
        .iter()
        .flat_map(|number| number.to_be_bytes())
        .collect();
    to_hex(&all)
}

fn numbers_from_hex(text: &str) -> Result<Vec<u64>, String> {
    let all = from_hex(text)?;
    if all.len() % 8 != 0 {
        return Err("a number that isn't eight bytes".to_string());
    }
    Ok(all
        .chunks_exact(8)
        .map(|number| bytes::get_u64(number, 0))
        .collect())
}
