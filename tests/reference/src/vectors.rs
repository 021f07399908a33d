//! Calls and their answers as lines of text, one call a line.
//!
//! `cdb out record slice data-in -> number key code count record slice data-in`: bytes in hex and
//! `-` for none; the sense code as four hex digits; number, key and count in decimal. A line that
//! begins with `#` is a remark.

use crate::case::Case;
use crate::engine::Answer;
use crate::numbers::{self, Sense};
use crate::record::Record;
use std::fmt;

#[derive(Clone, Debug, PartialEq, Eq)]
pub struct Vector {
    pub case: Case,
    pub sense: Sense,
    pub answer: Answer,
}

impl Vector {
    /// The line for an engine's answer, with the sense that belongs to its number.
    pub fn new(case: Case, answer: Answer) -> Vector {
        let sense = numbers::sense(answer.number);
        Vector {
            case,
            sense,
            answer,
        }
    }

    pub fn parse(line: &str) -> Result<Vector, String> {
        let words: Vec<&str> = line.split_whitespace().collect();
        let [cdb, out, record, slice, data_in, "->", number, key, code, count, record_after, slice_after, data_in_after] =
            words[..]
        else {
            return Err(format!("{} words, or no arrow", words.len()));
        };
        Ok(Vector {
            case: Case {
                cdb: from_hex(cdb)?,
                out: from_hex(out)?,
                record: record_from_hex(record)?,
                slice: from_hex(slice)?,
                data_in: from_hex(data_in)?,
            },
            sense: Sense {
                key: decimal(key)?,
                code: u16::from_str_radix(code, 16).map_err(|_| format!("code {code}"))?,
            },
            answer: Answer {
                number: decimal(number)?,
                count: decimal(count)?,
                record: record_from_hex(record_after)?,
                slice: from_hex(slice_after)?,
                data_in: from_hex(data_in_after)?,
            },
        })
    }
}

impl fmt::Display for Vector {
    fn fmt(&self, to: &mut fmt::Formatter) -> fmt::Result {
        write!(
            to,
            "{} {} {} {} {}",
            to_hex(&self.case.cdb),
            to_hex(&self.case.out),
            to_hex(&self.case.record.to_bytes()),
            to_hex(&self.case.slice),
            to_hex(&self.case.data_in),
        )?;
        write!(
            to,
            " -> {} {} {:04X} {} {} {} {}",
            self.answer.number,
            self.sense.key,
            self.sense.code,
            self.answer.count,
            to_hex(&self.answer.record.to_bytes()),
            to_hex(&self.answer.slice),
            to_hex(&self.answer.data_in),
        )
    }
}

/// The vectors of a whole file, each with its line number. Remarks and blank lines are passed over.
pub fn parse_file(text: &str) -> Result<Vec<(usize, Vector)>, String> {
    text.lines()
        .enumerate()
        .map(|(index, line)| (index + 1, line.trim()))
        .filter(|(_, line)| !line.is_empty() && !line.starts_with('#'))
        .map(|(number, line)| match Vector::parse(line) {
            Ok(vector) => Ok((number, vector)),
            Err(reason) => Err(format!("line {number}: {reason}")),
        })
        .collect()
}

pub fn to_hex(bytes: &[u8]) -> String {
    if bytes.is_empty() {
        return "-".to_string();
    }
    bytes.iter().map(|byte| format!("{byte:02x}")).collect()
}

pub fn from_hex(text: &str) -> Result<Vec<u8>, String> {
    if text == "-" {
        return Ok(Vec::new());
    }
    let digits: Vec<u8> = text
        .chars()
        .map(|digit| digit.to_digit(16).map(|value| value as u8))
        .collect::<Option<_>>()
        .ok_or("a character that is no hex digit")?;
    if digits.len() % 2 != 0 {
        return Err("half a byte".to_string());
    }
    Ok(digits
        .chunks_exact(2)
        .map(|pair| pair[0] << 4 | pair[1])
        .collect())
}

pub(crate) fn record_from_hex(text: &str) -> Result<Record, String> {
    Record::from_bytes(&from_hex(text)?).ok_or("a record that isn't 38 bytes".to_string())
}

pub(crate) fn decimal<T: std::str::FromStr>(text: &str) -> Result<T, String> {
    text.parse().map_err(|_| format!("no number: {text}"))
}
