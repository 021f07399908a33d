//! The files of the program `bench`, and the line that it prints for each.
//!
//! A file has four sections, each after its four-byte count: CDB, Data-Out, record and object slice.

use crate::bytes;
use crate::case::Case;
use crate::numbers::{self, Sense};
use crate::record::Record;

pub const MOST_CDB: usize = 1_024;
pub const MOST_OUT: usize = 8_192;
pub const MOST_SLICE: usize = 16_384;
const DATA_IN: usize = 4_096;

pub const BAD_FILE: &str = "bad file";

/// The file of these sections, whatever their sizes.
pub fn file(sections: [&[u8]; 4]) -> Vec<u8> {
    sections
        .into_iter()
        .flat_map(|section| [&(section.len() as u32).to_be_bytes(), section].concat())
        .collect()
}

/// A call as a file. Its Data-In is left out: the program has one of its own.
pub fn file_of(case: &Case) -> Vec<u8> {
    file([&case.cdb, &case.out, &case.record.to_bytes(), &case.slice])
}

/// The program takes a call of this size.
pub fn takes(case: &Case) -> bool {
    case.cdb.len() <= MOST_CDB && case.out.len() <= MOST_OUT && case.slice.len() <= MOST_SLICE
}

/// What the program prints for a file.
pub fn line(file: &[u8]) -> String {
    match read(file) {
        Some(case) => answer_line(&case),
        None => BAD_FILE.to_string(),
    }
}

fn answer_line(case: &Case) -> String {
    let answer = case.answer();
    let Sense { key, code } = numbers::sense(answer.number);
    format!(
        "{} {key} {code:04X} {} {}",
        answer.number, answer.count, answer.record.logical_length
    )
}

fn read(file: &[u8]) -> Option<Case> {
    let (cdb, file) = section(file, MOST_CDB)?;
    let (out, file) = section(file, MOST_OUT)?;
    let (record, file) = section(file, Record::BYTES)?;
    let (slice, file) = section(file, MOST_SLICE)?;
    if !file.is_empty() {
        return None;
    }
    Some(Case {
        cdb: cdb.to_vec(),
        out: out.to_vec(),
        record: Record::from_bytes(record)?,
        slice: slice.to_vec(),
        data_in: vec![0; DATA_IN],
    })
}

/// The first section and what follows it; none where its count is over the limit or the file ends.
fn section(file: &[u8], most: usize) -> Option<(&[u8], &[u8])> {
    let (count, rest) = file.split_at_checked(4)?;
    let count = bytes::get_u32(count, 0) as usize;
    if count > most {
        return None;
    }
    rest.split_at_checked(count)
}
