//! The fields of a segment that are compared, and what each frame is due to show of them.
//!
//! What is due is kept as a file with a line for each frame that has a segment: the frame's number, then
//! a word for each of [`FIELDS`], in which commas stand between the descriptors' values.

use super::requests::Shape;
use crate::capability::Capability;
use crate::generate::request::OwnedRequest;
use crate::segment::{EXTENSION_TYPE, FORMAT, LIST_ENTRY_BYTES, LIST_TYPE};

/// A field as Wireshark names it: in filters, and to its readers.
#[derive(Debug)]
pub struct Field {
    pub name: &'static str,
    pub label: &'static str,
    /// Whether the comparison is in vain without it. The others are compared where they are shown.
    pub is_needed: bool,
    is_hex: bool,
}

pub const FIELDS: [Field; 5] = [
    Field {
        name: "scsi_osd2.cdb_continuation.format",
        label: "CDB Continuation Format",
        is_needed: true,
        is_hex: false,
    },
    // The copies in the capture have another one than was written, so it tells of the place alone.
    Field {
        name: "scsi_osd2.cdb_continuation.sa",
        label: "Continued Service Action",
        is_needed: false,
        is_hex: true,
    },
    Field {
        name: "scsi_osd2.cdb_continuation.desc.type",
        label: "Descriptor Type",
        is_needed: true,
        is_hex: true,
    },
    Field {
        name: "scsi_osd2.cdb_continuation.desc.padlen",
        label: "Descriptor Pad Length",
        is_needed: false,
        is_hex: false,
    },
    Field {
        name: "scsi_osd2.cdb_continuation.desc.length",
        label: "Descriptor Length",
        is_needed: true,
        is_hex: false,
    },
];

impl Field {
    /// One word.
    pub fn word(&self, values: &[u64]) -> String {
        let words: Vec<String> = values
            .iter()
            .map(|value| match self.is_hex {
                true => format!("{value:#06x}"),
                false => value.to_string(),
            })
            .collect();
        words.join(",")
    }
}

/// What a frame is due to show: for each of [`FIELDS`] its values, in the order of the segment's bytes.
#[derive(Clone, Debug, PartialEq, Eq)]
pub struct Due {
    pub frame: u32,
    pub values: [Vec<u64>; FIELDS.len()],
}

impl Due {
    /// From the request and not from what was written, which may be wrong.
    pub fn of(frame: u32, action: u16, request: &OwnedRequest) -> Due {
        let descriptors = descriptors(Shape::of(request));
        let (types, lengths): (Vec<u64>, Vec<u64>) = descriptors.into_iter().unzip();
        Due {
            frame,
            values: [
                vec![FORMAT.into()],
                vec![action.into()],
                types,
                vec![0; lengths.len()],
                lengths,
            ],
        }
    }

    pub fn line(&self) -> String {
        let words: Vec<String> = FIELDS
            .iter()
            .zip(&self.values)
            .map(|(field, values)| field.word(values))
            .collect();
        format!("{} {}", self.frame, words.join(" "))
    }

    pub fn parse(line: &str) -> Result<Due, String> {
        parse_words(line).ok_or_else(|| format!("no frame with its fields: {line}"))
    }
}

/// Type and data length of each descriptor.
fn descriptors(shape: Shape) -> Vec<(u64, u64)> {
    let mut all = Vec::new();
    if let Some(entries) = shape.entries {
        all.push((LIST_TYPE.into(), (entries * LIST_ENTRY_BYTES) as u64));
    }
    if shape.extension_capabilities > 0 {
        let length = shape.extension_capabilities * Capability::BYTES;
        all.push((EXTENSION_TYPE.into(), length as u64));
    }
    all
}

fn parse_words(line: &str) -> Option<Due> {
    let mut words = line.split_whitespace();
    let frame = words.next()?.parse().ok()?;
    let values: Vec<Vec<u64>> = words
        .map(|word| word.split(',').map(number).collect())
        .collect::<Option<_>>()?;
    Some(Due {
        frame,
        values: values.try_into().ok()?,
    })
}

/// Decimal, or hex behind `0x`.
pub fn number(word: &str) -> Option<u64> {
    match word.strip_prefix("0x") {
        Some(digits) => u64::from_str_radix(digits, 16).ok(),
        None => word.parse().ok(),
    }
}
