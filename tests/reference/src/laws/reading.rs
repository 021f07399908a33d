//! A second reading of the table, from the raw bytes and apart from the engine's.
//!
//! Each row is a question of its own. A row whose bytes aren't there doesn't hold: an earlier row
//! does then. Bytes are named as the documents name them, first and last included, and every
//! number is wide enough for every sum.

use crate::case::Case;

pub const READ: u128 = 0x8885;
pub const WRITE: u128 = 0x8886;
pub const CLEAR: u128 = 0x8889;
pub const PUNCH: u128 = 0x8884;

const ALL_ONES: u128 = 0xFFFF_FFFF_FFFF_FFFF;

/// The first row that holds, from 1 to 14.
pub fn first_row(case: &Case) -> Option<u32> {
    (1..=14).find(|row| holds(*row, case))
}

/// Whether a row of the table holds, asked by itself.
pub fn holds(row: u32, case: &Case) -> bool {
    match row {
        1 => case.slice.len() > 16 * 1024 * 1024 || old_length(case) > case.slice.len() as u128,
        2 => case.cdb.len() != 236 || case.cdb[0] != 0x7F || case.cdb[7] != 228,
        3 => cdb(case, 8, 9).is_some_and(|code| ![READ, WRITE, CLEAR, PUNCH].contains(&code)),
        4 => {
            differs(cdb(case, 16, 23), case.record.partition_id)
                || differs(cdb(case, 24, 31), case.record.user_object_id)
        }
        5 => cdb(case, 48, 51).is_some_and(|length| {
            length != 0 && (!(40..=2048).contains(&length) || length > case.out.len() as u128)
        }),
        6 => segment(case)
            .is_some_and(|segment| segment[0] != 1 || number(segment, 2, 3) != cdb(case, 8, 9)),
        7 => segment(case).is_some_and(|segment| has_flaw(&segment[40..], &[])),
        8 => list(case).is_some() && is_one_of(case, &[CLEAR, PUNCH]),
        9 => list(case).is_some() && cdb(case, 40, 47) != Some(0),
        10 => list(case).is_some_and(|entries| {
            cdb(case, 32, 39) != Some(entries.iter().map(|entry| entry.length).sum())
                || is_one_of(case, &[WRITE]) && neighbours_overlap(entries)
        }),
        11 => !admitted(case),
        12 => {
            is_one_of(case, &[READ, PUNCH])
                && ranges(case)
                    .iter()
                    .any(|span| span.start > old_length(case))
        }
        13 => {
            let given = match action(case) {
                Some(READ) => case.data_in.len(),
                Some(WRITE) => command_data(case).len(),
                _ => return false,
            };
            length(case) > given as u128
        }
        14 => {
            let top = highest_end(case);
            let room = u128::min(case.record.maximum_length.into(), case.slice.len() as u128);
            is_one_of(case, &[WRITE, CLEAR]) && top > old_length(case) && top > room
        }
        _ => panic!("the table has no row {row}"),
    }
}

/// Positions from `start` on, `length` of them.
#[derive(Clone, Copy, Debug, PartialEq, Eq)]
pub struct Span {
    pub start: u128,
    pub length: u128,
}

impl Span {
    pub fn end(self) -> u128 {
        self.start + self.length
    }
}

pub fn action(case: &Case) -> Option<u128> {
    cdb(case, 8, 9)
}

pub fn length(case: &Case) -> u128 {
    cdb(case, 32, 39).unwrap_or(0)
}

pub fn old_length(case: &Case) -> u128 {
    case.record.logical_length.into()
}

/// The list's entries, or without a list the range of the CDB.
pub fn ranges(case: &Case) -> Vec<Span> {
    if let Some(entries) = list(case) {
        return entries;
    }
    let start = cdb(case, 40, 47).unwrap_or(0);
    let length = length(case);
    vec![Span { start, length }]
}

/// What follows the segment in Data-Out.
pub fn command_data(case: &Case) -> &[u8] {
    let skipped = segment(case).map_or(0, <[u8]>::len);
    &case.out[skipped..]
}

/// The larger of the old length and the highest written position plus one.
pub fn highest_end(case: &Case) -> u128 {
    let written = ranges(case).into_iter().filter(|span| span.length > 0);
    written.map(Span::end).fold(old_length(case), u128::max)
}

/// Whether a range has a position at or above the object's length.
pub fn goes_past_the_end(case: &Case) -> bool {
    ranges(case)
        .iter()
        .any(|span| span.length > 0 && span.end() > old_length(case))
}

/// Each descriptor of a type, as where in Data-Out its data begins, data length and pad length.
pub fn descriptors(case: &Case, code: u128) -> Vec<(usize, usize, usize)> {
    let Some(segment) = segment(case) else {
        return Vec::new();
    };
    let mut found = Vec::new();
    let mut at = 40;
    while let Some(header) = segment.get(at..at + 8) {
        let kind = number(header, 0, 1).unwrap_or(0);
        let data = number(header, 4, 7).unwrap_or(0) as usize;
        let pad = usize::from(header[3] % 8);
        let next = at + 8 + data + pad;
        if kind == 0 || next > segment.len() {
            break;
        }
        if kind == code {
            found.push((at + 8, data, pad));
        }
        at = next;
    }
    found
}

/// The capabilities of a command: each with its 104 bytes, and its offset in Data-Out where it
/// stands there.
pub fn capabilities(case: &Case) -> Vec<(Option<usize>, &[u8])> {
    let mut all = Vec::new();
    if let Some(own) = case.cdb.get(80..184) {
        all.push((None, own));
    }
    for (data_at, data, _) in descriptors(case, 0xFFEE) {
        for at in (data_at..data_at + data).step_by(104) {
            all.extend(case.out.get(at..at + 104).map(|bytes| (Some(at), bytes)));
        }
    }
    all
}

/// Whether a capability, as 104 bytes, matches the command.
pub fn matches(case: &Case, bytes: &[u8]) -> bool {
    let field = |first, last| number(bytes, first, last).unwrap_or(0);
    let permission = if is_one_of(case, &[READ]) { 0x80 } else { 0x40 };
    let tag = field(60, 63);
    let epochs = [field(64, 65), case.record.boot_epoch.into()];
    field(48, 48) == 0x80
        && field(55, 55) / 16 == 1
        && field(49, 49) & permission == permission
        && field(72, 79) != 0
        && field(80, 87) != 0
        && Some(field(72, 79)) == cdb(case, 16, 23)
        && Some(field(80, 87)) == cdb(case, 24, 31)
        && [0, case.record.policy_access_tag.into()].contains(&tag)
        && (epochs.contains(&0) || epochs[0] == epochs[1])
}

/// Whether a span lies inside the allowed one of a capability.
pub fn covers(bytes: &[u8], span: Span) -> bool {
    let field = |first, last| number(bytes, first, last).unwrap_or(0);
    let allowed_end = match field(88, 95) {
        ALL_ONES => 1 << 64,
        length => field(96, 103) + length,
    };
    field(96, 103) <= span.start && span.end() <= allowed_end
}

fn admitted(case: &Case) -> bool {
    let matching: Vec<&[u8]> = capabilities(case)
        .into_iter()
        .map(|(_, bytes)| bytes)
        .filter(|bytes| matches(case, bytes))
        .collect();
    let covered = |span: &Span| matching.iter().any(|bytes| covers(bytes, *span));
    !matching.is_empty() && ranges(case).iter().all(covered)
}

fn list(case: &Case) -> Option<Vec<Span>> {
    let (data_at, data, _) = *descriptors(case, 1).first()?;
    let entry = |at| {
        Some(Span {
            start: number(&case.out, at, at + 7)?,
            length: number(&case.out, at + 8, at + 15)?,
        })
    };
    (data_at..data_at + data).step_by(16).map(entry).collect()
}

/// Row 7: whether anything is wrong in what is left of the segment, after these types.
fn has_flaw(rest: &[u8], seen: &[u128]) -> bool {
    if rest.len() < 8 {
        return rest.iter().any(|&byte| byte != 0);
    }
    let kind = number(rest, 0, 1).unwrap_or(0);
    let data = number(rest, 4, 7).unwrap_or(0);
    let whole = 8 + data + u128::from(rest[3] & 7);
    let sizes: Vec<u128> = match kind {
        0 => return false,
        0x0001 => (0..=64).map(|entries| entries * 16).collect(),
        0xFFEE => (1..=8).map(|capabilities| capabilities * 104).collect(),
        _ => return true,
    };
    if !sizes.contains(&data) || whole % 8 != 0 || whole > rest.len() as u128 {
        return true;
    }
    seen.contains(&kind) || has_flaw(&rest[whole as usize..], &[seen, &[kind]].concat())
}

/// In order of their starts, two nonempty spans can only overlap if two neighbours do.
fn neighbours_overlap(mut entries: Vec<Span>) -> bool {
    entries.retain(|entry| entry.length > 0);
    entries.sort_by_key(|entry| entry.start);
    entries.windows(2).any(|two| two[0].end() > two[1].start)
}

/// The bytes of the segment, where there is one that lies in Data-Out.
fn segment(case: &Case) -> Option<&[u8]> {
    match cdb(case, 48, 51)? as usize {
        length if length < 40 => None,
        length => case.out.get(..length),
    }
}

fn is_one_of(case: &Case, actions: &[u128]) -> bool {
    action(case).is_some_and(|code| actions.contains(&code))
}

fn differs(field: Option<u128>, value: u64) -> bool {
    field.is_some_and(|field| field != value.into())
}

fn cdb(case: &Case, first: usize, last: usize) -> Option<u128> {
    number(&case.cdb, first, last)
}

fn number(bytes: &[u8], first: usize, last: usize) -> Option<u128> {
    let field = bytes.get(first..=last)?;
    Some(
        field
            .iter()
            .fold(0, |value, &byte| value * 256 + u128::from(byte)),
    )
}
