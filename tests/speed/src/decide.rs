//! Rows 1 to 14 of the table of numbers, for the Rust contestant.

const CDB_BYTES: usize = 236;
const CAPABILITY_AT: usize = 80;
const CAPABILITY_BYTES: usize = 104;
const MOST_SLICE_BYTES: usize = 16_777_216;
const MOST_ENTRIES: usize = 64;
const MOST_CAPABILITIES: usize = 9;

pub struct Record {
    pub partition: u64,
    pub object: u64,
    pub length: u64,
    pub maximum: u64,
    pub tag: u32,
    pub epoch: u16,
}

#[derive(Clone, Copy, PartialEq, Eq)]
pub enum Verb {
    Read,
    Write,
    Clear,
    Punch,
}

#[derive(Clone, Copy, Default)]
pub struct Range {
    pub start: u64,
    pub size: u64,
}

/// What is to be carried out.
pub struct Command<'a> {
    pub verb: Verb,
    pub start: u64,
    pub size: u64,
    pub has_list: bool,
    /// The list's entries, or without one the one range of the CDB.
    pub ranges: &'a [Range],
    pub data: &'a [u8],
    /// The logical length that WRITE and CLEAR leave.
    pub raised: usize,
}

/// What is lent to a call beside CDB, Data-Out and record.
pub struct Lent<'a> {
    pub slice: &'a mut [u8],
    pub input: &'a mut [u8],
}

/// What rows 2 to 8 let through.
struct Header<'a> {
    verb: Verb,
    start: u64,
    size: u64,
    list: Option<&'a [u8]>,
    /// Where the extension's data stands in the segment, and the data.
    extension: Option<(usize, &'a [u8])>,
    data: &'a [u8],
}

#[inline]
fn be16(bytes: &[u8], at: usize) -> u16 {
    u16::from_be_bytes(bytes[at..at + 2].try_into().unwrap())
}

#[inline]
fn be32(bytes: &[u8], at: usize) -> u32 {
    u32::from_be_bytes(bytes[at..at + 4].try_into().unwrap())
}

#[inline]
fn be64(bytes: &[u8], at: usize) -> u64 {
    u64::from_be_bytes(bytes[at..at + 8].try_into().unwrap())
}

/// Decides, and hands what is to be carried out to `deed`; a refusal's answer is its number.
pub fn decide<T>(
    cdb: &[u8],
    out: &[u8],
    on: &Record,
    lent: Lent,
    deed: impl Fn(&Command, Lent) -> T,
) -> Result<T, u32> {
    if lent.slice.len() > MOST_SLICE_BYTES || on.length > lent.slice.len() as u64 {
        return Err(1);
    }
    let header = read(cdb, out, on)?;
    let sole = [Range {
        start: header.start,
        size: header.size,
    }];
    let mut entries;
    let ranges = match header.list {
        None => &sole[..],
        Some(list) => {
            entries = [Range::default(); MOST_ENTRIES];
            take_list(&header, list, &mut entries)?
        }
    };
    if !is_admitted(cdb, &header, on, ranges) {
        return Err(11);
    }
    let raised = match header.verb {
        Verb::Read | Verb::Punch => may_take(&header, ranges, on, lent.input.len())?,
        Verb::Write | Verb::Clear => may_put(&header, ranges, on, lent.slice.len())?,
    };
    let command = Command {
        verb: header.verb,
        start: header.start,
        size: header.size,
        has_list: header.list.is_some(),
        ranges,
        data: header.data,
        raised,
    };
    Ok(deed(&command, lent))
}

/// Rows 2 to 8.
fn read<'a>(cdb: &[u8], out: &'a [u8], on: &Record) -> Result<Header<'a>, u32> {
    if cdb.len() != CDB_BYTES || cdb[0] != 0x7F || cdb[7] != 228 {
        return Err(2);
    }
    let action = be16(cdb, 8);
    let verb = match action {
        0x8885 => Verb::Read,
        0x8886 => Verb::Write,
        0x8889 => Verb::Clear,
        0x8884 => Verb::Punch,
        _ => return Err(3),
    };
    if be64(cdb, 16) != on.partition || be64(cdb, 24) != on.object {
        return Err(4);
    }
    let end = be32(cdb, 48) as usize;
    if end != 0 && !(40..=2048).contains(&end) || end > out.len() {
        return Err(5);
    }
    let (segment, data) = out.split_at(end);
    let mut header = Header {
        verb,
        size: be64(cdb, 32),
        start: be64(cdb, 40),
        list: None,
        extension: None,
        data,
    };
    if !segment.is_empty() {
        walk(segment, action, &mut header)?;
    }
    Ok(header)
}

/// Rows 6 to 8.
fn walk<'a>(segment: &'a [u8], action: u16, header: &mut Header<'a>) -> Result<(), u32> {
    if segment[0] != 0x01 || be16(segment, 2) != action {
        return Err(6);
    }
    let mut at = 40;
    loop {
        let rest = &segment[at..];
        if rest.len() < 8 {
            if rest.iter().any(|&byte| byte != 0) {
                return Err(7);
            }
            break;
        }
        let kind = be16(rest, 0);
        if kind == 0 {
            break;
        }
        let size = be32(rest, 4) as usize;
        let pad = usize::from(rest[3] & 7);
        let sound = match kind {
            0x0001 => size <= 1024 && size % 16 == 0 && header.list.is_none(),
            0xFFEE => {
                size <= 832
                    && size != 0
                    && size % CAPABILITY_BYTES == 0
                    && header.extension.is_none()
            }
            _ => false,
        };
        if !sound || (size + pad) % 8 != 0 || rest.len() < 8 + size + pad {
            return Err(7);
        }
        let data = &rest[8..8 + size];
        if kind == 0x0001 {
            header.list = Some(data);
        } else {
            header.extension = Some((at + 8, data));
        }
        at += 8 + size + pad;
    }
    if header.list.is_some() && matches!(header.verb, Verb::Clear | Verb::Punch) {
        return Err(8);
    }
    Ok(())
}

/// Rows 9 and 10.
fn take_list<'a>(
    header: &Header,
    list: &[u8],
    entries: &'a mut [Range; MOST_ENTRIES],
) -> Result<&'a [Range], u32> {
    if header.start != 0 {
        return Err(9);
    }
    let mut sum: u64 = 0;
    for (entry, bytes) in entries.iter_mut().zip(list.chunks_exact(16)) {
        entry.start = be64(bytes, 0);
        entry.size = be64(bytes, 8);
        sum = sum.checked_add(entry.size).ok_or(10u32)?;
    }
    let ranges = &entries[..list.len() / 16];
    if sum != header.size || header.verb == Verb::Write && overlap(ranges) {
        return Err(10);
    }
    Ok(ranges)
}

/// Each nonempty range and all that come after it.
pub fn overlap(ranges: &[Range]) -> bool {
    ranges
        .iter()
        .enumerate()
        .any(|(index, one)| ranges[index + 1..].iter().any(|other| share(one, other)))
}

/// The distance of the starts is compared, because an end can pass 2^64.
#[inline]
fn share(one: &Range, other: &Range) -> bool {
    if one.start <= other.start {
        other.start - one.start < one.size && other.size != 0
    } else {
        one.start - other.start < other.size && one.size != 0
    }
}

/// Row 11. Which capabilities match is asked once, and not for each range.
fn is_admitted(cdb: &[u8], header: &Header, on: &Record, ranges: &[Range]) -> bool {
    let mut allowed = [Range::default(); MOST_CAPABILITIES];
    let mut count = 0;
    let own = &cdb[CAPABILITY_AT..CAPABILITY_AT + CAPABILITY_BYTES];
    let others = header.extension.map_or(&[][..], |(_, data)| data);
    for capability in std::iter::once(own).chain(others.chunks_exact(CAPABILITY_BYTES)) {
        if matches(capability, header.verb, on) {
            allowed[count] = allows(capability);
            count += 1;
        }
    }
    let allowed = &allowed[..count];
    count != 0
        && ranges
            .iter()
            .all(|range| allowed.iter().any(|within| is_inside(range, within)))
}

/// The command's IDs are the record's by now.
fn matches(capability: &[u8], verb: Verb, on: &Record) -> bool {
    let bit = if verb == Verb::Read { 0x80 } else { 0x40 };
    let tag = be32(capability, 60);
    let epoch = be16(capability, 64);
    let partition = be64(capability, 72);
    let object = be64(capability, 80);
    capability[48] == 0x80
        && capability[55] >> 4 == 1
        && capability[49] & bit != 0
        && partition != 0
        && partition == on.partition
        && object != 0
        && object == on.object
        && (tag == 0 || tag == on.tag)
        && (epoch == 0 || on.epoch == 0 || epoch == on.epoch)
}

fn allows(capability: &[u8]) -> Range {
    Range {
        start: be64(capability, 96),
        size: be64(capability, 88),
    }
}

#[inline]
fn is_inside(range: &Range, within: &Range) -> bool {
    if range.start < within.start {
        return false;
    }
    if within.size == u64::MAX {
        return range.size == 0 || range.size - 1 <= u64::MAX - range.start;
    }
    let skipped = range.start - within.start;
    skipped <= within.size && range.size <= within.size - skipped
}

/// Rows 12 and 13 of READ and PUNCH; the answer is the logical length, which isn't raised.
fn may_take(header: &Header, ranges: &[Range], on: &Record, input: usize) -> Result<usize, u32> {
    if ranges.iter().any(|range| range.start > on.length) {
        return Err(12);
    }
    if header.verb == Verb::Read && (input as u64) < header.size {
        return Err(13);
    }
    Ok(on.length as usize)
}

/// Rows 13 and 14 of WRITE and CLEAR; the answer is the logical length that they leave.
fn may_put(header: &Header, ranges: &[Range], on: &Record, slice: usize) -> Result<usize, u32> {
    if header.verb == Verb::Write && (header.data.len() as u64) < header.size {
        return Err(13);
    }
    let mut raised = on.length;
    for range in ranges.iter().filter(|range| range.size != 0) {
        let end = range.start.checked_add(range.size).ok_or(14u32)?;
        raised = raised.max(end);
    }
    if raised != on.length && (raised > on.maximum || raised > slice as u64) {
        return Err(14);
    }
    Ok(raised as usize)
}

/// The admission question: 0, or 1 with 80, or 2 with where the capability stands in Data-Out.
pub fn question(cdb: &[u8], out: &[u8], on: &Record, start: u64, size: u64) -> (u32, usize) {
    let Ok(header) = read(cdb, out, on) else {
        return (0, 0);
    };
    let range = Range { start, size };
    let admits = |capability: &[u8]| {
        matches(capability, header.verb, on) && is_inside(&range, &allows(capability))
    };
    if admits(&cdb[CAPABILITY_AT..CAPABILITY_AT + CAPABILITY_BYTES]) {
        return (1, CAPABILITY_AT);
    }
    let Some((at, data)) = header.extension else {
        return (0, 0);
    };
    match data.chunks_exact(CAPABILITY_BYTES).position(admits) {
        Some(index) => (2, at + index * CAPABILITY_BYTES),
        None => (0, 0),
    }
}
