//! The CDB continuation segment: its descriptors and the walk over them (row 7).

use crate::bytes;
use crate::capability::Capability;
use crate::command::Range;

/// Bytes before the first descriptor.
pub const HEADER_BYTES: usize = 40;
pub const FORMAT: u8 = 0x01;
pub const MOST_BYTES: usize = 2048;

pub const DESCRIPTOR_HEADER_BYTES: usize = 8;
pub const END_TYPE: u16 = 0x0000;
pub const LIST_TYPE: u16 = 0x0001;
pub const EXTENSION_TYPE: u16 = 0xFFEE;

pub const LIST_ENTRY_BYTES: usize = 16;
pub const MOST_LIST_ENTRIES: usize = 64;
pub const MOST_EXTENSION_CAPABILITIES: usize = 8;

#[derive(Clone, Copy, Debug, PartialEq, Eq)]
pub enum Kind {
    List,
    Extension,
}

impl Kind {
    fn from_type(code: u16) -> Option<Kind> {
        match code {
            LIST_TYPE => Some(Kind::List),
            EXTENSION_TYPE => Some(Kind::Extension),
            _ => None,
        }
    }

    fn supported_data_length(self) -> u64 {
        match self {
            Kind::List => (MOST_LIST_ENTRIES * LIST_ENTRY_BYTES) as u64,
            Kind::Extension => (MOST_EXTENSION_CAPABILITIES * Capability::BYTES) as u64,
        }
    }

    /// Whole entries or whole capabilities. A list may be empty, an extension may not.
    fn fits(self, data_length: u64) -> bool {
        match self {
            Kind::List => data_length % LIST_ENTRY_BYTES as u64 == 0,
            Kind::Extension => data_length > 0 && data_length % Capability::BYTES as u64 == 0,
        }
    }
}

/// A descriptor that passed every test of its own. Offsets count from the segment's start.
#[derive(Clone, Copy, Debug, PartialEq, Eq)]
pub struct Descriptor {
    pub kind: Kind,
    pub header_at: usize,
    pub data_at: usize,
    pub data_length: usize,
    pub pad_length: usize,
}

impl Descriptor {
    fn next_at(&self) -> usize {
        self.data_at + self.data_length + self.pad_length
    }
}

/// What row 7 can find, in the order its text names it. A descriptor is tested in this order too,
/// so that a descriptor with two flaws still has one cause.
#[derive(Clone, Copy, Debug, PartialEq, Eq)]
pub enum Cause {
    UnknownType,
    DataOverSupportedLength,
    DataAndPadNoMultipleOfEight,
    DataDoesNotFitType,
    RunsPastSegment,
    TypeRepeated,
    RemainderNotZero,
}

/// The first flaw of a segment: its cause, and where the descriptor's header (or the remainder)
/// begins in the segment.
#[derive(Clone, Copy, Debug, PartialEq, Eq)]
pub struct Fault {
    pub cause: Cause,
    pub offset: usize,
}

/// The descriptors of a whole segment.
#[derive(Clone, Copy, Debug, Default, PartialEq, Eq)]
pub struct Contents {
    pub list: Option<Descriptor>,
    pub extension: Option<Descriptor>,
}

impl Contents {
    fn slot(&mut self, kind: Kind) -> &mut Option<Descriptor> {
        match kind {
            Kind::List => &mut self.list,
            Kind::Extension => &mut self.extension,
        }
    }
}

/// One step of the walk: the descriptor at `position`, or none where the walk ends.
pub fn step(segment: &[u8], position: usize) -> Result<Option<Descriptor>, Fault> {
    let rest = &segment[position..];
    let fault = |cause| {
        Err(Fault {
            cause,
            offset: position,
        })
    };
    // Too few bytes for a header: no type is read, also where the first two of them are zero.
    if rest.len() < DESCRIPTOR_HEADER_BYTES {
        return match rest.iter().all(|&byte| byte == 0) {
            true => Ok(None),
            false => fault(Cause::RemainderNotZero),
        };
    }
    let code = bytes::get_u16(rest, 0);
    if code == END_TYPE {
        return Ok(None);
    }
    let Some(kind) = Kind::from_type(code) else {
        return fault(Cause::UnknownType);
    };
    let pad_length = u64::from(rest[3] & 0b111);
    let data_length = u64::from(bytes::get_u32(rest, 4));
    if data_length > kind.supported_data_length() {
        return fault(Cause::DataOverSupportedLength);
    }
    if (data_length + pad_length) % 8 != 0 {
        return fault(Cause::DataAndPadNoMultipleOfEight);
    }
    if !kind.fits(data_length) {
        return fault(Cause::DataDoesNotFitType);
    }
    if DESCRIPTOR_HEADER_BYTES as u64 + data_length + pad_length > rest.len() as u64 {
        return fault(Cause::RunsPastSegment);
    }
    Ok(Some(Descriptor {
        kind,
        header_at: position,
        data_at: position + DESCRIPTOR_HEADER_BYTES,
        data_length: data_length as usize,
        pad_length: pad_length as usize,
    }))
}

/// The whole walk. A command without continuation has an empty segment, and so no descriptor.
pub fn walk(segment: &[u8]) -> Result<Contents, Fault> {
    let mut contents = Contents::default();
    if segment.is_empty() {
        return Ok(contents);
    }
    let mut position = HEADER_BYTES;
    while let Some(descriptor) = step(segment, position)? {
        let slot = contents.slot(descriptor.kind);
        if slot.is_some() {
            return Err(Fault {
                cause: Cause::TypeRepeated,
                offset: position,
            });
        }
        *slot = Some(descriptor);
        position = descriptor.next_at();
    }
    Ok(contents)
}

/// The entries of a list descriptor: offset, then length.
pub fn list_entries(segment: &[u8], list: &Descriptor) -> Vec<Range> {
    segment[list.data_at..list.data_at + list.data_length]
        .chunks_exact(LIST_ENTRY_BYTES)
        .map(|entry| Range {
            start: bytes::get_u64(entry, 0),
            length: bytes::get_u64(entry, 8),
        })
        .collect()
}

/// Where each capability of an extension descriptor begins in the segment.
pub fn capability_offsets(extension: &Descriptor) -> Vec<usize> {
    let end = extension.data_at + extension.data_length;
    (extension.data_at..end)
        .step_by(Capability::BYTES)
        .collect()
}
