//! The CDB: its four verbs, its fields, and the ranges a command speaks of.

use crate::bytes;

pub const CDB_BYTES: usize = 236;
/// Byte 0 of every CDB.
pub const OPERATION_CODE: u8 = 0x7F;
/// Byte 7 of every CDB.
pub const ADDITIONAL_LENGTH: u8 = 228;
/// Where the CDB's own capability begins.
pub const CAPABILITY_AT: usize = 80;

#[derive(Clone, Copy, Debug, PartialEq, Eq)]
pub enum Action {
    Read,
    Write,
    Clear,
    Punch,
}

impl Action {
    pub const ALL: [Action; 4] = [Action::Read, Action::Write, Action::Clear, Action::Punch];

    pub fn code(self) -> u16 {
        match self {
            Action::Read => 0x8885,
            Action::Write => 0x8886,
            Action::Clear => 0x8889,
            Action::Punch => 0x8884,
        }
    }

    /// Takes a number wider than the field, so that one that doesn't fit it is unknown, not cut.
    pub fn from_code(code: u64) -> Option<Action> {
        Action::ALL
            .into_iter()
            .find(|action| u64::from(action.code()) == code)
    }

    /// House rule: READ and WRITE may have a list, CLEAR and PUNCH may not.
    pub fn may_have_list(self) -> bool {
        matches!(self, Action::Read | Action::Write)
    }
}

/// The fields of a CDB, as they stand in its bytes.
#[derive(Clone, Copy, Debug, PartialEq, Eq)]
pub struct Fields {
    pub service_action: u16,
    pub partition_id: u64,
    pub user_object_id: u64,
    pub length: u64,
    pub starting_byte_address: u64,
    pub continuation_length: u32,
}

impl Fields {
    /// Asks for the 236 bytes that row 2 has made sure of.
    pub fn of(cdb: &[u8]) -> Fields {
        Fields {
            service_action: bytes::get_u16(cdb, 8),
            partition_id: bytes::get_u64(cdb, 16),
            user_object_id: bytes::get_u64(cdb, 24),
            length: bytes::get_u64(cdb, 32),
            starting_byte_address: bytes::get_u64(cdb, 40),
            continuation_length: bytes::get_u32(cdb, 48),
        }
    }

    /// Puts the fields into a CDB, and the two fixed bytes with them.
    pub fn put(&self, cdb: &mut [u8]) {
        cdb[0] = OPERATION_CODE;
        cdb[7] = ADDITIONAL_LENGTH;
        bytes::put_u16(cdb, 8, self.service_action);
        bytes::put_u64(cdb, 16, self.partition_id);
        bytes::put_u64(cdb, 24, self.user_object_id);
        bytes::put_u64(cdb, 32, self.length);
        bytes::put_u64(cdb, 40, self.starting_byte_address);
        bytes::put_u32(cdb, 48, self.continuation_length);
    }
}

/// `length` positions from `start` on.
#[derive(Clone, Copy, Debug, PartialEq, Eq)]
pub struct Range {
    pub start: u64,
    pub length: u64,
}

impl Range {
    /// The position after the last one. It may lie above 2^64, so it is a wider number.
    pub fn end(self) -> u128 {
        u128::from(self.start) + u128::from(self.length)
    }

    pub fn is_empty(self) -> bool {
        self.length == 0
    }

    /// An empty range has no position, so it shares none, also where it stands inside another.
    pub fn shares_a_position_with(self, other: Range) -> bool {
        if self.is_empty() || other.is_empty() {
            return false;
        }
        u128::from(self.start) < other.end() && u128::from(other.start) < self.end()
    }
}

/// The sum of the lengths as a whole number: 64 of them can pass 2^64.
pub fn total_length(ranges: &[Range]) -> u128 {
    ranges.iter().map(|range| u128::from(range.length)).sum()
}

pub fn any_two_share_a_position(ranges: &[Range]) -> bool {
    ranges.iter().enumerate().any(|(index, range)| {
        ranges[index + 1..]
            .iter()
            .any(|later| range.shares_a_position_with(*later))
    })
}
