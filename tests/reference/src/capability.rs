//! Capabilities: their bytes, when one matches a command, and when a range lies inside one.

use crate::bytes;
use crate::command::{Action, Fields, Range, CAPABILITY_AT};
use crate::record::Record;

pub const USER_OBJECT_TYPE: u8 = 0x80;
pub const USER_DESCRIPTOR_TYPE: u8 = 1;
pub const READ_PERMISSION: u8 = 0x80;
pub const WRITE_PERMISSION: u8 = 0x40;

/// An allowed length of all ones: every byte from the allowed start on.
pub const TO_THE_LAST_BYTE: u64 = u64::MAX;

#[derive(Clone, Copy, Debug, PartialEq, Eq)]
pub struct Capability {
    pub object_type: u8,
    pub permissions: u8,
    pub descriptor_type: u8,
    pub policy_access_tag: u32,
    pub boot_epoch: u16,
    pub allowed_partition: u64,
    pub allowed_object: u64,
    pub allowed_length: u64,
    pub allowed_start: u64,
}

impl Capability {
    pub const BYTES: usize = 104;

    pub fn from_bytes(from: &[u8]) -> Capability {
        Capability {
            object_type: from[48],
            permissions: from[49],
            // Byte 55 as in 002's table 12: the page on scope says 54, and that the table decides.
            descriptor_type: from[55] >> 4,
            policy_access_tag: bytes::get_u32(from, 60),
            boot_epoch: bytes::get_u16(from, 64),
            allowed_partition: bytes::get_u64(from, 72),
            allowed_object: bytes::get_u64(from, 80),
            allowed_length: bytes::get_u64(from, 88),
            allowed_start: bytes::get_u64(from, 96),
        }
    }

    /// Puts the fields into 104 bytes and leaves every other bit as it is.
    pub fn put(&self, to: &mut [u8]) {
        to[48] = self.object_type;
        to[49] = self.permissions;
        to[55] = self.descriptor_type << 4 | to[55] & 0x0F;
        bytes::put_u32(to, 60, self.policy_access_tag);
        bytes::put_u16(to, 64, self.boot_epoch);
        bytes::put_u64(to, 72, self.allowed_partition);
        bytes::put_u64(to, 80, self.allowed_object);
        bytes::put_u64(to, 88, self.allowed_length);
        bytes::put_u64(to, 96, self.allowed_start);
    }

    pub fn to_bytes(&self) -> [u8; Capability::BYTES] {
        let mut to = [0; Capability::BYTES];
        self.put(&mut to);
        to
    }

    /// Whether it speaks of this command at all; its range isn't asked here.
    pub fn matches(&self, action: Action, fields: &Fields, record: &Record) -> bool {
        self.object_type == USER_OBJECT_TYPE
            && self.descriptor_type == USER_DESCRIPTOR_TYPE
            && self.permissions & permission_for(action) != 0
            && self.allowed_partition != 0
            && self.allowed_partition == fields.partition_id
            && self.allowed_object != 0
            && self.allowed_object == fields.user_object_id
            && self.tag_agrees_with(record)
            && self.epoch_agrees_with(record)
    }

    /// Whether the range lies inside the allowed one, in numbers that cannot wrap.
    pub fn has_inside(&self, range: Range) -> bool {
        if range.start < self.allowed_start {
            return false;
        }
        if self.allowed_length == TO_THE_LAST_BYTE {
            return range.end() <= 1 << 64;
        }
        range.end() <= u128::from(self.allowed_start) + u128::from(self.allowed_length)
    }

    /// Only the capability's zero says "any tag"; the record's zero is a tag like any other.
    fn tag_agrees_with(&self, record: &Record) -> bool {
        self.policy_access_tag == 0 || self.policy_access_tag == record.policy_access_tag
    }

    /// Here a zero on either side says "any epoch".
    fn epoch_agrees_with(&self, record: &Record) -> bool {
        self.boot_epoch == 0 || record.boot_epoch == 0 || self.boot_epoch == record.boot_epoch
    }
}

pub fn permission_for(action: Action) -> u8 {
    match action {
        Action::Read => READ_PERMISSION,
        Action::Write | Action::Clear | Action::Punch => WRITE_PERMISSION,
    }
}

/// Where a capability's 104 bytes stand.
#[derive(Clone, Copy, Debug, PartialEq, Eq)]
pub enum Place {
    Cdb,
    /// In the segment, so from this offset on in Data-Out: the segment is Data-Out's beginning.
    Segment(usize),
}

impl Place {
    pub fn bytes<'a>(self, cdb: &'a [u8], out: &'a [u8]) -> &'a [u8] {
        match self {
            Place::Cdb => &cdb[CAPABILITY_AT..CAPABILITY_AT + Capability::BYTES],
            Place::Segment(offset) => &out[offset..offset + Capability::BYTES],
        }
    }
}
