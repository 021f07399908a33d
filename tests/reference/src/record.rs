//! The object's record and its 38-byte form.

use crate::bytes;

/// What is known of the object beside its bytes. Only the logical length ever changes.
#[derive(Clone, Copy, Debug, PartialEq, Eq)]
pub struct Record {
    pub partition_id: u64,
    pub user_object_id: u64,
    pub logical_length: u64,
    /// A limit: zero allows no byte, it doesn't mean "no limit".
    pub maximum_length: u64,
    pub policy_access_tag: u32,
    pub boot_epoch: u16,
}

impl Record {
    /// Size of the byte form: four numbers of 64 bits, one of 32 and one of 16.
    pub const BYTES: usize = 38;

    pub fn from_bytes(from: &[u8]) -> Option<Record> {
        if from.len() != Record::BYTES {
            return None;
        }
        Some(Record {
            partition_id: bytes::get_u64(from, 0),
            user_object_id: bytes::get_u64(from, 8),
            logical_length: bytes::get_u64(from, 16),
            maximum_length: bytes::get_u64(from, 24),
            policy_access_tag: bytes::get_u32(from, 32),
            boot_epoch: bytes::get_u16(from, 36),
        })
    }

    pub fn to_bytes(self) -> [u8; Record::BYTES] {
        let mut to = [0; Record::BYTES];
        bytes::put_u64(&mut to, 0, self.partition_id);
        bytes::put_u64(&mut to, 8, self.user_object_id);
        bytes::put_u64(&mut to, 16, self.logical_length);
        bytes::put_u64(&mut to, 24, self.maximum_length);
        bytes::put_u32(&mut to, 32, self.policy_access_tag);
        bytes::put_u16(&mut to, 36, self.boot_epoch);
        to
    }

    /// The record after a command that changed the object's length.
    pub fn with_logical_length(self, logical_length: u64) -> Record {
        Record {
            logical_length,
            ..self
        }
    }
}
