//! The object's file: head, record, slice and sum.

use crate::record::Record;

pub const HEAD_BYTES: usize = 8 + 8 + Record::BYTES;

pub fn file(record: Record, slice: &[u8]) -> Vec<u8> {
    with_sum(
        [
            b"HOLMOBJ1",
            &(slice.len() as u64).to_be_bytes()[..],
            &record.to_bytes(),
            slice,
        ]
        .concat(),
    )
}

/// The bytes, and their sum behind them.
pub fn with_sum(mut bytes: Vec<u8>) -> Vec<u8> {
    bytes.extend(crc32(&bytes).to_be_bytes());
    bytes
}

/// By long division, bit by bit: the bytes' bits, lowest first, over the polynomial.
fn crc32(bytes: &[u8]) -> u32 {
    let mut remainder = u32::MAX;
    for byte in bytes {
        for bit in 0..8 {
            let carried = (remainder & 1) ^ u32::from(byte >> bit & 1);
            remainder >>= 1;
            if carried == 1 {
                remainder ^= 0x04C1_1DB7_u32.reverse_bits();
            }
        }
    }
    !remainder
}

#[cfg(test)]
mod tests {
    #[test]
    fn the_sum_is_the_usual_one() {
        assert_eq!(super::crc32(b"123456789"), 0xCBF4_3926);
    }
}
