//! The host's writer, for the Rust contestant.

use crate::decide::{overlap, Range};

pub struct Request<'a> {
    pub action: u64,
    pub partition: u64,
    pub object: u64,
    pub start: u64,
    pub size: u64,
    pub listed: bool,
    pub offsets: &'a [u64],
    pub lengths: &'a [u64],
    pub capabilities: &'a [u8],
}

/// The segment's length, or the number of the refusal.
pub fn write(request: &Request, cdb: &mut [u8], segment: &mut [u8]) -> Result<usize, u32> {
    let action = match request.action {
        0x8884 | 0x8885 | 0x8886 | 0x8889 => request.action as u16,
        _ => return Err(16),
    };
    let capabilities = request.capabilities.len();
    if capabilities == 0 || capabilities > 936 || capabilities % 104 != 0 {
        return Err(16);
    }
    let size = match request.listed {
        true => listed_size(request)?,
        false => request.size,
    };
    let extension = &request.capabilities[104..];
    let length = segment_length(request, extension);
    if cdb.len() < 236 || segment.len() < length {
        return Err(17);
    }
    write_cdb(request, action, size, length, &mut cdb[..236]);
    write_segment(request, action, extension, &mut segment[..length]);
    Ok(length)
}

fn listed_size(request: &Request) -> Result<u64, u32> {
    let count = request.offsets.len();
    if count != request.lengths.len() || count > 64 {
        return Err(16);
    }
    if matches!(request.action, 0x8884 | 0x8889) || request.start != 0 {
        return Err(16);
    }
    let mut ranges = [Range::default(); 64];
    let mut sum: u64 = 0;
    for (range, (&start, &size)) in ranges
        .iter_mut()
        .zip(request.offsets.iter().zip(request.lengths))
    {
        *range = Range { start, size };
        sum = sum.checked_add(size).ok_or(16u32)?;
    }
    if request.action == 0x8886 && overlap(&ranges[..count]) {
        return Err(16);
    }
    Ok(sum)
}

fn segment_length(request: &Request, extension: &[u8]) -> usize {
    let list = match request.listed {
        true => 8 + 16 * request.offsets.len(),
        false => 0,
    };
    let others = match extension.len() {
        0 => 0,
        length => 8 + length,
    };
    match list + others {
        0 => 0,
        descriptors => 40 + descriptors,
    }
}

fn write_cdb(request: &Request, action: u16, size: u64, length: usize, cdb: &mut [u8]) {
    cdb.fill(0);
    cdb[0] = 0x7F;
    cdb[7] = 228;
    cdb[8..10].copy_from_slice(&action.to_be_bytes());
    cdb[16..24].copy_from_slice(&request.partition.to_be_bytes());
    cdb[24..32].copy_from_slice(&request.object.to_be_bytes());
    cdb[32..40].copy_from_slice(&size.to_be_bytes());
    cdb[40..48].copy_from_slice(&request.start.to_be_bytes());
    cdb[48..52].copy_from_slice(&(length as u32).to_be_bytes());
    cdb[80..184].copy_from_slice(&request.capabilities[..104]);
}

fn write_segment(request: &Request, action: u16, extension: &[u8], segment: &mut [u8]) {
    if segment.is_empty() {
        return;
    }
    segment[..40].fill(0);
    segment[0] = 0x01;
    segment[2..4].copy_from_slice(&action.to_be_bytes());
    let mut rest = &mut segment[40..];
    if request.listed {
        let data = 16 * request.offsets.len();
        let (list, behind) = rest.split_at_mut(8 + data);
        write_head(list, 0x0001, data);
        let entries = list[8..].chunks_exact_mut(16);
        for (entry, (start, size)) in entries.zip(request.offsets.iter().zip(request.lengths)) {
            entry[..8].copy_from_slice(&start.to_be_bytes());
            entry[8..].copy_from_slice(&size.to_be_bytes());
        }
        rest = behind;
    }
    if !extension.is_empty() {
        write_head(rest, 0xFFEE, extension.len());
        rest[8..].copy_from_slice(extension);
    }
}

fn write_head(descriptor: &mut [u8], kind: u16, data: usize) {
    descriptor[..2].copy_from_slice(&kind.to_be_bytes());
    descriptor[2..4].fill(0);
    descriptor[4..8].copy_from_slice(&(data as u32).to_be_bytes());
}
