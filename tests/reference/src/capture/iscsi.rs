//! The few iSCSI messages that the capture needs (RFC 7143, section 11).

use crate::bytes;

const HEADER_BYTES: usize = 48;
const SCSI_COMMAND: u8 = 0x01;
const DATA_IN: u8 = 0x25;

/// Of the second byte: the last or only message, the data's direction, a status with the data, and a
/// task without a place of its own in the device's order.
const FINAL: u8 = 0x80;
const READ: u8 = 0x40;
const WRITE: u8 = 0x20;
const STATUS: u8 = 0x01;
const SIMPLE: u8 = 0x01;

/// A task's tag is the sequence number of its command.
const INQUIRY_TASK: u32 = 1;
pub const FIRST_TASK: u32 = 2;
/// How many commands the target takes ahead of those that it has answered.
const WINDOW: u32 = 0xFFFF;
const FIRST_STATUS: u32 = 1;

/// So many bytes of a CDB stand in the basic header, the others in an additional one.
const BASIC_CDB_BYTES: usize = 16;
const EXTENDED_CDB: u8 = 0x01;

const INQUIRY: u8 = 0x12;
const INQUIRY_DATA_BYTES: usize = 36;
const OBJECT_DEVICE: u8 = 0x11;

/// The question what the device is.
pub fn inquiry() -> Vec<u8> {
    let mut cdb = [0; BASIC_CDB_BYTES];
    cdb[0] = INQUIRY;
    bytes::put_u16(&mut cdb, 3, INQUIRY_DATA_BYTES as u16);
    let mut header = header(SCSI_COMMAND, FINAL | READ | SIMPLE, INQUIRY_TASK);
    bytes::put_u32(&mut header, 20, INQUIRY_DATA_BYTES as u32);
    bytes::put_u32(&mut header, 24, INQUIRY_TASK);
    bytes::put_u32(&mut header, 28, FIRST_STATUS);
    bytes::put(&mut header, 32, &cdb);
    header
}

/// The answer: a device for objects. Its status comes with the data.
pub fn inquiry_answer() -> Vec<u8> {
    const NO_TRANSFER_TAG: u32 = u32::MAX;
    let mut answer = header(DATA_IN, FINAL | STATUS, INQUIRY_TASK);
    put_segment_lengths(&mut answer, 0, INQUIRY_DATA_BYTES);
    bytes::put_u32(&mut answer, 20, NO_TRANSFER_TAG);
    bytes::put_u32(&mut answer, 24, FIRST_STATUS);
    bytes::put_u32(&mut answer, 28, FIRST_TASK);
    bytes::put_u32(&mut answer, 32, FIRST_TASK + WINDOW);
    answer.extend(inquiry_data());
    answer
}

fn inquiry_data() -> [u8; INQUIRY_DATA_BYTES] {
    const VERSION: u8 = 6;
    const RESPONSE_FORMAT: u8 = 2;
    let mut data = [0; INQUIRY_DATA_BYTES];
    data[0] = OBJECT_DEVICE;
    data[2] = VERSION;
    data[3] = RESPONSE_FORMAT;
    data[4] = (INQUIRY_DATA_BYTES - 5) as u8;
    bytes::put(&mut data, 8, b"EXAMPLE Object store    1   ");
    data
}

/// A command with a CDB of more than 16 bytes, and all of its Data-Out.
pub fn command_with_data(task: u32, cdb: &[u8], data: &[u8]) -> Vec<u8> {
    let (basic_cdb, extended_cdb) = cdb.split_at(BASIC_CDB_BYTES);
    let additional_header = additional_header(extended_cdb);
    let mut message = header(SCSI_COMMAND, FINAL | WRITE | SIMPLE, task);
    put_segment_lengths(&mut message, additional_header.len(), data.len());
    bytes::put_u32(&mut message, 20, data.len() as u32);
    bytes::put_u32(&mut message, 24, task);
    bytes::put_u32(&mut message, 28, FIRST_STATUS + 1);
    bytes::put(&mut message, 32, basic_cdb);
    message.extend(additional_header);
    message.extend(padded(data.to_vec()));
    message
}

/// What all messages begin alike with. The unit is number 0.
fn header(operation: u8, flags: u8, task: u32) -> Vec<u8> {
    let mut header = vec![0; HEADER_BYTES];
    header[0] = operation;
    header[1] = flags;
    bytes::put_u32(&mut header, 16, task);
    header
}

/// One byte for the additional headers, in words of four bytes, and three for the data without its pad.
fn put_segment_lengths(header: &mut [u8], additional_bytes: usize, data_bytes: usize) {
    bytes::put_u32(header, 4, data_bytes as u32);
    header[4] = (additional_bytes / 4) as u8;
}

/// Its length counts the reserved byte behind the type, but neither itself nor the type nor the pad.
fn additional_header(extended_cdb: &[u8]) -> Vec<u8> {
    let mut header = vec![0; 4];
    bytes::put_u16(&mut header, 0, 1 + extended_cdb.len() as u16);
    header[2] = EXTENDED_CDB;
    header.extend(extended_cdb);
    padded(header)
}

fn padded(mut part: Vec<u8>) -> Vec<u8> {
    part.resize(part.len().next_multiple_of(4), 0);
    part
}
