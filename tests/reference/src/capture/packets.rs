//! A capture file with one TCP conversation, each of its packets with a whole message.

use crate::bytes;

/// The pcap format: its magic number, version 2.4, no time zone, no accuracy of times, most bytes of a
/// packet, and Ethernet as the link. Its readers tell the byte order from the magic number.
const FILE_HEADER: [u8; 24] = [
    0xA1, 0xB2, 0xC3, 0xD4, 0, 2, 0, 4, 0, 0, 0, 0, 0, 0, 0, 0, 0, 0, 0xFF, 0xFF, 0, 0, 0, 1,
];

const IP_HEADER_BYTES: usize = 20;
const TCP_HEADER_BYTES: usize = 20;
const TCP: u8 = 6;

/// The port by which iSCSI is recognised. A reader may ask the lower port first, so the other is higher.
const TARGET_PORT: u16 = 3260;
const INITIATOR_PORT: u16 = 50_000;
const FIRST_SEQUENCE_NUMBER: u32 = 1;

#[derive(Clone, Copy, Debug, PartialEq, Eq)]
pub enum Side {
    Initiator,
    Target,
}

impl Side {
    fn other(self) -> Side {
        match self {
            Side::Initiator => Side::Target,
            Side::Target => Side::Initiator,
        }
    }

    fn port(self) -> u16 {
        match self {
            Side::Initiator => INITIATOR_PORT,
            Side::Target => TARGET_PORT,
        }
    }

    /// One that no maker of devices gives out.
    fn link_address(self) -> [u8; 6] {
        [2, 0, 0, 0, 0, self.digit()]
    }

    /// One of those that are set apart for examples (RFC 5737).
    fn address(self) -> [u8; 4] {
        [192, 0, 2, self.digit()]
    }

    fn digit(self) -> u8 {
        match self {
            Side::Initiator => 1,
            Side::Target => 2,
        }
    }
}

pub struct Packets {
    file: Vec<u8>,
    frames: u32,
    initiator_next: u32,
    target_next: u32,
}

impl Packets {
    pub fn new() -> Packets {
        Packets {
            file: FILE_HEADER.to_vec(),
            frames: 0,
            initiator_next: FIRST_SEQUENCE_NUMBER,
            target_next: FIRST_SEQUENCE_NUMBER,
        }
    }

    pub fn into_file(self) -> Vec<u8> {
        self.file
    }

    /// Adds a packet, and answers its frame's number. The first is 1.
    pub fn send(&mut self, from: Side, message: &[u8]) -> u32 {
        let segment = self.tcp_segment(from, message);
        *self.next(from) += message.len() as u32;
        let packet = [
            &link_header(from)[..],
            &ip_header(from, segment.len()),
            &segment,
        ]
        .concat();
        self.frames += 1;
        self.put_frame(&packet);
        self.frames
    }

    fn next(&mut self, side: Side) -> &mut u32 {
        match side {
            Side::Initiator => &mut self.initiator_next,
            Side::Target => &mut self.target_next,
        }
    }

    /// Header and message. All that the other side has sent is acknowledged.
    fn tcp_segment(&mut self, from: Side, message: &[u8]) -> Vec<u8> {
        const HEADER_WORDS: u8 = 5;
        const PUSH_AND_ACKNOWLEDGE: u8 = 0x18;
        let mut segment = vec![0; TCP_HEADER_BYTES];
        bytes::put_u16(&mut segment, 0, from.port());
        bytes::put_u16(&mut segment, 2, from.other().port());
        bytes::put_u32(&mut segment, 4, *self.next(from));
        bytes::put_u32(&mut segment, 8, *self.next(from.other()));
        segment[12] = HEADER_WORDS << 4;
        segment[13] = PUSH_AND_ACKNOWLEDGE;
        bytes::put_u16(&mut segment, 14, u16::MAX);
        segment.extend(message);
        let sum = checksum(&[&pseudo_header(from, segment.len())[..], &segment].concat());
        bytes::put_u16(&mut segment, 16, sum);
        segment
    }

    /// The frames are a microsecond apart, and the first stands at the beginning of time: a capture of
    /// the same commands has the same bytes.
    fn put_frame(&mut self, packet: &[u8]) {
        let size = packet.len() as u32;
        for number in [0, self.frames, size, size] {
            self.file.extend(number.to_be_bytes());
        }
        self.file.extend(packet);
    }
}

fn link_header(from: Side) -> Vec<u8> {
    const IP: [u8; 2] = [0x08, 0x00];
    [
        &from.other().link_address()[..],
        &from.link_address(),
        &IP[..],
    ]
    .concat()
}

fn ip_header(from: Side, data_length: usize) -> [u8; IP_HEADER_BYTES] {
    const VERSION_AND_WORDS: u8 = 0x45;
    const DO_NOT_FRAGMENT: u16 = 0x4000;
    const TIME_TO_LIVE: u8 = 64;
    let mut header = [0; IP_HEADER_BYTES];
    header[0] = VERSION_AND_WORDS;
    bytes::put_u16(&mut header, 2, (IP_HEADER_BYTES + data_length) as u16);
    bytes::put_u16(&mut header, 6, DO_NOT_FRAGMENT);
    header[8] = TIME_TO_LIVE;
    header[9] = TCP;
    bytes::put(&mut header, 12, &from.address());
    bytes::put(&mut header, 16, &from.other().address());
    let sum = checksum(&header);
    bytes::put_u16(&mut header, 10, sum);
    header
}

/// What TCP's checksum covers besides the segment.
fn pseudo_header(from: Side, segment_length: usize) -> [u8; 12] {
    let mut header = [0; 12];
    bytes::put(&mut header, 0, &from.address());
    bytes::put(&mut header, 4, &from.other().address());
    header[9] = TCP;
    bytes::put_u16(&mut header, 10, segment_length as u16);
    header
}

/// The checksum of IP and TCP (RFC 1071), of bytes whose own checksum is still zero.
fn checksum(covered: &[u8]) -> u16 {
    let mut sum: u32 = covered
        .chunks(2)
        .map(|pair| u32::from(pair[0]) << 8 | pair.get(1).map_or(0, |&low| u32::from(low)))
        .sum();
    while sum > 0xFFFF {
        sum = (sum & 0xFFFF) + (sum >> 16);
    }
    !(sum as u16)
}
