//! A random command as bytes: the CDB, the segment piece by piece, and slips in both.

use crate::bytes;
use crate::capability::Capability;
use crate::command::{Action, Fields, Range, CAPABILITY_AT, CDB_BYTES};
use crate::random::Random;
use crate::segment::{
    DESCRIPTOR_HEADER_BYTES, EXTENSION_TYPE, FORMAT, HEADER_BYTES, LIST_ENTRY_BYTES, LIST_TYPE,
    MOST_BYTES,
};

/// The pieces of a command before they become bytes. Header fields and what really follows are
/// apart, so that they can disagree.
pub struct Layout {
    pub fields: Fields,
    cdb_capability: Capability,
    segment: Option<SegmentLayout>,
    /// Whether the bytes that nobody looks at are random rather than zero.
    has_noise: bool,
}

struct SegmentLayout {
    format: u8,
    continued_action: u16,
    descriptors: Vec<Piece>,
    /// What follows the last descriptor.
    tail: Vec<u8>,
    /// A continuation length other than the segment's.
    claimed_length: Option<u32>,
}

#[derive(Clone)]
struct Piece {
    code: u16,
    pad_length: u8,
    data_length: u32,
    /// Data and pad as they really are.
    body: Vec<u8>,
}

impl Piece {
    fn new(code: u16, body: Vec<u8>) -> Piece {
        Piece {
            code,
            pad_length: 0,
            data_length: body.len() as u32,
            body,
        }
    }

    fn size(&self) -> usize {
        DESCRIPTOR_HEADER_BYTES + self.body.len()
    }
}

impl Layout {
    pub fn draw(
        random: &mut Random,
        fields: Fields,
        list: Option<&[Range]>,
        capabilities: &[Capability],
    ) -> Layout {
        let has_noise = random.one_in(2);
        let mut descriptors = Vec::new();
        if let Some(entries) = list {
            descriptors.push(Piece::new(LIST_TYPE, list_data(entries)));
        }
        if capabilities.len() > 1 {
            let data = extension_data(random, has_noise, &capabilities[1..]);
            descriptors.push(Piece::new(EXTENSION_TYPE, data));
        }
        // Their order has no significance, and a segment may also have none of them.
        random.shuffle(&mut descriptors);
        let has_segment = !descriptors.is_empty() || random.one_in(8);
        Layout {
            fields,
            cdb_capability: capabilities[0],
            segment: has_segment
                .then(|| SegmentLayout::draw(random, fields.service_action, descriptors)),
            has_noise,
        }
    }

    /// The segment's bytes; none without a segment.
    pub fn segment(&self, random: &mut Random) -> Vec<u8> {
        let Some(layout) = &self.segment else {
            return Vec::new();
        };
        let mut segment = unnamed(random, self.has_noise, HEADER_BYTES);
        segment[0] = layout.format;
        bytes::put_u16(&mut segment, 2, layout.continued_action);
        for piece in &layout.descriptors {
            let mut header = unnamed(random, self.has_noise, DESCRIPTOR_HEADER_BYTES);
            bytes::put_u16(&mut header, 0, piece.code);
            header[3] = header[3] & 0b1111_1000 | piece.pad_length;
            bytes::put_u32(&mut header, 4, piece.data_length);
            segment.extend(header);
            segment.extend(&piece.body);
        }
        segment.extend(&layout.tail);
        segment
    }

    pub fn cdb(&self, random: &mut Random, segment_length: usize) -> Vec<u8> {
        let mut cdb = unnamed(random, self.has_noise, CDB_BYTES);
        let claimed = self
            .segment
            .as_ref()
            .and_then(|layout| layout.claimed_length);
        let fields = Fields {
            continuation_length: claimed.unwrap_or(segment_length as u32),
            ..self.fields
        };
        fields.put(&mut cdb);
        self.cdb_capability
            .put(&mut cdb[CAPABILITY_AT..CAPABILITY_AT + Capability::BYTES]);
        cdb
    }
}

impl SegmentLayout {
    fn draw(random: &mut Random, action: u16, descriptors: Vec<Piece>) -> SegmentLayout {
        let used: usize = descriptors.iter().map(Piece::size).sum();
        let room = MOST_BYTES - HEADER_BYTES - used;
        SegmentLayout {
            format: FORMAT,
            continued_action: action,
            descriptors,
            tail: tail(random, room),
            claimed_length: None,
        }
    }

    fn length(&self) -> usize {
        let used: usize = self.descriptors.iter().map(Piece::size).sum();
        HEADER_BYTES + used + self.tail.len()
    }
}

/// Zeros, or the type that ends the walk and then anything, up to the largest segment.
fn tail(random: &mut Random, room: usize) -> Vec<u8> {
    let length = match random.below(12) {
        0 | 1 => random.between(1, 7),
        2 => random.between(8, 40),
        3 => return end_and_anything(random, 40),
        4 => return end_and_anything(random, room),
        _ => 0,
    };
    vec![0; length as usize]
}

fn end_and_anything(random: &mut Random, length: usize) -> Vec<u8> {
    let mut tail = random.bytes(length);
    bytes::put_u16(&mut tail, 0, 0);
    tail
}

fn unnamed(random: &mut Random, has_noise: bool, count: usize) -> Vec<u8> {
    match has_noise {
        true => random.bytes(count),
        false => vec![0; count],
    }
}

fn list_data(entries: &[Range]) -> Vec<u8> {
    entries
        .iter()
        .flat_map(|entry| [entry.start.to_be_bytes(), entry.length.to_be_bytes()].concat())
        .collect()
}

fn extension_data(random: &mut Random, has_noise: bool, capabilities: &[Capability]) -> Vec<u8> {
    let mut data = unnamed(random, has_noise, capabilities.len() * Capability::BYTES);
    for (capability, place) in capabilities
        .iter()
        .zip(data.chunks_exact_mut(Capability::BYTES))
    {
        capability.put(place);
    }
    data
}

/// Something wrong with the segment, or just within what is allowed.
pub fn slip(random: &mut Random, layout: &mut Layout) {
    let own_capability = layout.cdb_capability.to_bytes().to_vec();
    let action = layout.fields.service_action;
    let segment = layout
        .segment
        .get_or_insert_with(|| SegmentLayout::draw(random, action, Vec::new()));
    // Most slips are in a descriptor, so there must be one. This one takes nothing away.
    if segment.descriptors.is_empty() {
        segment
            .descriptors
            .push(Piece::new(EXTENSION_TYPE, own_capability));
        segment.tail.truncate(7);
    }
    match random.below(18) {
        0 => segment.format = random.other_byte(FORMAT),
        1 => segment.continued_action ^= 1 << random.below(16),
        2 => segment.claimed_length = Some(claimed_length(random, segment.length())),
        3 => stretch(random, segment),
        4 | 5 => segment.tail = remainder(random),
        6 => end_early(random, segment),
        7..=9 => add_list(random, segment),
        10 => repeat(random, segment),
        11 => cut_one_byte(segment),
        _ => slip_in_piece(random, segment),
    }
}

/// Row 5's edges, and lengths that end the segment inside a descriptor or in the data after it.
fn claimed_length(random: &mut Random, length: usize) -> u32 {
    let length = length as u32;
    let below = random.between(1, 39) as u32;
    let inside = random.between(40, 47) as u32;
    let small = random.between(1, 7) as u32;
    random.pick(&[
        0,
        below,
        39,
        inside,
        length - small,
        length + small,
        MOST_BYTES as u32,
        u32::MAX,
    ])
}

/// A segment that is really as long as the longest one, or a little shorter or longer.
fn stretch(random: &mut Random, segment: &mut SegmentLayout) {
    segment.tail.clear();
    let wanted = MOST_BYTES - 2 + random.index(5);
    segment.tail = end_and_anything(random, wanted - segment.length());
}

/// One to seven bytes: all zero, or one of them not.
fn remainder(random: &mut Random) -> Vec<u8> {
    let mut rest = vec![0; random.between(1, 7) as usize];
    if !random.one_in(4) {
        let at = random.index(rest.len());
        rest[at] = random.other_byte(0);
    }
    rest
}

/// The type that ends the walk, in front of a descriptor: it and all after it isn't examined.
fn end_early(random: &mut Random, segment: &mut SegmentLayout) {
    let at = random.index(segment.descriptors.len());
    let mut end = Piece::new(0, random.bytes(5));
    end.pad_length = random.below(8) as u8;
    end.data_length = random.number() as u32;
    segment.descriptors.insert(at, end);
    segment.tail = random.bytes(3);
}

/// A list beside what is there: refused on CLEAR and PUNCH, and beside another list.
fn add_list(random: &mut Random, segment: &mut SegmentLayout) {
    let entries = random.index(3);
    let list = Piece::new(LIST_TYPE, vec![0; entries * LIST_ENTRY_BYTES]);
    segment.descriptors.push(list);
    segment.tail.clear();
}

fn repeat(random: &mut Random, segment: &mut SegmentLayout) {
    let again = segment.descriptors[random.index(segment.descriptors.len())].clone();
    segment.descriptors.push(again);
    segment.tail.clear();
}

/// The last descriptor then runs past the segment by one byte.
fn cut_one_byte(segment: &mut SegmentLayout) {
    segment.tail.clear();
    let length = segment.length() as u32;
    segment.claimed_length = Some(length - 1);
}

fn slip_in_piece(random: &mut Random, segment: &mut SegmentLayout) {
    let chosen = random.index(segment.descriptors.len());
    let piece = &mut segment.descriptors[chosen];
    match random.below(7) {
        0 => piece.code = random.pick(&[0x0002, 0x0100, 0x0101, 0xEEFF, 0xFFEF, 0xFFFF]),
        1 => grow_past_support(piece),
        2 => {
            piece.data_length = random.pick(&[u32::MAX, 0xFFFF_FFF8, 1 << 31, 1 << 20]);
            piece.pad_length = random.below(8) as u8;
        }
        3 => {
            piece.pad_length = random.between(1, 7) as u8;
            piece.body.extend(vec![0; usize::from(piece.pad_length)]);
        }
        4 => resize(piece, random.pick(&[8, 96, 112, 200])),
        5 => {
            // Data and pad make a multiple of 8 together, but the data fits no type.
            let pad_length = random.between(1, 7);
            resize(piece, 104);
            piece.pad_length = pad_length as u8;
            piece.data_length -= pad_length as u32;
        }
        _ => resize(piece, 0),
    }
}

/// One entry, or one capability, more than is supported, and otherwise in order.
fn grow_past_support(piece: &mut Piece) {
    match piece.code {
        LIST_TYPE => resize(piece, 1040),
        _ => resize(piece, 936),
    }
}

fn resize(piece: &mut Piece, length: usize) {
    piece.body.resize(length, 0);
    piece.data_length = length as u32;
}

/// Something wrong with the CDB's own bytes.
pub fn slip_in_cdb(random: &mut Random, cdb: &mut Vec<u8>) {
    match random.below(8) {
        0 => {
            let any = random.index(1025);
            let size = random.pick(&[0, 1, 7, 8, 80, 200, 235, 237, 1024, any]);
            cdb.resize(size, 0);
        }
        1 => cdb[0] = random.other_byte(cdb[0]),
        2 => cdb[7] = random.other_byte(cdb[7]),
        3 => bytes::put_u16(cdb, 8, unknown_action(random)),
        4 => cdb[16 + random.index(8)] ^= 1 << random.below(8),
        5 => cdb[24 + random.index(8)] ^= 1 << random.below(8),
        6 => bytes::put_u16(cdb, 8, random.pick(&Action::ALL).code()),
        _ => {
            let at = random.index(cdb.len());
            cdb[at] = random.byte();
        }
    }
}

/// Mostly a neighbour of a known one.
fn unknown_action(random: &mut Random) -> u16 {
    random.pick(&[
        0x8880, 0x8883, 0x8887, 0x8888, 0x888A, 0x8585, 0x8685, 0, 0xFFFF,
    ])
}
