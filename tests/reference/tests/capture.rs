//! The capture for Wireshark, read by a second reader that knows the formats' tables and nothing else of
//! the code that writes them. It also shows the segments as `tshark` would, also wrong ones.

use reference::capture::comparison::{self, Outcome};
use reference::capture::fields::Due;
use reference::capture::requests::{self, Shape};
use reference::capture::{self, pdml, Capture, Command};
use reference::random::Random;
use reference::writer;

const OTHERS: usize = 25;
/// No list, one of no entry, of one and of 64, each with 0 to 8 capabilities more; but with neither
/// there is no segment.
const SHAPES: usize = 4 * 9 - 1;

fn commands() -> Vec<Command> {
    requests::draw(&mut Random::new(1), OTHERS)
        .into_iter()
        .map(|request| {
            let mut cdb = vec![0; 236];
            let mut segment = vec![0; 2048];
            let (number, length) = writer::write(&request.borrow(), &mut cdb, &mut segment);
            assert_eq!(number, 0, "{request:?}");
            segment.truncate(length as usize);
            Command {
                request,
                cdb,
                segment,
            }
        })
        .collect()
}

/// A frame's message, with what its headers say of it.
struct Frame<'a> {
    ports: (u64, u64),
    sequence_number: u64,
    acknowledged: u64,
    message: &'a [u8],
}

fn number(bytes: &[u8], at: usize, size: usize) -> u64 {
    bytes[at..at + size]
        .iter()
        .fold(0, |number, &byte| number << 8 | u64::from(byte))
}

/// Bytes with a right checksum among them sum to all ones.
fn is_sound(covered: &[u8]) -> bool {
    let mut padded = covered.to_vec();
    padded.resize(covered.len() + covered.len() % 2, 0);
    let mut sum = 0;
    for at in (0..padded.len()).step_by(2) {
        sum += number(&padded, at, 2);
        sum = (sum & 0xFFFF) + (sum >> 16);
    }
    sum == 0xFFFF
}

fn frames(file: &[u8]) -> Vec<Frame<'_>> {
    let header = [0xA1B2_C3D4, 0x0002_0004, 0, 0, 65_535, 1];
    for (index, word) in header.into_iter().enumerate() {
        assert_eq!(number(file, 4 * index, 4), word, "word {index}");
    }
    let mut frames = Vec::new();
    let mut at = 24;
    while at < file.len() {
        let size = number(file, at + 8, 4) as usize;
        assert_eq!(number(file, at + 12, 4) as usize, size);
        frames.push(frame(&file[at + 16..at + 16 + size]));
        at += 16 + size;
    }
    frames
}

fn frame(bytes: &[u8]) -> Frame<'_> {
    let (link, ip) = bytes.split_at(14);
    assert_eq!(number(link, 12, 2), 0x0800, "IP over Ethernet");
    assert_eq!(ip[0], 0x45, "version 4, no options");
    assert_eq!(number(ip, 2, 2) as usize, ip.len());
    assert_eq!(number(ip, 6, 2) & 0x3FFF, 0, "no fragment");
    assert_eq!(ip[9], 6, "TCP");
    assert!(is_sound(&ip[..20]), "IP's checksum");
    let tcp = &ip[20..];
    assert_eq!(tcp[12], 0x50, "no options");
    assert_eq!(tcp[13] & 0b11_1111, 0b01_1000, "neither first nor last");
    let size = (tcp.len() as u16).to_be_bytes();
    let covered = [&ip[12..20], &[0, 6], &size, tcp].concat();
    assert!(is_sound(&covered), "TCP's checksum");
    Frame {
        ports: (number(tcp, 0, 2), number(tcp, 2, 2)),
        sequence_number: number(tcp, 4, 4),
        acknowledged: number(tcp, 8, 4),
        message: &tcp[20..],
    }
}

/// CDB and Data-Out of a SCSI command.
fn command(message: &[u8]) -> (Vec<u8>, &[u8]) {
    let additional = 4 * number(message, 4, 1) as usize;
    let size = number(message, 5, 3) as usize;
    let data_at = 48 + additional;
    assert_eq!(message[0], 0x01, "SCSI command");
    assert_eq!(number(message, 20, 4) as usize, size, "all data is here");
    assert_eq!(message.len(), data_at + size.next_multiple_of(4));
    let mut cdb = message[32..48].to_vec();
    if additional > 0 {
        // The length is that of the CDB less 15.
        let cdb_size = number(message, 48, 2) as usize + 15;
        assert_eq!(message[50], 0x01, "extended CDB");
        assert_eq!(message[51], 0);
        assert_eq!(additional, (4 + cdb_size - 16).next_multiple_of(4));
        cdb.extend(&message[52..52 + cdb_size - 16]);
    }
    (cdb, &message[data_at..data_at + size])
}

#[test]
fn requests_have_every_shape_at_the_edges() {
    let requests = requests::draw(&mut Random::new(1), OTHERS);
    let shapes: Vec<Shape> = requests.iter().map(Shape::of).collect();
    assert_eq!(shapes.len(), SHAPES + OTHERS);
    for entries in [None, Some(0), Some(1), Some(64)] {
        for extension_capabilities in 0..=8 {
            let shape = Shape {
                entries,
                extension_capabilities,
            };
            let is_neither = entries.is_none() && extension_capabilities == 0;
            assert_eq!(shapes.contains(&shape), !is_neither, "{shape:?}");
        }
    }
}

#[test]
fn the_frames_are_one_conversation() {
    let Capture { file, due } = capture::of(&commands());
    let frames = frames(&file);
    assert_eq!(frames.len(), 2 + SHAPES + OTHERS);
    let numbers: Vec<u32> = due.iter().map(|due| due.frame).collect();
    assert_eq!(numbers, Vec::from_iter(3..=frames.len() as u32));
    let there = (50_000, 3260);
    let mut next = [1, 1];
    for (index, frame) in frames.iter().enumerate() {
        let from = usize::from(index == 1);
        let ports = [there, (there.1, there.0)][from];
        assert_eq!(frame.ports, ports, "frame {}", index + 1);
        assert_eq!(frame.sequence_number, next[from], "frame {}", index + 1);
        assert_eq!(frame.acknowledged, next[1 - from], "frame {}", index + 1);
        next[from] += frame.message.len() as u64;
    }
}

#[test]
fn the_device_says_that_it_is_one_for_objects() {
    let file = capture::of(&commands()).file;
    let frames = frames(&file);
    let [question, answer] = [frames[0].message, frames[1].message];
    assert_eq!(question[0], 0x01, "SCSI command");
    assert_eq!(question[1], 0xC1, "final, read, simple");
    assert_eq!(question.len(), 48);
    assert_eq!(question[32..38], [0x12, 0, 0, 0, 36, 0], "INQUIRY");
    assert_eq!(number(question, 20, 4), 36);
    assert_eq!(answer[0], 0x25, "Data-In");
    assert_eq!(answer[1], 0x81, "final, with status");
    assert_eq!(answer[3], 0, "GOOD");
    assert_eq!(number(answer, 4, 4), 36);
    assert_eq!(answer.len(), 48 + 36);
    assert_eq!(answer[48], 0x11, "a device for objects");
    assert_eq!(answer[52], 31, "bytes that follow");
    assert_eq!(answer[16..20], question[16..20], "the same task");
}

#[test]
fn every_command_is_there_as_it_was_written_but_for_the_service_action() {
    let commands = commands();
    let file = capture::of(&commands).file;
    let frames = frames(&file);
    let mut tasks = vec![&frames[0].message[16..20]];
    for (written, frame) in commands.iter().zip(&frames[2..]) {
        let (mut cdb, data) = command(frame.message);
        let mut segment = data.to_vec();
        assert_eq!(frame.message[1], 0xA1, "final, write, simple");
        assert_eq!(frame.message[8..16], [0; 8], "the unit that was asked");
        assert_eq!(cdb[8..10], [0x88, 0xA0]);
        assert_eq!(segment[2..4], [0x88, 0xA0]);
        cdb[8..10].copy_from_slice(&written.cdb[8..10]);
        segment[2..4].copy_from_slice(&written.segment[2..4]);
        assert_eq!(cdb, written.cdb);
        assert_eq!(segment, written.segment);
        assert!(
            !tasks.contains(&&frame.message[16..20]),
            "a task of its own"
        );
        tasks.push(&frame.message[16..20]);
    }
}

#[test]
fn what_is_due_follows_from_the_request() {
    let due = capture::of(&commands()).due;
    let lines: Vec<String> = due.iter().map(Due::line).collect();
    assert_eq!(lines[0], "3 1 0x88a0 0xffee 0 104");
    assert_eq!(lines[8], "11 1 0x88a0 0x0001 0 0");
    assert_eq!(lines[34], "37 1 0x88a0 0x0001,0xffee 0,0 1024,832");
    for (line, due) in lines.iter().zip(due) {
        assert_eq!(Due::parse(line), Ok(due));
    }
    for bad in ["", "3 1", "3 1 0x88a0 1 0 x", "3 1 0x88a0 1 0 16 16"] {
        assert!(Due::parse(bad).is_err(), "{bad}");
    }
}

/// What `tshark` would print of a capture, down to the fields that are compared.
fn shown(file: &[u8]) -> String {
    let packets: Vec<String> = frames(file)
        .iter()
        .map(|frame| format!("<packet>\n{}</packet>\n", shown_fields(frame.message)))
        .collect();
    format!("<pdml>\n{}</pdml>\n", packets.concat())
}

fn shown_fields(message: &[u8]) -> String {
    let is_command_with_data = message[0] == 0x01 && number(message, 5, 3) > 0;
    if !is_command_with_data {
        return String::new();
    }
    let (cdb, segment) = command(message);
    let end = number(&cdb, 48, 4) as usize;
    let mut text = shown_field("format", number(segment, 0, 1));
    text += &shown_field("sa", number(segment, 2, 2));
    let mut at = 40;
    while at + 8 <= end {
        let [pad, length] = [number(segment, at + 3, 1) & 7, number(segment, at + 4, 4)];
        text += &shown_field("desc.type", number(segment, at, 2));
        text += &shown_field("desc.padlen", pad);
        text += &shown_field("desc.length", length);
        at += 8 + (length + pad) as usize;
    }
    text
}

fn shown_field(name: &str, value: u64) -> String {
    format!("<field name=\"scsi_osd2.cdb_continuation.{name}\" show=\"{value}\"/>\n")
}

fn outcome(commands: &[Command]) -> Outcome {
    let Capture { file, due } = capture::of(commands);
    let text = shown(&file);
    comparison::compare(&due, &pdml::packets(&text).expect("it is whole"))
}

#[test]
fn right_segments_pass() {
    let all = Outcome {
        passed: SHAPES + OTHERS,
        failed: 0,
        remarks: Vec::new(),
    };
    assert_eq!(outcome(&commands()), all);
}

/// A writer's mistakes that leave a segment of the same size: format, type, pad, length, and the
/// extension before the list.
#[test]
fn a_wrong_segment_fails() {
    type Mistake = fn(&mut Vec<u8>);
    let mistakes: [(&str, Mistake); 5] = [
        ("CDB Continuation Format", |segment| segment[0] = 2),
        ("Descriptor Type", |segment| segment[41] = 2),
        ("Descriptor Pad Length", |segment| segment[43] = 7),
        ("Descriptor Length", |segment| segment[47] ^= 8),
        ("Descriptor Type", |segment| {
            segment[40..].rotate_left(8 + 1024)
        }),
    ];
    // The last of the edges has the longest list and the longest extension.
    let wrong = SHAPES - 1;
    for (field, mistake) in mistakes {
        let mut commands = commands();
        mistake(&mut commands[wrong].segment);
        let outcome = outcome(&commands);
        assert_eq!((outcome.passed, outcome.failed), (SHAPES + OTHERS - 1, 1));
        let start = format!("frame {}: {field} is ", wrong + 3);
        let is_named = outcome.remarks.iter().any(|line| line.starts_with(&start));
        assert!(is_named, "{field}: {:?}", outcome.remarks);
    }
}
