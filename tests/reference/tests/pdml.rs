//! What `tshark` prints is read, and held to what is due: a sample in its form, and changes to it.

use reference::capture::comparison::{self, Outcome};
use reference::capture::fields::{Due, FIELDS};
use reference::capture::pdml::{self, Shown};

const SAMPLE: &str = include_str!("sample.pdml");
const DUE: [&str; 3] = [
    "3 1 0x88a0 0x0001 0 16",
    "4 1 0x88a0 0xffee 0 104",
    "5 1 0x88a0 0x0001,0xffee 0,0 16,104",
];

fn compare(text: &str) -> Outcome {
    let due = DUE.map(|line| Due::parse(line).expect("it is a line"));
    let packets = pdml::packets(text).expect("it is whole");
    comparison::compare(&due, &packets)
}

fn all_passed() -> Outcome {
    Outcome {
        passed: 3,
        failed: 0,
        remarks: Vec::new(),
    }
}

#[test]
fn packets_have_their_protocols_and_fields() {
    let packets = pdml::packets(SAMPLE).expect("it is whole");
    assert_eq!(packets.len(), 5);
    let protocols = ["geninfo", "frame", "eth", "ip", "tcp", "iscsi", "scsi"];
    assert_eq!(packets[0].protocols, protocols);
    let segment: Vec<&Shown> = packets[3].fields.iter().rev().take(5).rev().collect();
    let numbers = [1, 0x88A0, 0xFFEE, 0, 104];
    for ((shown, field), number) in segment.into_iter().zip(&FIELDS).zip(numbers) {
        assert_eq!(shown.name, field.name);
        assert_eq!(shown.label, field.label);
        assert_eq!(shown.number, Some(number));
    }
}

#[test]
fn other_ways_to_write_the_same_are_read() {
    let field = |text: &str| {
        let text = format!("<pdml><packet>\n{text}</packet></pdml>");
        let packets = pdml::packets(&text).expect("it is whole");
        let shown = &packets[0].fields[0];
        (shown.label.to_string(), shown.number)
    };
    let length = |number| ("Descriptor Length".to_string(), number);
    let first = "<field showname=\"Descriptor Length: 16\"";
    assert_eq!(field(&format!("{first} show='16'/>")), length(Some(16)));
    assert_eq!(
        field(&format!("{first}\n show = \"0x10\" ></field>")),
        length(Some(16))
    );
    // The bytes count where the text is none.
    assert_eq!(
        field(&format!("{first} show=\"a > b\" value=\"00000010\"/>")),
        length(Some(16))
    );
    assert_eq!(field(&format!("{first}/>")), length(None));
    assert_eq!(field("<field/>"), (String::new(), None));
}

#[test]
fn what_the_file_says_of_itself_is_passed_over() {
    let said = "<?xml version=\"1.0\"?><!DOCTYPE pdml><!-- <packet> of 2 > 1 -->";
    let text = format!("{said}<pdml>{said}<packet>{said}<field name=\"a\"/></packet></pdml>");
    let packets = pdml::packets(&text).expect("it is whole");
    assert_eq!(packets.len(), 1);
    assert_eq!(packets[0].fields.len(), 1);
    assert_eq!(packets[0].fields[0].name, "a");
}

#[test]
fn text_that_is_cut_off_is_an_error() {
    let whole = SAMPLE.trim_end();
    for size in (0..whole.len()).filter(|&size| whole.is_char_boundary(size)) {
        assert!(pdml::packets(&whole[..size]).is_err(), "{size} bytes of it");
    }
}

#[test]
fn the_sample_passes() {
    assert_eq!(compare(SAMPLE), all_passed());
}

/// Every value of every field, one at a time.
#[test]
fn another_value_fails() {
    let lines: Vec<&str> = SAMPLE.lines().collect();
    let mut changed = 0;
    for (index, line) in lines.iter().enumerate() {
        let Some(field) = FIELDS.iter().find(|field| line.contains(field.name)) else {
            continue;
        };
        let other = line.replace(" show=\"", " show=\"0x7\" was=\"");
        let text = [&lines[..index], &[&other], &lines[index + 1..]].concat();
        let outcome = compare(&text.join("\n"));
        assert_eq!((outcome.passed, outcome.failed), (2, 1), "{line}");
        assert_eq!(outcome.remarks.len(), 1);
        let remark = &outcome.remarks[0];
        assert!(remark.contains(field.label), "{remark}");
        changed += 1;
    }
    assert_eq!(changed, 5 + 5 + 8);
}

#[test]
fn a_value_too_few_or_too_many_fails() {
    let end = SAMPLE
        .rfind("  </proto>")
        .expect("there is a last protocol");
    let last = SAMPLE[..end].trim_end().rfind('\n').expect("a field there");
    let fewer = [&SAMPLE[..last + 1], &SAMPLE[end..]].concat();
    let more = [&SAMPLE[..end], &SAMPLE[last + 1..]].concat();
    for (text, given) in [(fewer, "16"), (more, "16,104,104")] {
        let outcome = compare(&text);
        assert_eq!((outcome.passed, outcome.failed), (2, 1));
        let line = format!("frame 5: Descriptor Length is {given} and not 16,104");
        assert_eq!(outcome.remarks, [line]);
    }
}

#[test]
fn either_name_is_enough() {
    let other_names = SAMPLE.replace("\"scsi_osd2.cdb_continuation", "\"scsi_osd3.segment");
    assert_eq!(compare(&other_names), all_passed());
    let mut other_labels = SAMPLE.to_string();
    for field in FIELDS {
        other_labels = other_labels.replace(&format!("{}: ", field.label), "Text: ");
    }
    assert_eq!(compare(&other_labels), all_passed());
}

/// The sample with both names of a field changed.
fn without(index: usize) -> String {
    SAMPLE
        .replace(&format!("\"{}\"", FIELDS[index].name), "\"scsi_osd.other\"")
        .replace(&format!("{}: ", FIELDS[index].label), "Other: ")
}

#[test]
fn without_a_needed_field_all_fail_and_what_is_shown_is_told() {
    for index in [0, 2, 4] {
        let outcome = compare(&without(index));
        assert_eq!((outcome.passed, outcome.failed), (0, 3));
        let first = format!(
            "{}, \"{}\", is shown nowhere",
            FIELDS[index].name, FIELDS[index].label
        );
        assert_eq!(outcome.remarks[0], first);
        let has = |line: &str| outcome.remarks.iter().any(|remark| remark == line);
        assert!(has("5 frames are shown"), "{:?}", outcome.remarks);
        assert!(has("protocols in frame 3: geninfo tcp iscsi scsi scsi"));
        assert!(has("  scsi_osd.other, \"Other\""), "{:?}", outcome.remarks);
    }
    let outcome = compare("<pdml></pdml>");
    assert_eq!((outcome.passed, outcome.failed), (0, 3));
    assert!(outcome.remarks.contains(&"0 frames are shown".to_string()));
}

#[test]
fn the_other_fields_are_compared_where_they_are_shown() {
    for index in [1, 3] {
        let outcome = compare(&without(index));
        assert_eq!((outcome.passed, outcome.failed), (3, 0));
        assert_eq!(outcome.remarks.len(), 1);
        assert!(outcome.remarks[0].ends_with("not compared"));
    }
}

#[test]
fn a_frame_that_is_missing_fails() {
    let last = SAMPLE.rfind("<packet>").expect("there are packets");
    let outcome = compare(&[&SAMPLE[..last], "</pdml>"].concat());
    assert_eq!((outcome.passed, outcome.failed), (2, 1));
    assert_eq!(outcome.remarks, ["frame 5: not there"]);
}

#[test]
fn a_frame_without_a_segment_that_shows_one_fails() {
    let stray = SAMPLE.replacen("scsi_sbc.opcode", FIELDS[2].name, 1);
    let outcome = compare(&stray);
    assert_eq!((outcome.passed, outcome.failed), (3, 1));
    let line = "frame 1: Descriptor Type is shown without a segment";
    assert_eq!(outcome.remarks, [line]);
}
