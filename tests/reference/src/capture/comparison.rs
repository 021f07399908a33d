//! Holds what `tshark` shows of a capture to what is due.

use super::fields::{Due, Field, FIELDS};
use super::pdml::{Packet, Shown};

#[derive(Debug, Default, PartialEq, Eq)]
pub struct Outcome {
    /// Frames.
    pub passed: usize,
    pub failed: usize,
    /// What is wrong, and what couldn't be compared.
    pub remarks: Vec<String>,
}

/// Every frame that is due must show its fields. The others have no segment and must show none.
pub fn compare(due: &[Due], packets: &[Packet]) -> Outcome {
    let (shown, missing): (Vec<usize>, Vec<usize>) =
        (0..FIELDS.len()).partition(|&index| is_shown(&FIELDS[index], packets));
    if missing.iter().any(|&index| FIELDS[index].is_needed) {
        return nothing_to_compare(due, &missing, packets);
    }
    let mut outcome = Outcome::default();
    for index in missing {
        let line = format!("{} is shown nowhere: not compared", named(&FIELDS[index]));
        outcome.remarks.push(line);
    }
    for frame in due {
        outcome.count(frame_differences(frame, &shown, packets), true);
    }
    for (packet, number) in packets.iter().zip(1..) {
        if due.iter().all(|frame| frame.frame != number) {
            outcome.count(strays(number, packet), false);
        }
    }
    outcome
}

impl Outcome {
    /// A frame with these differences. One that is there for the others' sake counts only if it fails.
    fn count(&mut self, differences: Vec<String>, counts_if_passed: bool) {
        match differences.is_empty() {
            true => self.passed += usize::from(counts_if_passed),
            false => self.failed += 1,
        }
        self.remarks.extend(differences);
    }
}

/// By either name: which ones a version of Wireshark has isn't certain.
fn is(shown: &Shown, field: &Field) -> bool {
    shown.name == field.name || shown.label == field.label
}

fn is_shown(field: &Field, packets: &[Packet]) -> bool {
    packets
        .iter()
        .flat_map(|packet| &packet.fields)
        .any(|shown| is(shown, field))
}

/// A field's values in a packet; none where one isn't a number.
fn values(field: &Field, packet: &Packet) -> Option<Vec<u64>> {
    packet
        .fields
        .iter()
        .filter(|shown| is(shown, field))
        .map(|shown| shown.number)
        .collect()
}

fn frame_differences(due: &Due, compared: &[usize], packets: &[Packet]) -> Vec<String> {
    let Some(packet) = packet(due.frame, packets) else {
        return vec![format!("frame {}: not there", due.frame)];
    };
    compared
        .iter()
        .filter_map(|&index| {
            let field = &FIELDS[index];
            let what = difference(field, &due.values[index], values(field, packet))?;
            Some(format!("frame {}: {what}", due.frame))
        })
        .collect()
}

fn difference(field: &Field, due: &[u64], given: Option<Vec<u64>>) -> Option<String> {
    let word = match given {
        Some(given) if given == due => return None,
        Some(given) if given.is_empty() => "missing".to_string(),
        Some(given) => field.word(&given),
        None => "no number".to_string(),
    };
    Some(format!(
        "{} is {word} and not {}",
        field.label,
        field.word(due)
    ))
}

/// Fields of a segment in a frame without one.
fn strays(number: u32, packet: &Packet) -> Vec<String> {
    FIELDS
        .iter()
        .filter(|field| packet.fields.iter().any(|shown| is(shown, field)))
        .map(|field| format!("frame {number}: {} is shown without a segment", field.label))
        .collect()
}

fn packet<'a>(frame: u32, packets: &'a [Packet<'a>]) -> Option<&'a Packet<'a>> {
    packets.get((frame as usize).checked_sub(1)?)
}

/// Without a needed field in any frame each one fails for the same reason. What is shown of the first
/// says whether another name is to be looked for, or where the capture wasn't understood.
fn nothing_to_compare(due: &[Due], missing: &[usize], packets: &[Packet]) -> Outcome {
    let mut remarks: Vec<String> = missing
        .iter()
        .map(|&index| format!("{} is shown nowhere", named(&FIELDS[index])))
        .collect();
    remarks.push(format!("{} frames are shown", packets.len()));
    if let Some(packet) = due.first().and_then(|first| packet(first.frame, packets)) {
        remarks.push(format!(
            "protocols in frame {}: {}",
            due[0].frame,
            packet.protocols.join(" ")
        ));
        remarks.push(format!("SCSI fields in frame {}:", due[0].frame));
        remarks.extend(scsi_fields(packet));
    }
    Outcome {
        passed: 0,
        failed: due.len().max(1),
        remarks,
    }
}

/// Also those of OSD, whose names begin alike.
fn scsi_fields(packet: &Packet) -> Vec<String> {
    packet
        .fields
        .iter()
        .filter(|shown| shown.name.starts_with("scsi"))
        .map(|shown| format!("  {}, \"{}\"", shown.name, shown.label))
        .collect()
}

fn named(field: &Field) -> String {
    format!("{}, \"{}\",", field.name, field.label)
}
