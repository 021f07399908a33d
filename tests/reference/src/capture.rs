//! Segments that a writer has written, as a network capture that Wireshark can read.
//!
//! Wireshark has a reader of OSD-2 segments that nobody wrote for this project. It reads SCSI over
//! iSCSI, and it shows a segment with the service actions that it knows to have one. Those of the
//! writer aren't among them, so the capture has copies of the commands with 88A0h.
//!
//! * [`requests`] draws requests that have a segment,
//! * [`of`] makes the capture's bytes and says what is to be shown for them,
//! * [`pdml`] reads what `tshark` prints, and [`comparison`] holds it to what is due.

pub mod comparison;
pub mod fields;
mod iscsi;
mod packets;
pub mod pdml;
pub mod requests;

use crate::bytes;
use crate::generate::request::OwnedRequest;
use fields::Due;
use packets::{Packets, Side};

/// A service action with which Wireshark shows the segment.
const SHOWN_ACTION: u16 = 0x88A0;

/// A request, and the CDB and segment that were written for it.
#[derive(Clone, Debug)]
pub struct Command {
    pub request: OwnedRequest,
    pub cdb: Vec<u8>,
    pub segment: Vec<u8>,
}

pub struct Capture {
    /// In the pcap format.
    pub file: Vec<u8>,
    /// For each frame with a segment, in order.
    pub due: Vec<Due>,
}

/// The commands as one iSCSI session, a frame each, after the exchange from which Wireshark learns
/// that the device is one for objects: without it, it takes the commands for a disk's.
pub fn of(commands: &[Command]) -> Capture {
    let mut packets = Packets::new();
    packets.send(Side::Initiator, &iscsi::inquiry());
    packets.send(Side::Target, &iscsi::inquiry_answer());
    let mut due = Vec::new();
    for (command, task) in commands.iter().zip(iscsi::FIRST_TASK..) {
        let (cdb, segment) = shown_copy(command);
        let pdu = iscsi::command_with_data(task, &cdb, &segment);
        let frame = packets.send(Side::Initiator, &pdu);
        due.push(Due::of(frame, SHOWN_ACTION, &command.request));
    }
    Capture {
        file: packets.into_file(),
        due,
    }
}

/// CDB and segment with the other service action, and else as they are.
fn shown_copy(command: &Command) -> (Vec<u8>, Vec<u8>) {
    let mut cdb = command.cdb.clone();
    let mut segment = command.segment.clone();
    bytes::put_u16(&mut cdb, 8, SHOWN_ACTION);
    bytes::put_u16(&mut segment, 2, SHOWN_ACTION);
    (cdb, segment)
}
