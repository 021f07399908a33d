//! The rota as the server keeps it.

use super::commands::{put_names, Command};
use super::file;
use crate::engine::{self, Answer};
use crate::record::Record;

pub const PARTITION: u64 = 0x10000;
pub const OBJECT: u64 = 0x10001;
pub const SLICE_BYTES: usize = 65_536;
pub const NAME_BYTES: usize = 16;
pub const PLACES: [u64; 6] = [256, 8448, 20736, 33024, 41216, 57600];
const FIRST_NAMES: [&str; 6] = ["Ilse", "Marek", "Oskar", "Dana", "Pavel", "Ruth"];

#[derive(Clone, Debug, PartialEq, Eq)]
pub struct Rota {
    pub record: Record,
    pub slice: Vec<u8>,
}

impl Rota {
    /// What `--fresh` makes.
    pub fn fresh() -> Rota {
        let mut slice = vec![0; SLICE_BYTES];
        for (place, name) in std::iter::zip(PLACES, FIRST_NAMES) {
            let place = place as usize;
            slice[place..place + NAME_BYTES].copy_from_slice(&padded(name));
        }
        Rota {
            record: Record {
                partition_id: PARTITION,
                user_object_id: OBJECT,
                logical_length: PLACES[5] + NAME_BYTES as u64,
                maximum_length: SLICE_BYTES as u64,
                policy_access_tag: 7,
                boot_epoch: 3,
            },
            slice,
        }
    }

    pub fn file(&self) -> Vec<u8> {
        file::file(self.record, &self.slice)
    }

    pub fn names(&self) -> Vec<String> {
        PLACES
            .iter()
            .map(|&place| {
                let text = &self.slice[place as usize..place as usize + NAME_BYTES];
                String::from_utf8_lossy(text)
                    .trim_end_matches('\0')
                    .to_string()
            })
            .collect()
    }

    /// The command by which two posts swap their names, and the rota afterwards.
    pub fn swap(&self, left: usize, right: usize) -> (Command, Rota) {
        let names = self.names();
        let command = put_names(&[(left, &names[right]), (right, &names[left])]);
        let (_, after) = self.answered(&command, 0);
        (command, after)
    }

    pub fn answered(&self, command: &Command, input_length: usize) -> (Answer, Rota) {
        let answer = engine::answer(
            &command.cdb,
            &command.out,
            self.record,
            &self.slice,
            &vec![0; input_length],
        );
        let after = Rota {
            record: answer.record,
            slice: answer.slice.clone(),
        };
        (answer, after)
    }
}

pub fn padded(name: &str) -> [u8; NAME_BYTES] {
    let mut bytes = [0; NAME_BYTES];
    bytes[..name.len()].copy_from_slice(name.as_bytes());
    bytes
}
