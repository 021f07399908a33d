//! One call: everything the engine is given, owned.

use crate::engine::{self, Answer};
use crate::record::Record;

#[derive(Clone, Debug, PartialEq, Eq)]
pub struct Case {
    pub cdb: Vec<u8>,
    pub out: Vec<u8>,
    pub record: Record,
    pub slice: Vec<u8>,
    pub data_in: Vec<u8>,
}

impl Case {
    pub fn answer(&self) -> Answer {
        engine::answer(
            &self.cdb,
            &self.out,
            self.record,
            &self.slice,
            &self.data_in,
        )
    }
}
