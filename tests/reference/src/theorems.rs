//! Theorems that hold the book of rules against this implementation.
//!
//! The book's definitions compute. A theorem says that the book's answer to something is the one
//! that is given here, and its proof is `refl`: the checker computes the book's answer and compares.
//! So where the two disagree, a theorem is refused.

pub mod book;
pub mod module;
mod value;

use crate::admission;
use crate::case::Case;
use crate::command::Range;
use crate::generate::request::OwnedRequest;
use crate::numbers;
use crate::segment;
use crate::vectors::{self, Vector};
use crate::writer;

/// What the writer's buffers hold before, so that every byte that stays is seen to stay.
const PATTERN: u8 = 0xA5;

/// Theorems over the same given values; they stand together, so that these are written once.
pub struct Group {
    given: Vec<Given>,
    theorems: Vec<Theorem>,
}

/// A value under a name of its own. A part of an answer that must be as it was given is that name.
struct Given {
    name: String,
    kind: &'static str,
    value: String,
}

struct Theorem {
    name: String,
    /// What is asked and answered, for a person who looks into a refusal.
    remark: String,
    kind: &'static str,
    books: String,
    ours: String,
}

impl Group {
    pub fn theorem_count(&self) -> usize {
        self.theorems.len()
    }

    fn text(&self) -> String {
        let given: String = self.given.iter().map(Given::text).collect();
        let names: String = self
            .given
            .iter()
            .map(|given| format!(" {}", given.name))
            .collect();
        let theorems: String = self
            .theorems
            .iter()
            .map(|theorem| theorem.text(&names))
            .collect();
        format!("{given}{theorems}")
    }
}

impl Given {
    /// What the theorems of this name are given as `part`.
    fn new(name: &str, part: &str, kind: &'static str, value: String) -> Given {
        Given {
            name: format!("{name}-{part}"),
            kind,
            value,
        }
    }

    fn text(&self) -> String {
        let Given { name, kind, value } = self;
        format!("unfoldable {name} : {kind}\n{name} = {value}\n\n")
    }
}

impl Theorem {
    /// The remark's line begins with the name, so that a refusal that names it leads there.
    fn text(&self, given: &str) -> String {
        let Theorem {
            name,
            remark,
            kind,
            books,
            ours,
        } = self;
        format!(
            "-- {name}: {remark}\n\
             {name} : ◌≡◌ {{A = {kind}}} ({books}) {ours}\n\
             unfolding seen{given}\n\
             {name} = refl\n\n"
        )
    }
}

/// The whole answer to a call (number, status, sense, count, record, slice and Data-In), and the
/// answer to the admission question for a range under the same command.
pub fn of_call(name: &str, vector: &Vector, range: Range) -> Group {
    Group {
        given: given_in_call(name, &vector.case),
        theorems: vec![of_answer(name, vector), of_question(name, vector, range)],
    }
}

fn given_in_call(name: &str, case: &Case) -> Vec<Given> {
    vec![
        Given::new(name, "command", "Command", value::command(case)),
        Given::new(name, "slice", "Bytes", value::list(&case.slice)),
        Given::new(name, "input", "Bytes", value::list(&case.data_in)),
    ]
}

fn of_answer(name: &str, vector: &Vector) -> Theorem {
    Theorem {
        name: name.to_string(),
        remark: vector.to_string(),
        kind: "Seen",
        books: format!("seen (answered {name}-command {name}-slice {name}-input)"),
        ours: seen_of(name, vector),
    }
}

fn seen_of(name: &str, vector: &Vector) -> String {
    let Vector {
        case,
        sense,
        answer,
    } = vector;
    let or_given = |after: &[u8], before: &[u8], part: &str| match after == before {
        true => format!("{name}-{part}"),
        false => value::list(after),
    };
    format!(
        "(record {{ number = {}; status = {}; sense = record {{ key = {}; code = {} }}; \
         count = {}; next = {}; slice = {}; input = {} }})",
        answer.number,
        value::status(numbers::status(answer.number)),
        sense.key,
        sense.code,
        answer.count,
        value::record(&answer.record),
        or_given(&answer.slice, &case.slice, "slice"),
        or_given(&answer.data_in, &case.data_in, "input"),
    )
}

fn of_question(name: &str, vector: &Vector, range: Range) -> Theorem {
    let case = &vector.case;
    let place = admission::question(&case.cdb, &case.out, &case.record, range);
    let Range { start, length } = range;
    Theorem {
        name: format!("{name}-question"),
        remark: format!("start {start}, length {length} -> {place:?}; {vector}"),
        kind: "Option Held",
        books: format!("question {name}-command {}", value::range(range)),
        ours: value::held(place, &case.cdb, &case.out),
    }
}

/// The row that refuses a command, or 0, beside a slice of a length that only this speaks of: the
/// largest slices can't be written down.
pub fn of_limit(name: &str, case: &Case, slice: usize) -> Group {
    let Case {
        cdb, out, record, ..
    } = case;
    let input = case.data_in.len();
    let refusal = numbers::first_refusal(cdb, out, record, slice, input).err();
    let number = refusal.unwrap_or(numbers::CARRIED_OUT);
    let theorem = Theorem {
        name: name.to_string(),
        remark: format!(
            "{} {} {}, slice of {slice} bytes, Data-In of {input} -> {number}",
            vectors::to_hex(cdb),
            vectors::to_hex(out),
            vectors::to_hex(&record.to_bytes()),
        ),
        kind: "ℕ",
        books: format!(
            "refusing (refusal {name}-command (record {{ slice = {slice}; input = {input} }}))"
        ),
        ours: number.to_string(),
    };
    Group {
        given: vec![Given::new(name, "command", "Command", value::command(case))],
        theorems: vec![theorem],
    }
}

/// What the walk over a segment finds, or where and why it breaks off.
pub fn of_walk(name: &str, segment: &[u8]) -> Group {
    let ours = value::walk(segment::walk(segment));
    let theorem = Theorem {
        name: name.to_string(),
        remark: format!("{} -> {ours}", vectors::to_hex(segment)),
        kind: "Walk",
        books: format!("walk {name}-segment"),
        ours,
    };
    Group {
        given: vec![Given::new(name, "segment", "Bytes", value::list(segment))],
        theorems: vec![theorem],
    }
}

/// What the host's writer answers, and both its buffers afterwards.
pub fn of_writer(
    name: &str,
    request: &OwnedRequest,
    cdb_size: usize,
    segment_size: usize,
) -> Group {
    let mut cdb = vec![PATTERN; cdb_size];
    let mut segment = vec![PATTERN; segment_size];
    let (number, length) = writer::write(&request.borrow(), &mut cdb, &mut segment);
    let theorem = Theorem {
        name: name.to_string(),
        remark: format!(
            "{}; buffers of {cdb_size} and {segment_size} bytes -> {number} {length} {} {}",
            in_words(request),
            vectors::to_hex(&cdb),
            vectors::to_hex(&segment),
        ),
        kind: "Written",
        books: format!(
            "written {name}-request {} {}",
            value::filled(cdb_size, PATTERN),
            value::filled(segment_size, PATTERN)
        ),
        ours: format!(
            "(record {{ number = {number}; size = {length}; cdb = {}; segment = {} }})",
            value::list(&cdb),
            value::list(&segment)
        ),
    };
    Group {
        given: vec![Given::new(
            name,
            "request",
            "Request",
            value::request(request),
        )],
        theorems: vec![theorem],
    }
}

fn in_words(request: &OwnedRequest) -> String {
    format!(
        "action {:X}h, partition {}, object {}, start {}, length {}, list {}, offsets {:?}, \
         lengths {:?}, capabilities {}",
        request.service_action,
        request.partition_id,
        request.user_object_id,
        request.start,
        request.length,
        request.has_list,
        request.offsets,
        request.lengths,
        vectors::to_hex(&request.capabilities),
    )
}
