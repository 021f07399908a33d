//! Ranges to ask the admission question for, at the edges of what a command names and allows.

use crate::capability::Capability;
use crate::case::Case;
use crate::command::{Range, CAPABILITY_AT};
use crate::numbers;
use crate::random::Random;

/// A range near one that the command names or that one of its capabilities allows, so that a good
/// share is admitted and the others mostly fail by one position.
pub fn range(random: &mut Random, case: &Case) -> Range {
    let edge = random_edge(random, case);
    match random.below(6) {
        0 => at_the_last_position(random, edge),
        1 | 2 => part_of(random, edge),
        3 | 4 => Range {
            start: random.near(edge.start),
            length: random.near(edge.length),
        },
        _ => edge,
    }
}

fn random_edge(random: &mut Random, case: &Case) -> Range {
    let Ok(command) = numbers::rows_2_to_8(&case.cdb, &case.out, &case.record) else {
        return edge_of_refused(&case.cdb);
    };
    let ranges = command.ranges();
    if random.one_in(2) && !ranges.is_empty() {
        return random.pick(&ranges);
    }
    let (_, capability) = random.pick(&command.capabilities);
    allowed_by(&capability)
}

/// A refused command is asked for what its CDB's capability allows: an answer that forgot the
/// refusal would name that one.
fn edge_of_refused(cdb: &[u8]) -> Range {
    match cdb.get(CAPABILITY_AT..CAPABILITY_AT + Capability::BYTES) {
        Some(bytes) => allowed_by(&Capability::from_bytes(bytes)),
        None => Range {
            start: 0,
            length: 0,
        },
    }
}

fn allowed_by(capability: &Capability) -> Range {
    Range {
        start: capability.allowed_start,
        length: capability.allowed_length,
    }
}

fn part_of(random: &mut Random, whole: Range) -> Range {
    let skipped = random.between(0, whole.length);
    Range {
        start: whole.start.saturating_add(skipped),
        length: random.between(0, whole.length - skipped),
    }
}

/// From the edge's start, or from near 2^64, to one below 2^64, to it, or to one above it.
fn at_the_last_position(random: &mut Random, edge: Range) -> Range {
    let start = random.pick(&[edge.start, u64::MAX, u64::MAX - 7]);
    Range {
        start,
        length: (u64::MAX - start).saturating_add(random.below(3)),
    }
}
