//! That the contestants do the same work: the same answers and the same bytes, on every measured call and on random ones.

use crate::engine::RUST;
use crate::face::{Face, PROVED};
use crate::task::{Task, Told};
use reference::case::Case;
use reference::command::Range;
use reference::face::{Admitted, Executed, Reply, Request, Writing, Written};
use reference::generate::{self, errand, question};
use reference::random::Random;

const RANDOM_CALLS: usize = 5000;

/// One measured call, by both, from the same bytes.
pub fn on(task: &mut dyn Task) -> bool {
    task.restore();
    let due = outcome(task, &PROVED);
    task.restore();
    let given = outcome(task, &RUST);
    task.restore();
    due == given && task.is_served(due.0.number)
}

fn outcome(task: &mut dyn Task, face: &Face) -> (Told, [Vec<u8>; 2]) {
    let told = task.call(face);
    (told, task.written().map(<[u8]>::to_vec))
}

/// Random commands, questions and requests: both contestants are held to the independent implementation.
pub fn on_random_calls() -> Result<usize, String> {
    let mut random = Random::new(1);
    let mut done = 0;
    for _ in 0..RANDOM_CALLS {
        let case = generate::command(&mut random);
        let range = question::range(&mut random, &case);
        let errand = errand::Errand::draw(&mut random);
        let writing = errand::writing(&mut random, &errand.request);
        for request in [
            Request::Execute(case.clone()),
            Request::Admission(case, range),
            Request::Write(writing),
        ] {
            let due = reference::face::answer(&request);
            for (name, face) in [("engine", PROVED), ("Rust", RUST)] {
                let what = reference::face::differences(&due, &reply(&face, &request));
                if !what.is_empty() {
                    return Err(format!("{name}, call {done}: {}", what.join("; ")));
                }
            }
            done += 1;
        }
    }
    Ok(done)
}

fn reply(face: &Face, request: &Request) -> Reply {
    match request {
        Request::Execute(case) => Reply::Executed(executed(face, case)),
        Request::Admission(case, range) => Reply::Admitted(admitted(face, case, *range)),
        Request::Write(writing) => Reply::Written(written(face, writing)),
        Request::Sense(number) => Reply::Sensed(reference::face::sensed(*number)),
    }
}

fn executed(face: &Face, case: &Case) -> Executed {
    let mut slice = case.slice.clone();
    let mut data_in = case.data_in.clone();
    let (mut count, mut next_length) = (0, 0);
    let on = &case.record;
    // SAFETY: the buffers are owned here, none overlaps another, and the lengths are theirs.
    let number = unsafe {
        (face.execute)(
            case.cdb.as_ptr(),
            case.cdb.len(),
            case.out.as_ptr(),
            case.out.len(),
            on.partition_id,
            on.user_object_id,
            on.logical_length,
            on.maximum_length,
            on.policy_access_tag,
            on.boot_epoch,
            slice.as_mut_ptr(),
            slice.len(),
            data_in.as_mut_ptr(),
            data_in.len(),
            &mut count,
            &mut next_length,
        )
    };
    Executed {
        number,
        // Sense isn't measured: it is a table of its own.
        sense: reference::face::sensed(number),
        count,
        next_length,
        slice,
        data_in,
        kept: true,
    }
}

fn admitted(face: &Face, case: &Case, range: Range) -> Admitted {
    let on = &case.record;
    let mut offset = 0;
    // SAFETY: as above.
    let place = unsafe {
        (face.admission)(
            case.cdb.as_ptr(),
            case.cdb.len(),
            case.out.as_ptr(),
            case.out.len(),
            on.partition_id,
            on.user_object_id,
            on.logical_length,
            on.maximum_length,
            on.policy_access_tag,
            on.boot_epoch,
            range.start,
            range.length,
            &mut offset,
        )
    };
    Admitted {
        place,
        offset,
        capability: reference::face::capability_at(case, place, offset),
        kept: true,
    }
}

fn written(face: &Face, writing: &Writing) -> Written {
    let mut cdb = writing.cdb.clone();
    let mut segment = writing.segment.clone();
    let mut segment_length = 0;
    let request = &writing.request;
    // SAFETY: as above.
    let number = unsafe {
        (face.write)(
            request.service_action,
            request.partition_id,
            request.user_object_id,
            request.start,
            request.length,
            writing.flag,
            request.offsets.as_ptr(),
            request.offsets.len(),
            request.lengths.as_ptr(),
            request.lengths.len(),
            request.capabilities.as_ptr(),
            request.capabilities.len(),
            cdb.as_mut_ptr(),
            cdb.len(),
            segment.as_mut_ptr(),
            segment.len(),
            &mut segment_length,
        )
    };
    Written {
        number,
        segment_length,
        cdb,
        segment,
        kept: true,
    }
}
