//! Requests and replies as the driver's frames. Its source says how they are laid out.

use super::{Lending, Place};
use crate::bytes;
use crate::case::Case;
use crate::command::Range;
use crate::face::{self, Admitted, Executed, Reply, Request, Sensed, Writing, Written};

/// A frame's bytes without its length.
pub fn request(request: &Request, lending: Lending) -> Vec<u8> {
    let mut frame = Vec::new();
    frame.push(kind(request));
    frame.push(lending_byte(lending));
    match request {
        Request::Execute(case) => put_execute(&mut frame, case),
        Request::Admission(case, range) => put_admission(&mut frame, case, *range),
        Request::Write(writing) => put_writing(&mut frame, writing),
        Request::Sense(number) => frame.extend(number.to_be_bytes()),
    }
    frame
}

fn kind(request: &Request) -> u8 {
    match request {
        Request::Execute(_) => 1,
        Request::Admission(..) => 2,
        Request::Write(_) => 3,
        Request::Sense(_) => 4,
    }
}

fn lending_byte(lending: Lending) -> u8 {
    let place = match lending.place {
        Place::Heap => 0,
        Place::BeforeGuard => 1,
        Place::BehindGuard => 2,
    };
    place | u8::from(lending.empty_is_null) << 2
}

fn put_execute(frame: &mut Vec<u8>, case: &Case) {
    frame.extend(case.record.to_bytes());
    put_slice(frame, &case.cdb);
    put_slice(frame, &case.out);
    put_slice(frame, &case.slice);
    put_slice(frame, &case.data_in);
}

fn put_admission(frame: &mut Vec<u8>, case: &Case, range: Range) {
    frame.extend(case.record.to_bytes());
    frame.extend(range.start.to_be_bytes());
    frame.extend(range.length.to_be_bytes());
    put_slice(frame, &case.cdb);
    put_slice(frame, &case.out);
}

fn put_writing(frame: &mut Vec<u8>, writing: &Writing) {
    let request = &writing.request;
    for number in [
        request.service_action,
        request.partition_id,
        request.user_object_id,
        request.start,
        request.length,
    ] {
        frame.extend(number.to_be_bytes());
    }
    frame.extend(writing.flag.to_be_bytes());
    put_numbers(frame, &request.offsets);
    put_numbers(frame, &request.lengths);
    put_slice(frame, &request.capabilities);
    put_slice(frame, &writing.cdb);
    put_slice(frame, &writing.segment);
}

fn put_slice(frame: &mut Vec<u8>, slice: &[u8]) {
    frame.extend((slice.len() as u32).to_be_bytes());
    frame.extend(slice);
}

fn put_numbers(frame: &mut Vec<u8>, numbers: &[u64]) {
    frame.extend((numbers.len() as u32).to_be_bytes());
    for number in numbers {
        frame.extend(number.to_be_bytes());
    }
}

pub fn reply(request: &Request, frame: &[u8]) -> Result<Reply, String> {
    let mut rest = Rest { bytes: frame };
    let reply = match request {
        Request::Execute(_) => Reply::Executed(executed(&mut rest)?),
        Request::Admission(case, _) => Reply::Admitted(admitted(&mut rest, case)?),
        Request::Write(_) => Reply::Written(written(&mut rest)?),
        Request::Sense(_) => Reply::Sensed(sensed(&mut rest)?),
    };
    match rest.bytes.len() {
        0 => Ok(reply),
        more => Err(format!("a reply with {more} bytes too many")),
    }
}

fn executed(rest: &mut Rest) -> Result<Executed, String> {
    Ok(Executed {
        kept: rest.flag()?,
        number: rest.u32()?,
        sense: sensed(rest)?,
        count: rest.u64()?,
        next_length: rest.u64()?,
        slice: rest.slice()?,
        data_in: rest.slice()?,
    })
}

fn admitted(rest: &mut Rest, case: &Case) -> Result<Admitted, String> {
    let kept = rest.flag()?;
    let place = rest.u32()?;
    let offset = rest.u64()?;
    Ok(Admitted {
        place,
        offset,
        capability: face::capability_at(case, place, offset),
        kept,
    })
}

fn written(rest: &mut Rest) -> Result<Written, String> {
    Ok(Written {
        kept: rest.flag()?,
        number: rest.u32()?,
        segment_length: rest.u64()?,
        cdb: rest.slice()?,
        segment: rest.slice()?,
    })
}

fn sensed(rest: &mut Rest) -> Result<Sensed, String> {
    Ok(Sensed {
        key: rest.u32()?,
        code: rest.u32()?,
        status: rest.u32()?,
    })
}

/// What is left of a frame, read from its start.
struct Rest<'a> {
    bytes: &'a [u8],
}

impl<'a> Rest<'a> {
    fn take(&mut self, count: usize) -> Result<&'a [u8], String> {
        if count > self.bytes.len() {
            return Err("a reply that ends early".to_string());
        }
        let (taken, left) = self.bytes.split_at(count);
        self.bytes = left;
        Ok(taken)
    }

    fn flag(&mut self) -> Result<bool, String> {
        Ok(self.take(1)?[0] == 1)
    }

    fn u32(&mut self) -> Result<u32, String> {
        Ok(bytes::get_u32(self.take(4)?, 0))
    }

    fn u64(&mut self) -> Result<u64, String> {
        Ok(bytes::get_u64(self.take(8)?, 0))
    }

    fn slice(&mut self) -> Result<Vec<u8>, String> {
        let count = self.u32()?;
        Ok(self.take(count as usize)?.to_vec())
    }
}
