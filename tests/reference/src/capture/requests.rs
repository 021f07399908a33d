//! Requests that have a segment.

use crate::capability::Capability;
use crate::generate::request::{self, OwnedRequest};
use crate::random::Random;
use crate::segment::{MOST_EXTENSION_CAPABILITIES, MOST_LIST_ENTRIES};

/// What a request's segment is made of.
#[derive(Clone, Copy, Debug, PartialEq, Eq)]
pub struct Shape {
    /// The list's entries, or none where there is no list.
    pub entries: Option<usize>,
    pub extension_capabilities: usize,
}

impl Shape {
    pub fn of(request: &OwnedRequest) -> Shape {
        Shape {
            entries: request.has_list.then_some(request.offsets.len()),
            extension_capabilities: request.capabilities.len() / Capability::BYTES - 1,
        }
    }

    pub fn has_segment(self) -> bool {
        self.entries.is_some() || self.extension_capabilities > 0
    }
}

/// No list, the shortest ones and the longest, each with every extension.
fn edges() -> Vec<Shape> {
    let lists = [None, Some(0), Some(1), Some(MOST_LIST_ENTRIES)];
    lists
        .into_iter()
        .flat_map(|entries| {
            (0..=MOST_EXTENSION_CAPABILITIES).map(move |extension_capabilities| Shape {
                entries,
                extension_capabilities,
            })
        })
        .filter(|shape| shape.has_segment())
        .collect()
}

/// A request of every shape at the edges, and then `others` of any shape.
pub fn draw(random: &mut Random, others: usize) -> Vec<OwnedRequest> {
    let mut all = Vec::new();
    for edge in edges() {
        all.push(until(random, |shape| shape == edge));
    }
    for _ in 0..others {
        all.push(until(random, Shape::has_segment));
    }
    all
}

fn until(random: &mut Random, is_wanted: impl Fn(Shape) -> bool) -> OwnedRequest {
    loop {
        let request = request::sound(random);
        if is_wanted(Shape::of(&request)) {
            return request;
        }
    }
}
