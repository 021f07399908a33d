//! Two callers on one object: what one of them reads doesn't depend on what the other writes.
//!
//! Two sessions are compared that start with one record and slices of one size. What is supposed of
//! them is in [`Pair::broken_premise`]; what then holds is that the first caller is answered the
//! same in both, data included.

use crate::capability::{Capability, TO_THE_LAST_BYTE};
use crate::case::Case;
use crate::command::Action;
use crate::numbers;
use crate::record::Record;

#[derive(Clone, Copy, Debug, PartialEq, Eq)]
pub enum Caller {
    First,
    Second,
}

/// A command with the Data-In that its caller lends.
#[derive(Clone, Debug, PartialEq, Eq)]
pub struct Sent {
    pub by: Caller,
    pub cdb: Vec<u8>,
    pub out: Vec<u8>,
    pub data_in: Vec<u8>,
}

#[derive(Clone, Debug)]
pub struct Session {
    /// The object's slice at the start.
    pub slice: Vec<u8>,
    pub sent: Vec<Sent>,
}

#[derive(Clone, Debug)]
pub struct Pair {
    pub record: Record,
    pub sessions: [Session; 2],
}

/// The object between two commands.
#[derive(Clone, Debug)]
pub struct State {
    pub record: Record,
    pub slice: Vec<u8>,
}

impl State {
    pub fn call(&self, sent: &Sent) -> Case {
        Case {
            cdb: sent.cdb.clone(),
            out: sent.out.clone(),
            record: self.record,
            slice: self.slice.clone(),
            data_in: sent.data_in.clone(),
        }
    }

    pub fn after(&self, next_length: u64, slice: Vec<u8>) -> State {
        State {
            record: self.record.with_logical_length(next_length),
            slice,
        }
    }
}

impl Pair {
    pub fn start(&self, session: &Session) -> State {
        State {
            record: self.record,
            slice: session.slice.clone(),
        }
    }

    /// The first of the premises that these sessions don't meet.
    pub fn broken_premise(&self) -> Option<&'static str> {
        let [one, other] = &self.sessions;
        let read = self.allowed(Caller::First, Action::Read);
        let written = self.allowed(Caller::Second, Action::Write);
        let tests = [
            (
                firsts(one).eq(firsts(other)),
                "the first caller sends the same",
            ),
            (!self.all_sent().any(is_punch), "nobody sends PUNCH"),
            (
                read.iter().all(|span| !span.meets_any(&written)),
                "no position that the second may write is one that the first may read",
            ),
            (
                one.slice.len() == other.slice.len(),
                "the slices have one size",
            ),
            (
                agree_where(&read, &one.slice, &other.slice),
                "the slices agree where the first may read",
            ),
            (
                self.lengths_before_firsts(one) == self.lengths_before_firsts(other),
                "the logical lengths agree before each of the first's commands",
            ),
        ];
        let broken = tests.into_iter().find(|(holds, _)| !holds);
        broken.map(|(_, premise)| premise)
    }

    fn all_sent(&self) -> impl Iterator<Item = &Sent> {
        self.sessions.iter().flat_map(|session| &session.sent)
    }

    /// The positions that a caller's capabilities let it read or write: those in the range of one
    /// that it sends, in some command of either session that rows 2 to 8 don't refuse, and that
    /// matches for that permission, whatever the command itself is.
    fn allowed(&self, caller: Caller, action: Action) -> Vec<Span> {
        let own = self.all_sent().filter(|sent| sent.by == caller);
        own.filter_map(|sent| numbers::rows_2_to_8(&sent.cdb, &sent.out, &self.record).ok())
            .flat_map(|command| {
                let fields = command.fields;
                let all = command.capabilities.into_iter();
                all.filter(move |(_, one)| one.matches(action, &fields, &self.record))
            })
            .map(|(_, capability)| Span::of(&capability))
            .collect()
    }

    fn lengths_before_firsts(&self, session: &Session) -> Vec<u64> {
        let mut state = self.start(session);
        let mut lengths = Vec::new();
        for sent in &session.sent {
            if sent.by == Caller::First {
                lengths.push(state.record.logical_length);
            }
            let answer = state.call(sent).answer();
            state = state.after(answer.record.logical_length, answer.slice);
        }
        lengths
    }
}

fn firsts(session: &Session) -> impl Iterator<Item = &Sent> {
    let is_first = |sent: &&Sent| sent.by == Caller::First;
    session.sent.iter().filter(is_first)
}

/// By the two bytes alone, also where the CDB is refused for something else.
fn is_punch(sent: &Sent) -> bool {
    sent.cdb.get(8..10) == Some(&Action::Punch.code().to_be_bytes())
}

fn agree_where(spans: &[Span], one: &[u8], other: &[u8]) -> bool {
    one.iter().zip(other).enumerate().all(|(position, (a, b))| {
        let position = position as u128;
        a == b || !spans.iter().any(|span| span.has(position))
    })
}

/// Positions from the first up to, and without, the end.
#[derive(Clone, Copy, Debug)]
struct Span {
    first: u128,
    end: u128,
}

impl Span {
    fn of(capability: &Capability) -> Span {
        let first = u128::from(capability.allowed_start);
        Span {
            first,
            end: match capability.allowed_length {
                TO_THE_LAST_BYTE => 1 << 64,
                length => first + u128::from(length),
            },
        }
    }

    fn has(&self, position: u128) -> bool {
        self.first <= position && position < self.end
    }

    fn meets_any(&self, others: &[Span]) -> bool {
        others
            .iter()
            .any(|other| self.first.max(other.first) < self.end.min(other.end))
    }
}
