//! Random pairs of sessions that meet the premises of [`sessions`](crate::sessions): the second
//! caller does other things in each, and none of them may show in what the first is answered.
//!
//! The positions are divided into stretches that the first may read, that the second may write, or
//! neither. Whatever else a caller may do is drawn freely, so the first also writes where the second
//! does, and the second reads and tries to write where it may not.

use super::object;
use crate::capability::{
    Capability, READ_PERMISSION, TO_THE_LAST_BYTE, USER_DESCRIPTOR_TYPE, USER_OBJECT_TYPE,
    WRITE_PERMISSION,
};
use crate::command::{self, Action, Range, CDB_BYTES};
use crate::random::Random;
use crate::record::Record;
use crate::segment::{MOST_BYTES, MOST_EXTENSION_CAPABILITIES};
use crate::sessions::{Caller, Pair, Sent, Session, State};
use crate::writer::{self, Request};

const MOST_CAPABILITIES: usize = 1 + MOST_EXTENSION_CAPABILITIES;

/// Draws until the premises hold: a few drafts fail, as where the second can't reach a length.
pub fn pair(random: &mut Random) -> Pair {
    loop {
        let draft = draw(random);
        if draft.broken_premise().is_none() {
            return draft;
        }
    }
}

#[derive(Clone, Copy, PartialEq, Eq)]
enum Owner {
    FirstReads,
    SecondWrites,
    Nobody,
}

/// Positions from `start` up to, and without, `end`; the last stretch has no end.
#[derive(Clone, Copy)]
struct Stretch {
    start: u64,
    end: Option<u64>,
    owner: Owner,
}

impl Stretch {
    fn end_below(&self, limit: u64) -> u64 {
        self.end.unwrap_or(u64::MAX).min(limit)
    }

    fn has(&self, position: u64) -> bool {
        self.start <= position && self.end.is_none_or(|end| position < end)
    }
}

/// What both sessions have in common: the record, who may do what where, and the capabilities.
struct Ground {
    record: Record,
    size: u64,
    stretches: Vec<Stretch>,
    firsts: Vec<Capability>,
    seconds: Vec<Capability>,
}

/// One of the two sessions as far as it has got.
struct Side {
    start: Vec<u8>,
    state: State,
    sent: Vec<Sent>,
}

impl Side {
    fn new(record: Record, slice: Vec<u8>) -> Side {
        Side {
            start: slice.clone(),
            state: State { record, slice },
            sent: Vec::new(),
        }
    }

    fn length(&self) -> u64 {
        self.state.record.logical_length
    }

    /// Sends the command, unless it would raise the length above `limit`.
    fn send(&mut self, sent: Sent, limit: u64) {
        let answer = self.state.call(&sent).answer();
        let length = answer.record.logical_length;
        if length <= limit || length == self.length() {
            self.state = self.state.after(length, answer.slice);
            self.sent.push(sent);
        }
    }
}

fn draw(random: &mut Random) -> Pair {
    let object = object::draw(random, false);
    let ground = Ground::draw(random, object.record, object.slice.len() as u64);
    let other = ground.other_slice(random, &object.slice);
    let mut sides = [object.slice, other].map(|slice| Side::new(ground.record, slice));
    for _ in 0..random.between(1, 5) {
        let target = ground.next_length(random, sides[0].length());
        for side in &mut sides {
            ground.second_acts(random, side, target);
        }
        if let Some(sent) = ground.first_command(random, target) {
            for side in &mut sides {
                side.send(sent.clone(), u64::MAX);
            }
        }
    }
    Pair {
        record: ground.record,
        sessions: sides.map(|side| Session {
            slice: side.start,
            sent: side.sent,
        }),
    }
}

impl Ground {
    fn draw(random: &mut Random, record: Record, size: u64) -> Ground {
        let stretches = draw_stretches(random, size);
        let firsts = purse(random, &record, &stretches, Caller::First);
        let seconds = purse(random, &record, &stretches, Caller::Second);
        Ground {
            record,
            size,
            stretches,
            firsts,
            seconds,
        }
    }

    /// Another start: the same where the first may read, also above the logical length.
    fn other_slice(&self, random: &mut Random, slice: &[u8]) -> Vec<u8> {
        let mut other = slice.to_vec();
        for (position, byte) in other.iter_mut().enumerate() {
            let is_read = self
                .owned_by(Owner::FirstReads)
                .any(|stretch| stretch.has(position as u64));
            if !is_read {
                *byte = random.byte();
            }
        }
        other
    }

    fn owned_by(&self, owner: Owner) -> impl Iterator<Item = Stretch> + '_ {
        let all = self.stretches.iter().copied();
        all.filter(move |stretch| stretch.owner == owner)
    }

    /// The highest length that a command may leave behind.
    fn room(&self) -> u64 {
        self.record.maximum_length.min(self.size)
    }

    /// The length that the second leaves in both sessions: the one there is, or one that a WRITE of
    /// its own can raise it to.
    fn next_length(&self, random: &mut Random, length: u64) -> u64 {
        let reachable: Vec<u64> = self
            .owned_by(Owner::SecondWrites)
            .filter(|stretch| stretch.end_below(self.room()) > length.max(stretch.start))
            .map(|stretch| {
                let lowest = length.max(stretch.start) + 1;
                random.between(lowest, stretch.end_below(self.room()))
            })
            .collect();
        match reachable.is_empty() || random.one_in(2) {
            true => length,
            false => random.pick(&reachable),
        }
    }

    /// Some commands of the second in one session, at the end of which the length is `target`.
    fn second_acts(&self, random: &mut Random, side: &mut Side, target: u64) {
        for _ in 0..random.below(4) {
            let sent = match random.below(12) {
                0 => anything(random),
                _ => self.second_command(random, target),
            };
            if let Some(sent) = sent {
                side.send(sent, target);
            }
        }
        if side.length() < target {
            if let Some(sent) = self.raising_command(random, target) {
                side.send(sent, target);
            }
        }
    }

    fn second_command(&self, random: &mut Random, limit: u64) -> Option<Sent> {
        let action = random.pick(&[Action::Write, Action::Write, Action::Clear, Action::Read]);
        let has_list = action.may_have_list() && random.one_in(2);
        let own = |random: &mut Random| match action {
            Action::Read => self.range_of(random, None, limit),
            _ => self.range_of(random, Some(Owner::SecondWrites), limit),
        };
        let mut ranges = draw_ranges(random, has_list, own);
        if random.one_in(4) {
            // Where it may not write: refused as a whole, wherever in the list this range stands.
            let trespass = self.range_of(random, Some(Owner::FirstReads), limit)?;
            if !has_list {
                ranges.clear();
            }
            ranges.push(trespass);
        }
        self.sent(random, Caller::Second, action, has_list, &ranges)
    }

    fn raising_command(&self, random: &mut Random, target: u64) -> Option<Sent> {
        let last = target.checked_sub(1)?;
        let stretch = self
            .owned_by(Owner::SecondWrites)
            .find(|stretch| stretch.has(last))?;
        let lowest = stretch.start.max(last.saturating_sub(20));
        let start = random.between(lowest, last);
        let range = Range {
            start,
            length: target - start,
        };
        let action = random.pick(&[Action::Write, Action::Clear]);
        self.sent(random, Caller::Second, action, false, &[range])
    }

    fn first_command(&self, random: &mut Random, length: u64) -> Option<Sent> {
        let action = random.pick(&[
            Action::Read,
            Action::Read,
            Action::Read,
            Action::Write,
            Action::Write,
            Action::Clear,
        ]);
        let has_list = action.may_have_list() && random.one_in(2);
        let strays = random.one_in(6);
        let ranges = draw_ranges(random, has_list, |random| match action {
            Action::Read if !strays => {
                self.range_of(random, Some(Owner::FirstReads), length.saturating_add(2))
            }
            _ => self.range_of(random, None, self.room().saturating_add(1)),
        });
        self.sent(random, Caller::First, action, has_list, &ranges)
    }

    /// A range of a stretch of this owner, or of any, that ends at or below the limit.
    fn range_of(&self, random: &mut Random, owner: Option<Owner>, limit: u64) -> Option<Range> {
        let fitting: Vec<Stretch> = self
            .stretches
            .iter()
            .copied()
            .filter(|stretch| owner.is_none_or(|owner| stretch.owner == owner))
            .filter(|stretch| stretch.start <= limit)
            .collect();
        if fitting.is_empty() {
            return None;
        }
        let stretch = random.pick(&fitting);
        let end = stretch.end_below(limit);
        let start = random.between(stretch.start, end);
        let some = random.below(16);
        Some(Range {
            start,
            length: random.pick(&[some, some, some, 60]).min(end - start),
        })
    }

    /// None where the writer refuses it, as where entries of a WRITE share a position.
    fn sent(
        &self,
        random: &mut Random,
        by: Caller,
        action: Action,
        has_list: bool,
        ranges: &[Range],
    ) -> Option<Sent> {
        let capabilities = self.capabilities(random, by);
        let (offsets, lengths): (Vec<u64>, Vec<u64>) = ranges
            .iter()
            .map(|range| (range.start, range.length))
            .unzip();
        let only = match has_list {
            true => Range {
                start: 0,
                length: 0,
            },
            false => *ranges.first()?,
        };
        let request = Request {
            service_action: action.code().into(),
            partition_id: self.record.partition_id,
            user_object_id: self.record.user_object_id,
            start: only.start,
            length: only.length,
            has_list,
            offsets: &offsets,
            lengths: &lengths,
            capabilities: &capabilities,
        };
        let mut cdb = vec![0; CDB_BYTES];
        let mut out = vec![0; MOST_BYTES];
        let (number, segment_length) = writer::write(&request, &mut cdb, &mut out);
        if number != writer::WRITTEN {
            return None;
        }
        let length = command::total_length(ranges) as usize;
        out.truncate(segment_length as usize);
        if action == Action::Write {
            out.extend(random.bytes(length));
        }
        let room_in_data_in = length + random.index(5);
        Some(Sent {
            by,
            cdb,
            out,
            data_in: random.bytes(room_in_data_in),
        })
    }

    /// All that the caller has, in any order; sometimes it forgets one.
    fn capabilities(&self, random: &mut Random, by: Caller) -> Vec<u8> {
        let mut all = match by {
            Caller::First => self.firsts.clone(),
            Caller::Second => self.seconds.clone(),
        };
        random.shuffle(&mut all);
        if all.len() > 1 && random.one_in(12) {
            all.pop();
        }
        all.iter().flat_map(|one| one.to_bytes()).collect()
    }
}

/// From two to six stretches. The first two owners have at least one each, so that there is
/// something to tell apart.
fn draw_stretches(random: &mut Random, size: u64) -> Vec<Stretch> {
    let mut cuts: Vec<u64> = (0..random.between(1, 5))
        .map(|_| random.between(1, size + 3))
        .collect();
    cuts.push(0);
    cuts.sort();
    cuts.dedup();
    let mut owners = vec![Owner::FirstReads, Owner::SecondWrites];
    while owners.len() < cuts.len() {
        owners.push(random.pick(&[Owner::FirstReads, Owner::SecondWrites, Owner::Nobody]));
    }
    random.shuffle(&mut owners);
    let mut stretches = Vec::new();
    for (index, (&start, owner)) in cuts.iter().zip(owners).enumerate() {
        let end = cuts.get(index + 1).copied();
        stretches.push(Stretch { start, end, owner });
    }
    stretches
}

/// One range, or up to four for a list.
fn draw_ranges(
    random: &mut Random,
    has_list: bool,
    mut one: impl FnMut(&mut Random) -> Option<Range>,
) -> Vec<Range> {
    let count = match has_list {
        true => random.below(5),
        false => 1,
    };
    (0..count).filter_map(|_| one(random)).collect()
}

/// A caller's capabilities: for its own stretches with the permission that sets it apart, for some
/// others with the one that doesn't matter, and some that match nothing.
fn purse(
    random: &mut Random,
    record: &Record,
    stretches: &[Stretch],
    by: Caller,
) -> Vec<Capability> {
    let (owner, own, free) = match by {
        Caller::First => (Owner::FirstReads, READ_PERMISSION, WRITE_PERMISSION),
        Caller::Second => (Owner::SecondWrites, WRITE_PERMISSION, READ_PERMISSION),
    };
    let mut all = Vec::new();
    for stretch in stretches {
        let mut permissions = 0;
        if stretch.owner == owner {
            permissions |= own;
        }
        if random.one_in(2) {
            permissions |= free;
        }
        if permissions != 0 {
            all.push(matching(random, record, permissions, *stretch));
        }
    }
    let decoys = random.between(u64::from(all.is_empty()), 2);
    for _ in 0..decoys {
        all.push(decoy(random, record));
    }
    all.truncate(MOST_CAPABILITIES);
    all
}

fn matching(random: &mut Random, record: &Record, permissions: u8, stretch: Stretch) -> Capability {
    Capability {
        object_type: USER_OBJECT_TYPE,
        permissions: permissions | random.byte() & !(READ_PERMISSION | WRITE_PERMISSION),
        descriptor_type: USER_DESCRIPTOR_TYPE,
        policy_access_tag: random.pick(&[0, record.policy_access_tag]),
        boot_epoch: random.pick(&[0, record.boot_epoch]),
        allowed_partition: record.partition_id,
        allowed_object: record.user_object_id,
        allowed_length: match stretch.end {
            Some(end) => end - stretch.start,
            None => TO_THE_LAST_BYTE,
        },
        allowed_start: stretch.start,
    }
}

/// Over every position and with every permission, and yet one thing keeps it from matching.
fn decoy(random: &mut Random, record: &Record) -> Capability {
    let everything = Stretch {
        start: 0,
        end: None,
        owner: Owner::Nobody,
    };
    let mut one = matching(random, record, 0xFF, everything);
    match random.below(5) {
        0 => one.object_type = 0x81,
        1 => one.descriptor_type = 2,
        2 => one.policy_access_tag = record.policy_access_tag ^ 0x10,
        3 => one.allowed_object = 0,
        _ => one.allowed_partition ^= 2,
    }
    one
}

/// A random call as something that the second sends, whatever it is.
fn anything(random: &mut Random) -> Option<Sent> {
    let case = super::command(random);
    Some(Sent {
        by: Caller::Second,
        cdb: case.cdb,
        out: case.out,
        data_in: case.data_in,
    })
}
