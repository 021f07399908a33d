//! Pairs of sessions: the premises, what they promise, and that the random pairs put it to the test.

use reference::capability::{Capability, READ_PERMISSION, WRITE_PERMISSION};
use reference::case::Case;
use reference::command::Action;
use reference::engine::Answer;
use reference::generate::session;
use reference::random::Random;
use reference::record::Record;
use reference::sessions::{Caller, Pair, Sent, Session};
use reference::writer::{self, Request};

const PAIRS: usize = 2_000;

type Engine = fn(&Case) -> Answer;

/// Each command with its answer, in order.
fn play<'a>(pair: &Pair, session: &'a Session, engine: Engine) -> Vec<(&'a Sent, Answer)> {
    let mut state = pair.start(session);
    let mut answers = Vec::new();
    for sent in &session.sent {
        let answer = engine(&state.call(sent));
        state = state.after(answer.record.logical_length, answer.slice.clone());
        answers.push((sent, answer));
    }
    answers
}

/// What the first caller is told: everything but the slice.
fn told(pair: &Pair, session: &Session, engine: Engine) -> Vec<Answer> {
    play(pair, session, engine)
        .into_iter()
        .filter(|(sent, _)| sent.by == Caller::First)
        .map(|(_, answer)| Answer {
            slice: Vec::new(),
            ..answer
        })
        .collect()
}

fn pairs(seed: u64) -> impl Iterator<Item = Pair> {
    let mut random = Random::new(seed);
    (0..PAIRS).map(move |_| session::pair(&mut random))
}

/// How many pairs show the first caller a difference.
fn broken_pairs(seed: u64, engine: Engine) -> usize {
    pairs(seed)
        .filter(|pair| {
            let [one, other] = &pair.sessions;
            told(pair, one, engine) != told(pair, other, engine)
        })
        .count()
}

#[test]
fn the_first_caller_is_answered_the_same() {
    assert_eq!(broken_pairs(1, Case::answer), 0);
}

fn is_read(sent: &Sent) -> bool {
    sent.cdb.get(8..10) == Some(&Action::Read.code().to_be_bytes())
}

#[test]
fn the_pairs_put_it_to_the_test() {
    let tests: [(&str, fn(&Sent, &Answer) -> bool); 4] = [
        ("the first reads", |sent, answer| {
            sent.by == Caller::First && is_read(sent) && answer.count > 0
        }),
        ("the first writes", |sent, answer| {
            sent.by == Caller::First && !is_read(sent) && answer.count > 0
        }),
        ("the second writes", |sent, answer| {
            sent.by == Caller::Second && !is_read(sent) && answer.count > 0
        }),
        ("the second isn't let in", |sent, answer| {
            sent.by == Caller::Second && answer.number == 11
        }),
    ];
    let mut starts_differ = 0;
    let mut counts = [0; 4];
    for pair in pairs(2) {
        let [one, other] = &pair.sessions;
        starts_differ += usize::from(one.slice != other.slice);
        let all = play(&pair, one, Case::answer);
        for ((_, test), count) in tests.iter().zip(&mut counts) {
            *count += usize::from(all.iter().any(|(sent, answer)| test(sent, answer)));
        }
    }
    assert!(starts_differ > PAIRS / 2, "{starts_differ} of {PAIRS}");
    for ((name, _), count) in tests.iter().zip(counts) {
        assert!(count > PAIRS / 10, "{name}: {count} of {PAIRS}");
    }
}

/// Gives the CDB a capability over everything.
fn lets_everybody_in(case: &Case) -> Answer {
    let mut open = case.clone();
    if open.cdb.len() == 236 {
        open.cdb[128] = 0x80;
        open.cdb[129] = 0xC0;
        open.cdb[135] = 0x10;
        open.cdb[140..146].fill(0);
        open.cdb.copy_within(16..32, 152);
        open.cdb[168..176].fill(0xFF);
        open.cdb[176..184].fill(0);
    }
    open.answer()
}

/// Shows what the slice holds past the object, wherever Data-In has room.
fn shows_what_is_past_the_object(case: &Case) -> Answer {
    let mut answer = case.answer();
    let past = case.slice.iter().skip(case.record.logical_length as usize);
    let rest = answer.data_in.iter_mut().skip(answer.count as usize);
    for (to, from) in rest.zip(past) {
        *to = *from;
    }
    answer
}

#[test]
fn engines_that_leak_are_found() {
    for leaking in [lets_everybody_in, shows_what_is_past_the_object] {
        assert!(broken_pairs(3, leaking) > PAIRS / 20);
    }
}

fn record() -> Record {
    Record {
        partition_id: 3,
        user_object_id: 4,
        logical_length: 12,
        maximum_length: 20,
        policy_access_tag: 0,
        boot_epoch: 0,
    }
}

/// A command on one range by a caller with one capability, `allowed` from its first position on.
fn sent(
    by: Caller,
    action: Action,
    range: (u64, u64),
    permissions: u8,
    allowed: (u64, u64),
) -> Sent {
    let capability = Capability {
        object_type: 0x80,
        permissions,
        descriptor_type: 1,
        policy_access_tag: 0,
        boot_epoch: 0,
        allowed_partition: 3,
        allowed_object: 4,
        allowed_length: allowed.1,
        allowed_start: allowed.0,
    };
    let request = Request {
        service_action: action.code().into(),
        partition_id: 3,
        user_object_id: 4,
        start: range.0,
        length: range.1,
        has_list: false,
        offsets: &[],
        lengths: &[],
        capabilities: &capability.to_bytes(),
    };
    let mut cdb = vec![0; 236];
    assert_eq!(writer::write(&request, &mut cdb, &mut []).0, 0);
    Sent {
        by,
        cdb,
        out: vec![7; range.1 as usize],
        data_in: vec![9; range.1 as usize],
    }
}

fn first_reads(range: (u64, u64)) -> Sent {
    sent(Caller::First, Action::Read, range, READ_PERMISSION, (0, 8))
}

fn second_writes(range: (u64, u64), allowed: (u64, u64)) -> Sent {
    sent(
        Caller::Second,
        Action::Write,
        range,
        WRITE_PERMISSION,
        allowed,
    )
}

/// The first may read the positions 0 to 7; the second writes above them, in one session alone.
fn example() -> Pair {
    let slice = vec![1; 20];
    let mut other = slice.clone();
    other[8..].fill(2);
    Pair {
        record: record(),
        sessions: [
            Session {
                slice,
                sent: vec![second_writes((8, 3), (8, 4)), first_reads((0, 5))],
            },
            Session {
                slice: other,
                sent: vec![first_reads((0, 5))],
            },
        ],
    }
}

fn broken(edit: impl FnOnce(&mut Pair)) -> Option<&'static str> {
    let mut pair = example();
    edit(&mut pair);
    pair.broken_premise()
}

#[test]
fn each_premise_by_an_example() {
    assert_eq!(broken(|_| ()), None);
    assert_eq!(
        broken(|pair| pair.sessions[1].sent[0] = first_reads((0, 4))),
        Some("the first caller sends the same")
    );
    assert_eq!(
        broken(|pair| pair.sessions[1].sent[0].data_in[0] = 0),
        Some("the first caller sends the same")
    );
    assert_eq!(
        broken(|pair| {
            let punch = sent(Caller::Second, Action::Punch, (99, 0), 0, (0, 0));
            pair.sessions[1].sent.push(punch);
        }),
        Some("nobody sends PUNCH")
    );
    let apart = Some("no position that the second may write is one that the first may read");
    assert_eq!(
        broken(|pair| pair.sessions[0].sent[0] = second_writes((8, 3), (7, 5))),
        apart
    );
    // A capability counts for what it permits, also where the command is of another kind.
    assert_eq!(
        broken(|pair| {
            let both = READ_PERMISSION | WRITE_PERMISSION;
            let read = sent(Caller::Second, Action::Read, (3, 1), both, (0, u64::MAX));
            pair.sessions[1].sent.push(read);
        }),
        apart
    );
    assert_eq!(
        broken(|pair| pair.sessions[1].slice.push(2)),
        Some("the slices have one size")
    );
    assert_eq!(
        broken(|pair| pair.sessions[1].slice[7] = 2),
        Some("the slices agree where the first may read")
    );
    assert_eq!(
        broken(|pair| pair.sessions[0].sent[0] = second_writes((12, 1), (8, 12))),
        Some("the logical lengths agree before each of the first's commands")
    );
}
