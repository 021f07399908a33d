//! What the theorems are written from: every kind of answer is among the random ones, and the
//! definitions that a theorem opens are found in the book's text.

use reference::admission;
use reference::capability::Place;
use reference::generate::{self, question, request};
use reference::random::Random;
use reference::segment::{self, Cause, Contents};
use reference::theorems::book;
use reference::writer;

const DRAWS: usize = 2_000;

#[test]
fn a_good_share_of_the_questions_is_admitted() {
    let mut random = Random::new(1);
    let [mut by_cdb, mut by_segment, mut refused] = [0; 3];
    for _ in 0..DRAWS {
        let case = generate::command(&mut random);
        let range = question::range(&mut random, &case);
        match admission::question(&case.cdb, &case.out, &case.record, range) {
            Some(Place::Cdb) => by_cdb += 1,
            Some(Place::Segment(_)) => by_segment += 1,
            None => refused += 1,
        }
    }
    assert!(by_cdb > DRAWS / 4, "{by_cdb}");
    assert!(by_segment > DRAWS / 20, "{by_segment}");
    assert!(refused > DRAWS / 4, "{refused}");
}

#[test]
fn segments_are_whole_or_broken_for_every_cause() {
    const CAUSES: [Cause; 7] = [
        Cause::UnknownType,
        Cause::DataOverSupportedLength,
        Cause::DataAndPadNoMultipleOfEight,
        Cause::DataDoesNotFitType,
        Cause::RunsPastSegment,
        Cause::TypeRepeated,
        Cause::RemainderNotZero,
    ];
    let mut random = Random::new(2);
    let mut broken = Vec::new();
    let mut whole = Vec::new();
    for _ in 0..DRAWS {
        match segment::walk(&generate::segment::draw(&mut random)) {
            Ok(Contents { list, extension }) => whole.push((list.is_some(), extension.is_some())),
            Err(fault) => broken.push(fault.cause),
        }
    }
    for cause in CAUSES {
        let met = broken.iter().filter(|&&other| other == cause).count();
        assert!(met > DRAWS / 100, "{cause:?}: {met}");
    }
    for contents in [(false, false), (false, true), (true, false), (true, true)] {
        let met = whole.iter().filter(|&&other| other == contents).count();
        assert!(met > DRAWS / 100, "{contents:?}: {met}");
    }
}

#[test]
fn requests_are_written_refused_or_short_of_a_buffer() {
    let mut random = Random::new(3);
    for (number, least) in [(0, DRAWS / 4), (16, DRAWS / 8), (17, DRAWS / 8)] {
        let met = (0..DRAWS)
            .filter(|index| {
                let request = match index % 2 {
                    0 => request::sound(&mut random),
                    _ => request::slipped(&mut random),
                };
                let (cdb_size, segment_size) = request::buffer_sizes(&mut random, &request);
                let mut cdb = vec![0; cdb_size];
                let mut segment = vec![0; segment_size];
                writer::write(&request.borrow(), &mut cdb, &mut segment).0 == number
            })
            .count();
        assert!(met > least, "{number}: {met}");
    }
}

#[test]
fn definitions_are_found_where_they_are_declared() {
    let text = "\
-- unfoldable pub remark
unfoldable pub be : Bytes → ℕ
be s = foldl 0 s
abbrev pub byte : (at : ℕ) → Bytes → ℕ
unfoldable pub any {ℓ} : {X : Type ℓ} → (X → Bool) → List X → Bool
unfoldable own : ℕ
";
    assert_eq!(book::definitions("Bytes", text), ["Bytes.be", "Bytes.any"]);
    let list = "pub mod Bytes\npub mod Samples\npub mod Writer\n";
    assert_eq!(book::modules(list), ["Bytes", "Writer"]);
}
