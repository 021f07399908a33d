//! The laws on random commands, each law a test of its own, and the sample itself.

use reference::case::Case;
use reference::engine::Answer;
use reference::laws::{self, LAWS};
use reference::numbers;
use reference::random::Random;
use reference::vectors::{self, Vector};
use reference::{generate, laws::reading};

const COMMANDS: usize = 60_000;

fn sample(seed: u64) -> impl Iterator<Item = Case> {
    let mut random = Random::new(seed);
    (0..COMMANDS).map(move |_| generate::command(&mut random))
}

fn every_answer_keeps(law_number: u32) {
    let law = LAWS.iter().find(|law| law.number == law_number).unwrap();
    for case in sample(1000 + u64::from(law_number)) {
        let answer = case.answer();
        if let Err(reason) = (law.check)(&case, &answer) {
            panic!("{}: {reason}\n{}", law.says, Vector::new(case, answer));
        }
    }
}

#[test]
fn law_1_exactly_the_number_of_the_table() {
    every_answer_keeps(1);
}

#[test]
fn law_2_refusals_alter_nothing() {
    every_answer_keeps(2);
}

#[test]
fn law_3_read() {
    every_answer_keeps(3);
}

#[test]
fn law_4_write_and_clear() {
    every_answer_keeps(4);
}

#[test]
fn law_5_punch() {
    every_answer_keeps(5);
}

#[test]
fn law_6_record_and_limits() {
    every_answer_keeps(6);
}

#[test]
fn law_7_pads_and_places() {
    every_answer_keeps(7);
}

#[test]
fn law_8_admission() {
    every_answer_keeps(8);
}

#[test]
fn every_number_occurs_and_many_commands_are_carried_out() {
    let mut times = [0usize; 16];
    for case in sample(2000) {
        times[case.answer().number as usize] += 1;
    }
    for (number, times) in times.iter().enumerate() {
        println!("number {number}: {times} of {COMMANDS}");
        assert!(*times > 100, "number {number} occurs {times} times");
    }
    let carried_out = times[0] + times[15];
    assert!(
        carried_out * 100 > COMMANDS * 40,
        "{carried_out} carried out"
    );
}

/// Each verb does something in the sample, with and without a list, and is refused too.
#[test]
fn every_verb_is_carried_out_and_changes_something() {
    for action in [
        reading::READ,
        reading::WRITE,
        reading::CLEAR,
        reading::PUNCH,
    ] {
        let of_verb = |case: &Case| reading::action(case) == Some(action);
        let counted = sample(2001)
            .filter(of_verb)
            .filter(|case| case.answer().count > 0)
            .count();
        assert!(counted > 1000, "{action:04X} counts in {counted} commands");
    }
}

#[test]
fn random_commands_stay_below_the_limits_of_a_bench_file() {
    for case in sample(2002) {
        assert!(case.cdb.len() <= 1024);
        assert!(case.out.len() <= 8192);
        assert!(case.slice.len() <= 16_384);
    }
}

#[test]
fn the_largest_slice_and_one_byte_more() {
    let mut random = Random::new(2003);
    let mut numbers_seen = Vec::new();
    for _ in 0..24 {
        let case = generate::heavy_command(&mut random);
        let answer = case.answer();
        assert_eq!(laws::first_broken(&case, &answer), None);
        assert_eq!(case.slice.len() > 16_777_216, answer.number == 1);
        numbers_seen.push(answer.number);
    }
    assert!(numbers_seen.contains(&0));
    assert!(numbers_seen.contains(&1));
}

/// The vectors' answers come from elsewhere, so they tell whether the laws ask too much.
#[test]
fn the_answers_of_the_vectors_keep_every_law() {
    let lines = vectors::parse_file(include_str!("../../vectors/base.txt")).unwrap();
    for (line, vector) in lines {
        let broken = laws::first_broken(&vector.case, &vector.answer);
        assert_eq!(broken, None, "line {line}");
    }
}

/// The laws would be worth little if a wrong engine kept them: each of these breaks one.
fn breaks_a_law(wrong_answer: impl Fn(&Case) -> Answer) -> bool {
    sample(2004).any(|case| laws::first_broken(&case, &wrong_answer(&case)).is_some())
}

fn untouched(case: &Case) -> Answer {
    Answer {
        number: 0,
        count: 0,
        record: case.record,
        slice: case.slice.clone(),
        data_in: case.data_in.clone(),
    }
}

#[test]
fn an_engine_that_refuses_everything_breaks_a_law() {
    assert!(breaks_a_law(|case| Answer {
        number: 11,
        ..untouched(case)
    }));
}

#[test]
fn an_engine_that_says_0_to_everything_breaks_a_law() {
    assert!(breaks_a_law(|case| Answer {
        number: 0,
        ..case.answer()
    }));
}

#[test]
fn an_engine_that_changes_no_byte_breaks_a_law() {
    assert!(breaks_a_law(|case| Answer {
        slice: case.slice.clone(),
        data_in: case.data_in.clone(),
        ..case.answer()
    }));
}

#[test]
fn an_engine_that_carries_out_one_entry_and_reports_the_sum_breaks_a_law() {
    assert!(breaks_a_law(|case| {
        let right = case.answer();
        if numbers::is_refusal(right.number) {
            return right;
        }
        // Only what belongs to the first entry is taken over from the right answer.
        let first = reading::ranges(case).first().copied();
        let is_of_first = |index: usize| {
            first.is_some_and(|span| (span.start..span.end()).contains(&(index as u128)))
        };
        let slice = (0..case.slice.len())
            .map(|index| match is_of_first(index) {
                true => right.slice[index],
                false => case.slice[index],
            })
            .collect();
        Answer { slice, ..right }
    }));
}

#[test]
fn an_engine_that_invents_the_count_breaks_a_law() {
    assert!(breaks_a_law(|case| {
        let right = case.answer();
        Answer {
            count: right.count + 1,
            ..right
        }
    }));
}
