//! Lines for the whole C face: what is printed is read as it was.

use reference::command::Range;
use reference::face::{self, Reply, Request};
use reference::generate::{self, errand, question};
use reference::kept;
use reference::random::Random;

const EACH: usize = 500;

fn requests(seed: u64) -> Vec<Request> {
    let mut random = Random::new(seed);
    let mut all: Vec<Request> = (0..20).map(Request::Sense).collect();
    for _ in 0..EACH {
        let case = generate::command(&mut random);
        let mut asked = case.clone();
        asked.slice.clear();
        asked.data_in.clear();
        let range = question::range(&mut random, &case);
        all.push(Request::Execute(case));
        all.push(Request::Admission(asked, range));
        let errand = errand::Errand::draw(&mut random);
        all.push(Request::Write(errand::writing(
            &mut random,
            &errand.request,
        )));
    }
    all
}

#[test]
fn a_line_printed_is_read_as_it_was() {
    for request in requests(1) {
        let due = face::answer(&request);
        let line = kept::line(&request, &due);
        let (read, due_read) = kept::parse(&line).expect("the line can be read");
        assert_eq!(read, request, "{line}");
        assert_eq!(due_read, due, "{line}");
    }
}

#[test]
fn lines_that_are_nothing_are_refused() {
    for line in [
        "",
        "ask",
        "ask 00 00 00 0 0 -> 0 0",
        "sense x -> 0 0000 0",
        "write 1 -> 0",
    ] {
        assert!(kept::parse(line).is_err(), "{line}");
    }
    let text = "# a remark\n\nsense 0 -> 0 0000 0\nsense 1\n";
    assert_eq!(
        kept::parse_file(text).map(|lines| lines.len()),
        Err("line 4: not the words of a number's sense".to_string())
    );
}

/// Random requests reach every kind of reply.
#[test]
fn questions_and_writings_go_every_way() {
    let mut places = [0; 3];
    let mut numbers = [0; 18];
    for request in requests(2) {
        match face::answer(&request) {
            Reply::Admitted(admitted) => {
                places[admitted.place as usize] += 1;
                let is_there = admitted.place != 0;
                assert_eq!(admitted.capability.len(), if is_there { 104 } else { 0 });
            }
            Reply::Written(written) => numbers[written.number as usize] += 1,
            _ => {}
        }
    }
    for count in places {
        assert!(count > EACH / 20, "{places:?}");
    }
    for number in [0, 16, 17] {
        assert!(numbers[number] > EACH / 20, "{numbers:?}");
    }
}

#[test]
fn a_difference_is_named() {
    let request = Request::Sense(14);
    let due = face::answer(&request);
    assert_eq!(face::differences(&due, &due), Vec::<String>::new());
    let other = face::answer(&Request::Sense(0));
    assert_eq!(
        face::differences(&due, &other),
        [
            "key is 0 and not 7",
            "code is 0000 and not 5507",
            "status is 0 and not 2"
        ]
    );
}

#[test]
fn a_capability_that_is_not_there_is_no_bytes() {
    let mut case = generate::command(&mut Random::new(3));
    case.cdb = vec![5; 90];
    assert_eq!(face::capability_at(&case, 1, 80), [5; 10]);
    assert_eq!(face::capability_at(&case, 1, 91), []);
    assert_eq!(face::capability_at(&case, 2, u64::MAX), []);
    let nowhere = Range {
        start: 0,
        length: 0,
    };
    let asked = Request::Admission(case, nowhere);
    let Reply::Admitted(admitted) = face::answer(&asked) else {
        panic!("a reply of another kind");
    };
    assert_eq!((admitted.place, admitted.offset), (0, 0));
}
