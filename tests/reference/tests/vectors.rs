//! Every line of the vectors: number, sense, count, record, slice and Data-In.

use reference::numbers;
use reference::vectors::{self, Vector};

const BASE: &str = include_str!("../../vectors/base.txt");

#[test]
fn every_line_is_answered_as_it_says() {
    let lines = vectors::parse_file(BASE).expect("the vectors can be read");
    assert_eq!(lines.len(), 660);
    for (line, vector) in lines {
        let answer = vector.case.answer();
        assert_eq!(answer.number, vector.answer.number, "number, line {line}");
        assert_eq!(
            numbers::sense(answer.number),
            vector.sense,
            "sense, line {line}"
        );
        assert_eq!(answer.count, vector.answer.count, "count, line {line}");
        assert_eq!(answer.record, vector.answer.record, "record, line {line}");
        assert_eq!(answer.slice, vector.answer.slice, "slice, line {line}");
        assert_eq!(
            answer.data_in, vector.answer.data_in,
            "Data-In, line {line}"
        );
    }
}

#[test]
fn a_line_printed_is_the_line_read() {
    for line in BASE.lines().filter(|line| !line.starts_with('#')) {
        let vector = Vector::parse(line).expect("the line can be read");
        assert_eq!(vector.to_string(), line);
    }
}
