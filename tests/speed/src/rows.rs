//! The rows of the table, in order: what is measured, and what came out.

use crate::agree;
use crate::engine::RUST;
use crate::face::PROVED;
use crate::measure::{measure, Times};
use crate::stack;
use crate::task::{capabilities, Command, Question, Request, Task, CLEAR, READ, WRITE};

pub const SIZES: [usize; 10] = [
    64,
    256,
    1 << 10,
    4 << 10,
    16 << 10,
    64 << 10,
    256 << 10,
    1 << 20,
    4 << 20,
    16 << 20,
];
const LISTS: [Option<usize>; 4] = [None, Some(1), Some(8), Some(64)];

pub struct Row {
    /// READ, WRITE and so on: rows of one group and one kind make a curve.
    pub group: &'static str,
    pub kind: String,
    /// How many bytes it moves; none for a call that moves none.
    pub bytes: Option<usize>,
    pub times: Times,
    pub stack: usize,
    pub rust_stack: usize,
}

impl Row {
    pub fn of_rust(&self) -> f64 {
        self.times.proved / self.times.rust
    }

    pub fn of_bare(&self) -> Option<f64> {
        self.times.bare.map(|bare| self.times.proved / bare)
    }

    /// The two aims. A ratio counts as it is printed, in hundredths.
    pub fn misses(&self) -> bool {
        let bytes = self.bytes.unwrap_or(0);
        let of_rust = bytes <= 4 << 10 && hundredths(self.of_rust()) > 100;
        let of_bare = bytes >= 64 << 10 && self.of_bare().is_some_and(|it| hundredths(it) > 110);
        of_rust || of_bare
    }
}

fn hundredths(ratio: f64) -> i64 {
    (ratio * 100.0).round() as i64
}

/// Every row, measured; `said` is told of each as it comes.
pub fn all(mut said: impl FnMut(&Row)) -> Result<Vec<Row>, String> {
    let mut rows = Vec::new();
    let mut take = |group, kind: &str, bytes, task: &mut dyn Task| {
        let row = measured(group, kind, bytes, task)?;
        said(&row);
        rows.push(row);
        Ok::<(), String>(())
    };
    let one = capabilities(1);
    let nine = capabilities(9);
    for (group, action) in [("READ", READ), ("WRITE", WRITE)] {
        for list in LISTS {
            for bytes in SIZES {
                let mut task = Command::moving(action, bytes, list, &one);
                take(group, &kind_of(list), Some(bytes), &mut task)?;
            }
        }
    }
    for bytes in SIZES {
        let mut task = Command::moving(CLEAR, bytes, None, &one);
        take("CLEAR", "plain", Some(bytes), &mut task)?;
    }
    for bytes in SIZES {
        let mut task = Command::punching(bytes, bytes / 16, &one);
        take("PUNCH", "a sixteenth", Some(bytes), &mut task)?;
    }
    for bytes in SIZES {
        let mut task = Command::punching(bytes, 1, &one);
        take("PUNCH", "one byte", Some(bytes), &mut task)?;
    }
    take("admission", "1 capability", None, &mut Question::new(&one))?;
    take(
        "admission",
        "9 capabilities",
        None,
        &mut Question::new(&nine),
    )?;
    for (group, action) in [("READ", READ), ("WRITE", WRITE)] {
        for list in LISTS {
            let mut task = Command::moving(action, 64, list, &nine);
            let kind = format!("{}, 9 capabilities", kind_of(list));
            take(group, &kind, Some(64), &mut task)?;
        }
    }
    for list in LISTS {
        take(
            "writer",
            &kind_of(list),
            None,
            &mut Request::to_write(list, &one),
        )?;
    }
    let mut task = Request::to_write(Some(64), &nine);
    take("writer", "64 entries, 9 capabilities", None, &mut task)?;
    Ok(rows)
}

fn kind_of(list: Option<usize>) -> String {
    match list {
        None => "plain".to_string(),
        Some(1) => "1 entry".to_string(),
        Some(count) => format!("{count} entries"),
    }
}

fn measured(
    group: &'static str,
    kind: &str,
    bytes: Option<usize>,
    task: &mut dyn Task,
) -> Result<Row, String> {
    if !agree::on(task) {
        return Err(format!("{group}, {kind}: the contestants differ"));
    }
    Ok(Row {
        group,
        kind: kind.to_string(),
        bytes,
        stack: stack::taken(task, &PROVED),
        rust_stack: stack::taken(task, &RUST),
        times: measure(task),
    })
}
