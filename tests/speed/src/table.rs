//! The table as text.

use crate::rows::{Row, SIZES};
use std::fmt::Write;

const NOTES: &str = "\
The proved engine beside a straightforward optimised Rust engine and the bare memcpy, memmove and memset, on the same
buffers in the same run. Figures of another run, or of another machine, will differ: the ratios are the result, and they
too are those of one run on a machine that does other things meanwhile.

Time    nanoseconds of one call, the best of many rounds in which the contestants take turns.
Bytes   READ, WRITE and CLEAR: the whole object, moved by one range or by a list of equal parts, in an order in which none
        follows its neighbour. PUNCH: an object of so many bytes, of which the first sixteenth or the first byte is removed.
Bare    the same moves with nothing decided: a memcpy for each range; a memset; a memmove and a memset.
Stack   bytes that the call has changed below its return address, on a stack that was painted before.
*       an aim is missed: 1.00 of Rust up to 4 KiB and where no byte moves, or 1.10 of bare from 64 KiB on.

Every buffer is filled before the first round and not cleared again: they are warm, as far as they fit into the caches.
With 9 capabilities all match and only the last allows the ranges. The writer writes a WRITE of 4 KiB.
";

pub fn heading() -> String {
    let names = format!(
        "{:<10}{:<26}{:>9}{:>12}{:>12}{:>12}{:>9}{:>9}{:>8}{:>8}",
        "", "", "bytes", "engine ns", "Rust ns", "bare ns", "of Rust", "of bare", "stack", "Rust's"
    );
    format!("{names}\n{}", "-".repeat(names.len()))
}

pub fn line(row: &Row) -> String {
    let bytes = row.bytes.map(size).unwrap_or_default();
    let bare = row
        .times
        .bare
        .map(|bare| format!("{bare:.1}"))
        .unwrap_or_default();
    let of_bare = row
        .of_bare()
        .map(|it| format!("{it:.2}"))
        .unwrap_or_default();
    format!(
        "{:<10}{:<26}{:>9}{:>12.1}{:>12.1}{:>12}{:>9.2}{:>9}{:>8}{:>8}{}",
        row.group,
        row.kind,
        bytes,
        row.times.proved,
        row.times.rust,
        bare,
        row.of_rust(),
        of_bare,
        row.stack,
        row.rust_stack,
        if row.misses() { " *" } else { "" }
    )
}

pub fn size(bytes: usize) -> String {
    match bytes {
        0..=1023 => format!("{bytes}"),
        1024..=1048575 => format!("{} KiB", bytes >> 10),
        _ => format!("{} MiB", bytes >> 20),
    }
}

pub fn whole(rows: &[Row]) -> String {
    let mut text = format!("{NOTES}\n{}\n", heading());
    let mut last = None;
    for row in rows {
        let curve = (row.group, row.bytes.is_some().then_some(&row.kind));
        if last.replace(curve).is_some_and(|last| last != curve) && row.bytes != Some(SIZES[0]) {
            text.push('\n');
        }
        writeln!(text, "{}", line(row)).expect("a string takes it");
    }
    text.push_str(&growth(rows));
    text.push_str(&aims(rows));
    text
}

/// Whether time grows as bytes and entries do: the cost of one more of each, at either end.
fn growth(rows: &[Row]) -> String {
    let mut text = String::from("\nNanoseconds for each KiB from 64 KiB to 1 MiB, and from 1 MiB to 16 MiB: engine (Rust, bare)\n");
    for (group, kind) in curves(rows) {
        let at = |bytes| find(rows, group, kind, bytes);
        let (Some(low), Some(middle), Some(high)) = (at(64 << 10), at(1 << 20), at(16 << 20))
        else {
            continue;
        };
        writeln!(
            text,
            "{group:<10}{kind:<16}{:>28}{:>28}",
            for_each_kib(low, middle),
            for_each_kib(middle, high)
        )
        .expect("a string takes it");
    }
    text.push_str("\nNanoseconds for each entry of 1 byte to 64, from 1 to 8 and from 8 to 64: engine (Rust)\n");
    for group in ["READ", "WRITE"] {
        let at = |kind| find(rows, group, kind, 64);
        let (Some(one), Some(eight), Some(most)) =
            (at("1 entry"), at("8 entries"), at("64 entries"))
        else {
            continue;
        };
        writeln!(
            text,
            "{group:<26}{:>28}{:>28}",
            for_each_entry(one, eight, 7.0),
            for_each_entry(eight, most, 56.0)
        )
        .expect("a string takes it");
    }
    text
}

fn for_each_kib(from: &Row, to: &Row) -> String {
    let more = (to.bytes.unwrap_or(0) - from.bytes.unwrap_or(0)) as f64 / 1024.0;
    let bare = to.times.bare.unwrap_or(0.0) - from.times.bare.unwrap_or(0.0);
    format!(
        "{:.1} ({:.1}, {:.1})",
        (to.times.proved - from.times.proved) / more,
        (to.times.rust - from.times.rust) / more,
        bare / more
    )
}

fn for_each_entry(from: &Row, to: &Row, more: f64) -> String {
    format!(
        "{:.1} ({:.1})",
        (to.times.proved - from.times.proved) / more,
        (to.times.rust - from.times.rust) / more
    )
}

/// Group and kind of every curve, in the table's order.
pub fn curves(rows: &[Row]) -> Vec<(&'static str, &str)> {
    let mut all: Vec<(&'static str, &str)> = Vec::new();
    for row in rows.iter().filter(|row| row.bytes == Some(SIZES[1])) {
        all.push((row.group, &row.kind));
    }
    all
}

pub fn find<'a>(rows: &'a [Row], group: &str, kind: &str, bytes: usize) -> Option<&'a Row> {
    rows.iter()
        .find(|row| row.group == group && row.kind == kind && row.bytes == Some(bytes))
}

fn aims(rows: &[Row]) -> String {
    let missed = rows.iter().filter(|row| row.misses()).count();
    let most = rows.iter().map(|row| row.stack).max().unwrap_or(0);
    format!(
        "\n{missed} of {} rows miss an aim. The most stack that a call takes is {most} bytes.\n",
        rows.len()
    )
}
