//! The table as a picture: a panel for each curve, time over bytes, both in powers of ten.

use crate::rows::{Row, SIZES};
use crate::table::{curves, find, size};
use std::fmt::Write;

const COLUMNS: usize = 4;
const WIDTH: f64 = 270.0;
const HEIGHT: f64 = 220.0;
const TOP: f64 = 62.0;
const LEFT: f64 = 46.0;
const RIGHT: f64 = 12.0;
const ABOVE: f64 = 24.0;
const BELOW: f64 = 30.0;
/// Powers of ten of nanoseconds: 10 ns to 10 ms.
const LOW: i32 = 1;
const HIGH: i32 = 7;

const CONTESTANTS: [(&str, &str, &str); 3] = [
    ("engine", "#c0392b", ""),
    ("optimised Rust", "#2060a0", "5 3"),
    ("bare memcpy, memmove, memset", "#707070", "1.5 3"),
];

pub fn whole(rows: &[Row]) -> String {
    let curves = curves(rows);
    let height = TOP + HEIGHT * curves.len().div_ceil(COLUMNS) as f64 + 8.0;
    let width = WIDTH * COLUMNS as f64 + 10.0;
    let mut text = format!(
        "<svg xmlns=\"http://www.w3.org/2000/svg\" width=\"{width}\" height=\"{height}\" \
         viewBox=\"0 0 {width} {height}\" font-family=\"sans-serif\" font-size=\"10\">\n\
         <rect width=\"100%\" height=\"100%\" fill=\"#ffffff\"/>\n"
    );
    legend(&mut text);
    for (index, (group, kind)) in curves.iter().enumerate() {
        let x = WIDTH * (index % COLUMNS) as f64;
        let y = TOP + HEIGHT * (index / COLUMNS) as f64;
        put(
            &mut text,
            format_args!("<g transform=\"translate({x} {y})\">\n"),
        );
        panel(&mut text, rows, group, kind);
        text.push_str("</g>\n");
    }
    text.push_str("</svg>\n");
    text
}

fn put(text: &mut String, what: std::fmt::Arguments) {
    text.write_fmt(what).expect("a string takes it");
}

fn legend(text: &mut String) {
    put(
        text,
        format_args!(
            "<text x=\"{LEFT}\" y=\"20\" font-size=\"13\">Time of one call over the bytes it moves. \
             One run on a machine that does other things meanwhile: the ratios are the result.</text>\n"
        ),
    );
    let mut x = LEFT;
    for (name, colour, dash) in CONTESTANTS {
        put(
            text,
            format_args!(
                "<line x1=\"{x}\" y1=\"40\" x2=\"{}\" y2=\"40\" stroke=\"{colour}\" stroke-width=\"2\" \
                 stroke-dasharray=\"{dash}\"/>\n<text x=\"{}\" y=\"44\" font-size=\"12\">{name}</text>\n",
                x + 30.0,
                x + 36.0
            ),
        );
        x += 70.0 + 7.0 * name.len() as f64;
    }
}

fn across(bytes: usize) -> f64 {
    let low = (SIZES[0] as f64).log2();
    let high = (SIZES[SIZES.len() - 1] as f64).log2();
    LEFT + ((bytes as f64).log2() - low) / (high - low) * (WIDTH - LEFT - RIGHT)
}

fn down(nanoseconds: f64) -> f64 {
    let share = (nanoseconds.log10() - f64::from(LOW)) / f64::from(HIGH - LOW);
    HEIGHT - BELOW - share * (HEIGHT - ABOVE - BELOW)
}

fn panel(text: &mut String, rows: &[Row], group: &str, kind: &str) {
    put(
        text,
        format_args!("<text x=\"{LEFT}\" y=\"16\" font-size=\"12\" font-weight=\"bold\">{group}, {kind}</text>\n"),
    );
    grid(text);
    let points: Vec<(usize, [Option<f64>; 3])> = SIZES
        .iter()
        .filter_map(|&bytes| {
            let times = find(rows, group, kind, bytes)?.times;
            Some((bytes, [Some(times.proved), Some(times.rust), times.bare]))
        })
        .collect();
    // The engine is drawn last, so that it lies on top.
    for (index, (_, colour, dash)) in CONTESTANTS.iter().enumerate().rev() {
        let line: Vec<String> = points
            .iter()
            .filter_map(|(bytes, times)| {
                Some(format!("{:.1},{:.1}", across(*bytes), down(times[index]?)))
            })
            .collect();
        put(
            text,
            format_args!(
                "<polyline points=\"{}\" fill=\"none\" stroke=\"{colour}\" stroke-width=\"1.8\" stroke-dasharray=\"{dash}\"/>\n",
                line.join(" ")
            ),
        );
    }
}

fn grid(text: &mut String) {
    for power in LOW..=HIGH {
        let y = down(10f64.powi(power));
        put(
            text,
            format_args!(
                "<line x1=\"{LEFT}\" y1=\"{y:.1}\" x2=\"{}\" y2=\"{y:.1}\" stroke=\"#e0e0e0\"/>\n\
                 <text x=\"{}\" y=\"{:.1}\" text-anchor=\"end\">{}</text>\n",
                WIDTH - RIGHT,
                LEFT - 4.0,
                y + 3.5,
                ["10 ns", "100 ns", "1 µs", "10 µs", "100 µs", "1 ms", "10 ms"]
                    [(power - LOW) as usize]
            ),
        );
    }
    for bytes in SIZES.iter().step_by(3) {
        let x = across(*bytes);
        put(
            text,
            format_args!(
                "<line x1=\"{x:.1}\" y1=\"{ABOVE}\" x2=\"{x:.1}\" y2=\"{}\" stroke=\"#e0e0e0\"/>\n\
                 <text x=\"{x:.1}\" y=\"{}\" text-anchor=\"middle\">{}</text>\n",
                HEIGHT - BELOW,
                HEIGHT - BELOW + 14.0,
                size(*bytes)
            ),
        );
    }
}
