//! The benchmark: `tests/speed/run` builds and starts it. Its two arguments are where the table and the picture go.

mod agree;
mod bare;
mod decide;
mod engine;
mod face;
mod measure;
mod picture;
mod rows;
mod stack;
mod table;
mod task;
mod writer;

use std::process::ExitCode;

fn main() -> ExitCode {
    let places: Vec<String> = std::env::args().skip(1).collect();
    let [text, picture] = places.as_slice() else {
        eprintln!("usage: speed TABLE PICTURE");
        return ExitCode::from(2);
    };
    match run(text, picture) {
        Ok(()) => ExitCode::SUCCESS,
        Err(reason) => {
            eprintln!("{reason}");
            ExitCode::FAILURE
        }
    }
}

fn run(text: &str, picture: &str) -> Result<(), String> {
    let calls = agree::on_random_calls()?;
    println!(
        "{calls} random calls: both contestants answer as the independent implementation does\n"
    );
    println!("{}", table::heading());
    let rows = rows::all(|row| println!("{}", table::line(row)))?;
    let whole = table::whole(&rows);
    if let Some(summary) = whole.split_once("\nNanoseconds") {
        println!("\nNanoseconds{}", summary.1);
    }
    write(text, &whole)?;
    write(picture, &picture::whole(&rows))
}

fn write(place: &str, what: &str) -> Result<(), String> {
    std::fs::write(place, what).map_err(|reason| format!("{place}: {reason}"))
}
