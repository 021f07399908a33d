//! Writes theorems that the book of rules answers as this implementation does:
//! `theorems SPECS VECTORS SEED COUNT`.
//!
//! SPECS is a copy of the book's folder, and the modules are added to it. For each line of the file
//! VECTORS, and for each of COUNT random commands, there is a theorem on the answer and one on the
//! admission question for a random range. Half of COUNT are on walks and as many on the host's
//! writer, and a tenth on slices too long to be written down.

use reference::case::Case;
use reference::generate::{self, question, request};
use reference::random::Random;
use reference::theorems::{self, book, module, Group};
use reference::vectors::{self, Vector};
use std::fs;
use std::path::{Path, PathBuf};
use std::process::ExitCode;

/// Commands on longer slices say nothing more and take long to check.
const MOST_LENT: usize = 600;

struct Arguments {
    specs: PathBuf,
    vectors: PathBuf,
    seed: u64,
    count: usize,
}

fn main() -> ExitCode {
    let Some(arguments) = arguments() else {
        eprintln!("usage: theorems SPECS VECTORS SEED COUNT");
        return ExitCode::from(2);
    };
    match run(&arguments) {
        Ok(written) => {
            println!("{written} theorems");
            ExitCode::SUCCESS
        }
        Err(reason) => {
            eprintln!("theorems: {reason}");
            ExitCode::FAILURE
        }
    }
}

fn arguments() -> Option<Arguments> {
    let words: Vec<String> = std::env::args().skip(1).collect();
    let [specs, vectors, seed, count] = &words[..] else {
        return None;
    };
    Some(Arguments {
        specs: PathBuf::from(specs),
        vectors: PathBuf::from(vectors),
        seed: seed.parse().ok()?,
        count: count.parse().ok()?,
    })
}

fn run(arguments: &Arguments) -> Result<usize, String> {
    let mut random = Random::new(arguments.seed);
    let mut groups = of_vectors(&mut random, &read(&arguments.vectors)?)?;
    groups.extend((0..arguments.count).map(|index| of_command(&mut random, index)));
    groups.extend((0..arguments.count / 10).map(|index| of_limit(&mut random, index)));
    groups.extend((0..arguments.count / 2).map(|index| of_walk(&mut random, index)));
    groups.extend((0..arguments.count / 2).map(|index| of_writer(&mut random, index)));
    add(&arguments.specs, &groups)?;
    Ok(groups.iter().map(Group::theorem_count).sum())
}

/// The theorems of a vector have the number of its line. That the answers which stand there are
/// this implementation's is tested with the vectors.
fn of_vectors(random: &mut Random, text: &str) -> Result<Vec<Group>, String> {
    let lines = vectors::parse_file(text)?;
    Ok(lines
        .iter()
        .map(|(line, vector)| of_call(random, &format!("vector{line}"), vector))
        .collect())
}

fn of_command(random: &mut Random, index: usize) -> Group {
    let case = small_command(random);
    let answer = case.answer();
    of_call(
        random,
        &format!("command{index}"),
        &Vector::new(case, answer),
    )
}

fn of_call(random: &mut Random, name: &str, vector: &Vector) -> Group {
    let range = question::range(random, &vector.case);
    theorems::of_call(name, vector, range)
}

fn small_command(random: &mut Random) -> Case {
    loop {
        let case = generate::command(random);
        if case.slice.len() <= MOST_LENT && case.data_in.len() <= MOST_LENT {
            return case;
        }
    }
}

fn of_limit(random: &mut Random, index: usize) -> Group {
    let case = small_command(random);
    let slice_length = generate::slice_length(random, &case);
    theorems::of_limit(&format!("limit{index}"), &case, slice_length)
}

fn of_walk(random: &mut Random, index: usize) -> Group {
    theorems::of_walk(&format!("walk{index}"), &generate::segment::draw(random))
}

fn of_writer(random: &mut Random, index: usize) -> Group {
    // The refusals are many, and each is met by few of the slips.
    let request = match random.one_in(4) {
        true => request::sound(random),
        false => request::slipped(random),
    };
    let (cdb_size, segment_size) = request::buffer_sizes(random, &request);
    theorems::of_writer(&format!("written{index}"), &request, cdb_size, segment_size)
}

/// Adds the modules to the book's folder, and their names to its list of modules.
fn add(specs: &Path, groups: &[Group]) -> Result<(), String> {
    let list_file = specs.join("Lib.antt");
    let list = read(&list_file)?;
    let mut added = vec![(module::NAME.to_string(), opening(specs, &list)?)];
    for (index, text) in module::with_theorems(groups).into_iter().enumerate() {
        added.push((format!("{}{index}", module::NAME), text));
    }
    for (name, text) in &added {
        write(&module_file(specs, name), text)?;
    }
    let names: String = added
        .iter()
        .map(|(name, _)| format!("pub mod {name}\n"))
        .collect();
    write(&list_file, &format!("{}\n{names}", list.trim_end()))
}

fn opening(specs: &Path, list: &str) -> Result<String, String> {
    let modules = book::modules(list);
    if modules.contains(&module::NAME) {
        return Err(format!("{} has theorems already", specs.display()));
    }
    let mut definitions = Vec::new();
    for module in &modules {
        let text = read(&module_file(specs, module))?;
        definitions.extend(book::definitions(module, &text));
    }
    Ok(module::opening(&modules, &definitions))
}

fn module_file(specs: &Path, name: &str) -> PathBuf {
    specs.join(format!("{name}.antt"))
}

fn read(file: &Path) -> Result<String, String> {
    fs::read_to_string(file).map_err(|error| format!("{}: {error}", file.display()))
}

fn write(file: &Path, text: &str) -> Result<(), String> {
    fs::write(file, text).map_err(|error| format!("{}: {error}", file.display()))
}
