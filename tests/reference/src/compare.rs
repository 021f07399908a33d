//! Holds an engine to the reference, through the driver, reply by reply.

mod pairs;

use crate::case::Case;
use crate::command::CDB_BYTES;
use crate::driver::{Driver, Lending};
use crate::face::{self, Reply, Request};
use crate::generate::{self, errand, question};
use crate::kept;
use crate::random::Random;
use crate::writer;

/// Requests under way at a time: enough that nobody waits for a single reply.
const BATCH: usize = 500;
/// Commands on the largest slice take long, so they are few.
const HEAVY_EVERY: u64 = 10_000;
/// Numbers whose sense is asked one by one, from 0 on; then some far beyond.
const SENSES: u32 = 300;

/// The first difference: what differs, and lines to play it again with.
#[derive(Debug)]
pub struct Failure {
    /// The phase and the place in it, fit for a file's name.
    pub label: String,
    pub what: Vec<String>,
    pub lines: Vec<String>,
}

pub struct Comparison {
    driver: Driver,
    lending: Random,
    passed: u64,
}

struct Check {
    index: u64,
    request: Request,
    /// None where the reference is to be asked.
    due: Option<Reply>,
}

impl Comparison {
    pub fn new(driver: Driver, seed: u64) -> Comparison {
        Comparison {
            driver,
            lending: Random::new(seed),
            passed: 0,
        }
    }

    /// Replies, and pairs of sessions, that were as they are due.
    pub fn passed(&self) -> u64 {
        self.passed
    }

    /// Every line of a file, by its line number.
    pub fn lines(&mut self, lines: Vec<(usize, Request, Reply)>) -> Result<(), Failure> {
        let count = lines.len();
        let mut checks: Vec<Check> = lines
            .into_iter()
            .map(|(line, request, due)| Check {
                index: line as u64,
                request,
                due: Some(due),
            })
            .collect();
        while !checks.is_empty() {
            let rest = checks.split_off(checks.len().min(BATCH));
            self.batch("line", checks)?;
            checks = rest;
        }
        progress("lines", count as u64, count as u64);
        Ok(())
    }

    /// Key, code and status of every number, also of those that nobody gives.
    pub fn senses(&mut self) -> Result<(), Failure> {
        let beyond = [1 << 16, 1 << 31, u32::MAX];
        let checks = (0..SENSES).chain(beyond).map(|number| Check {
            index: number.into(),
            request: Request::Sense(number),
            due: None,
        });
        self.batch("sense", checks.collect())
    }

    /// Random commands, each with one or two questions about who admits a range.
    pub fn commands(&mut self, random: &mut Random, count: u64) -> Result<(), Failure> {
        self.run("command", count, |index| {
            let case = match index % HEAVY_EVERY {
                1 => generate::heavy_command(random),
                _ => generate::command(random),
            };
            let mut requests = vec![question(random, &case)];
            if random.one_in(2) {
                requests.push(question(random, &case));
            }
            requests.push(Request::Execute(case));
            requests
        })
    }

    /// Random requests to the writer. What it writes goes to the engine, on an object that it may
    /// or may not suit.
    pub fn requests(&mut self, random: &mut Random, count: u64) -> Result<(), Failure> {
        self.run("request", count, |_| {
            let errand = errand::Errand::draw(random);
            let request = Request::Write(errand::writing(random, &errand.request));
            // The writer's reply is held to this one first, so the engine gets what was written.
            let Reply::Written(written) = face::answer(&request) else {
                return vec![request];
            };
            if written.number != writer::WRITTEN {
                return vec![request];
            }
            let cdb = &written.cdb[..CDB_BYTES];
            let segment = &written.segment[..written.segment_length as usize];
            let case = errand.case(cdb, segment);
            vec![request, Request::Execute(case)]
        })
    }

    /// The driver must end when its input does, and in order.
    pub fn finish(self) -> Result<(), String> {
        self.driver.finish()
    }

    /// Asks for what `make` makes of each index from 1 on, and compares it with the reference.
    fn run(
        &mut self,
        phase: &str,
        count: u64,
        mut make: impl FnMut(u64) -> Vec<Request>,
    ) -> Result<(), Failure> {
        let mut checks = Vec::new();
        for index in 1..=count {
            checks.extend(make(index).into_iter().map(|request| Check {
                index,
                request,
                due: None,
            }));
            if checks.len() >= BATCH || index == count {
                self.batch(phase, std::mem::take(&mut checks))?;
            }
            progress(phase, index, count);
        }
        Ok(())
    }

    fn batch(&mut self, phase: &str, checks: Vec<Check>) -> Result<(), Failure> {
        for check in &checks {
            let lending = Lending::draw(&mut self.lending);
            self.driver.add(&check.request, lending);
        }
        self.driver.send();
        for check in checks {
            let due = check.due.unwrap_or_else(|| face::answer(&check.request));
            let what = match self.driver.receive(&check.request) {
                Ok(given) => face::differences(&due, &given),
                Err(reason) => vec![reason],
            };
            if !what.is_empty() {
                return Err(Failure {
                    label: format!("{phase}-{}", check.index),
                    what,
                    lines: vec![kept::line(&check.request, &due)],
                });
            }
            self.passed += 1;
        }
        Ok(())
    }
}

fn question(random: &mut Random, case: &Case) -> Request {
    let range = question::range(random, case);
    let asked = Case {
        cdb: case.cdb.clone(),
        out: case.out.clone(),
        record: case.record,
        slice: Vec::new(),
        data_in: Vec::new(),
    };
    Request::Admission(asked, range)
}

/// A line at each tenth of the way.
fn progress(phase: &str, done: u64, count: u64) {
    if done == count || done % count.div_ceil(10) == 0 {
        eprintln!("{phase}: {done} of {count}");
    }
}
