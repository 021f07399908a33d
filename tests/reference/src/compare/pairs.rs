//! Pairs of sessions, played through the driver: the first caller must be answered the same in both.

use super::{progress, Comparison, Failure};
use crate::driver::Lending;
use crate::face::{self, Executed, Reply, Request};
use crate::generate::session;
use crate::kept;
use crate::random::Random;
use crate::sessions::{Caller, Pair, Sent, State};

/// Pairs played side by side: a command needs the state that the one before it left, so a session
/// alone would wait for each reply.
const SIDE_BY_SIDE: u64 = 100;

/// A session under way: what was sent so far, and what was answered.
struct Play<'a> {
    sent: &'a [Sent],
    state: State,
    steps: Vec<Step>,
}

struct Step {
    by: Caller,
    request: Request,
    answer: Executed,
}

impl Play<'_> {
    fn take(&mut self, request: Request, answer: Executed) {
        self.state = self.state.after(answer.next_length, answer.slice.clone());
        self.steps.push(Step {
            by: self.sent[self.steps.len()].by,
            request,
            answer,
        });
    }
}

impl Comparison {
    pub fn pairs(&mut self, random: &mut Random, count: u64) -> Result<(), Failure> {
        let mut done = 0;
        while done < count {
            let next = SIDE_BY_SIDE.min(count - done);
            let pairs: Vec<Pair> = (0..next).map(|_| session::pair(random)).collect();
            self.play_all(done, &pairs)?;
            done += next;
            progress("pair", done, count);
        }
        Ok(())
    }

    fn play_all(&mut self, done: u64, pairs: &[Pair]) -> Result<(), Failure> {
        let mut plays: Vec<Play> = pairs.iter().flat_map(plays_of).collect();
        let longest = plays.iter().map(|play| play.sent.len()).max().unwrap_or(0);
        let label_of = |play: usize| format!("pair-{}", done + 1 + play as u64 / 2);
        for step in 0..longest {
            self.play_step(step, &mut plays, label_of)?;
        }
        // First the promise to the first caller, for all of them: it says more than one wrong answer.
        for (index, two) in plays.chunks_exact(2).enumerate() {
            first_is_answered_the_same(&label_of(2 * index), &two[0], &two[1])?;
        }
        for (index, play) in plays.iter().enumerate() {
            for step in &play.steps {
                is_as_the_reference_has_it(&label_of(index), step)?;
            }
        }
        self.passed += pairs.len() as u64;
        Ok(())
    }

    /// The next command of every session that has one.
    fn play_step(
        &mut self,
        step: usize,
        plays: &mut [Play],
        label_of: impl Fn(usize) -> String,
    ) -> Result<(), Failure> {
        let mut under_way = Vec::new();
        for (index, play) in plays.iter().enumerate() {
            if let Some(sent) = play.sent.get(step) {
                let request = Request::Execute(play.state.call(sent));
                self.driver.add(&request, Lending::draw(&mut self.lending));
                under_way.push((index, request));
            }
        }
        self.driver.send();
        for (index, request) in under_way {
            match self.driver.receive(&request) {
                Ok(Reply::Executed(answer)) => plays[index].take(request, answer),
                other => {
                    return Err(Failure {
                        label: label_of(index),
                        what: other.err().into_iter().collect(),
                        lines: vec![kept::line(&request, &face::answer(&request))],
                    })
                }
            }
        }
        Ok(())
    }
}

fn plays_of(pair: &Pair) -> impl Iterator<Item = Play<'_>> {
    pair.sessions.iter().map(|session| Play {
        sent: &session.sent,
        state: pair.start(session),
        steps: Vec::new(),
    })
}

/// The lines of a failure are both sessions: each command with the reference's answer to it, on the
/// state that the driver had come to.
fn first_is_answered_the_same(label: &str, one: &Play, other: &Play) -> Result<(), Failure> {
    let mut what = Vec::new();
    for (number, (a, b)) in firsts(one).zip(firsts(other)).enumerate() {
        let told = face::told_differences(&a.answer, &b.answer);
        if !told.is_empty() {
            let place = number + 1;
            what.push(format!(
                "the first caller's command {place} is answered otherwise in the second session:"
            ));
            what.extend(told);
            break;
        }
    }
    if what.is_empty() {
        return Ok(());
    }
    let mut lines = Vec::new();
    for (name, play) in [("first", one), ("second", other)] {
        lines.push(format!("# the {name} session"));
        lines.extend(play.steps.iter().map(line_of));
    }
    Err(Failure {
        label: label.to_string(),
        what,
        lines,
    })
}

fn firsts<'a>(play: &'a Play) -> impl Iterator<Item = &'a Step> {
    let is_first = |step: &&Step| step.by == Caller::First;
    play.steps.iter().filter(is_first)
}

fn is_as_the_reference_has_it(label: &str, step: &Step) -> Result<(), Failure> {
    let due = face::answer(&step.request);
    let what = face::differences(&due, &Reply::Executed(step.answer.clone()));
    if what.is_empty() {
        return Ok(());
    }
    Err(Failure {
        label: label.to_string(),
        what,
        lines: vec![line_of(step)],
    })
}

fn line_of(step: &Step) -> String {
    kept::line(&step.request, &face::answer(&step.request))
}
