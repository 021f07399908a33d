//! The modules that are added to the book.

use super::Group;

/// The module that opens the book, and how the names of those with theorems begin.
pub const NAME: &str = "Against";

/// A module has few enough theorems that its text can be looked at.
const MOST_THEOREMS: usize = 60;

const OPENING: &str = "\
-- What is looked at of an answer. Every definition of the book is open here.
use Rattle.std.specs.Prelude.{ℕ, Option, None, Some}
use Rattle.rules.specs.declared.Record.{Record}
use Rattle.rules.specs.declared.Refusal.{Refusal}
MODULES
use Rattle.rules.specs.Bytes.{Bytes}
use Rattle.rules.specs.Numbers.{row, number, Sense, sense, status}
use Rattle.rules.specs.Answer.{Answered}

pub record Seen : Type 0 where
  pub number : ℕ
  pub status : ℕ
  pub sense : Sense
  pub count : ℕ
  pub next : Record
  pub slice : Bytes
  pub input : Bytes

unfoldable pub seen : Answered → Seen
unfolding DEFINITIONS
seen a =
    record {
      number = number a.answer.outcome;
      status = status (number a.answer.outcome);
      sense = sense (number a.answer.outcome);
      count = a.answer.count;
      next = a.answer.next;
      slice = a.slice;
      input = a.input;
    }

abbrev pub refusing : Option Refusal → ℕ
refusing None = 0
refusing (Some r) = row r
";

const HEAD: &str = "\
use Rattle.std.specs.Prelude.{ℕ, ◌≡◌, refl, true, false, List, [], ◌∷◌, replicate, Option, None, Some, Ok, Err}
use Rattle.rules.specs.declared.Cause.TheVariants.{Unknown, Over, Padding, Misfit, Past, Repeated, Remainder}
use Rattle.rules.specs.Bytes.{Bytes}
use Rattle.rules.specs.Command.{Command}
use Rattle.rules.specs.Segment.{Walk, walk, fault}
use Rattle.rules.specs.Reading.{in_cdb, in_out, Held}
use Rattle.rules.specs.Admission.{question}
use Rattle.rules.specs.Rows.{refusal}
use Rattle.rules.specs.Answer.{answered}
use Rattle.rules.specs.Writer.{Request, Written, written}
use Rattle.rules.specs.Against.{Seen, seen, refusing}
";

/// The module that opens the book: a theorem that opens its `seen` opens all these definitions.
pub fn opening(modules: &[&str], definitions: &[String]) -> String {
    let uses: Vec<String> = modules
        .iter()
        .map(|module| format!("use Rattle.rules.specs.{module}"))
        .collect();
    OPENING
        .replace("MODULES", &uses.join("\n"))
        .replace("DEFINITIONS", &definitions.join(" "))
}

/// The text of each module with theorems, in the order of the groups.
pub fn with_theorems(groups: &[Group]) -> Vec<String> {
    let mut texts = Vec::new();
    let mut in_last = MOST_THEOREMS;
    for group in groups {
        if in_last + group.theorem_count() > MOST_THEOREMS {
            texts.push(format!("{HEAD}\n"));
            in_last = 0;
        }
        in_last += group.theorem_count();
        texts
            .last_mut()
            .expect("the first group begins a module")
            .push_str(&group.text());
    }
    texts
}
