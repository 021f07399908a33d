//! Who is let in, and by which capability.

use crate::capability::Place;
use crate::command::Range;
use crate::numbers::{self, Command};
use crate::record::Record;

/// The first capability that admits the range under this command's verb, as the place where its
/// bytes stand. The range is any range, it needn't be one of the command's.
///
/// None where no capability admits it, and where one of rows 2 to 8 refuses the command: then its
/// capabilities can't be relied on. Rows 1, 9 and 10 aren't looked at; for row 4, and for tag and
/// epoch, the record is.
pub fn question(cdb: &[u8], out: &[u8], record: &Record, range: Range) -> Option<Place> {
    let command = numbers::rows_2_to_8(cdb, out, record).ok()?;
    first_that_admits(&command, record, range)
}

/// Whether the command as a whole is let in: at least one capability matches, even where there is
/// no range to cover, and each range lies inside a matching one. Ranges may use different ones.
pub fn admitted(command: &Command, record: &Record) -> bool {
    let one_matches = command
        .capabilities
        .iter()
        .any(|(_, capability)| capability.matches(command.action, &command.fields, record));
    let every_range_is_covered = command
        .ranges()
        .into_iter()
        .all(|range| first_that_admits(command, record, range).is_some());
    one_matches && every_range_is_covered
}

fn first_that_admits(command: &Command, record: &Record, range: Range) -> Option<Place> {
    command
        .capabilities
        .iter()
        .find(|(_, capability)| {
            capability.matches(command.action, &command.fields, record)
                && capability.has_inside(range)
        })
        .map(|(place, _)| *place)
}
