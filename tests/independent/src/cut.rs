//! The command `cut`: 02, P6 only adds to lines. The listing of a version 1 schedule, with the
//! accesses of turns and releases cut off, is the listing of before.

use std::fmt::Write;

use crate::calls::{Answer, Stand};
use crate::comparison::{self, same_lines, Input};
use crate::event_line;
use crate::generate::{schedules, Case};
use crate::history::History;
use crate::program::Printer;
use crate::refusal::Refusal;
use crate::rules::Grid;
use crate::schedule::read_all;

/// Cuts what is printed of the version 1 schedules of a seed, and answers how many passed and how
/// many failed.
pub fn run(printer: &dyn Printer, seed: u64, count: u64) -> (usize, usize) {
    let mut cases = schedules(seed, count);
    cases.retain(|case| read_all(&case.bytes).is_ok_and(|(settings, _)| settings.version == 1));
    println!("seed {seed}: {} schedules of version 1", cases.len());
    let input = |index| cases.get(index).map(|case| input_of(index, case));
    comparison::run(printer, None, &input, &judge)
}

fn input_of(index: usize, case: &Case) -> Input {
    let mut input = Input::of_schedule("cut", index, case);
    input.parts[0].due = listing_before_p6(&case.bytes).expect("only schedules are cut");
    input
}

fn judge(input: &Input, printed: &[u8]) -> Vec<Option<String>> {
    match cut(printed) {
        Ok(cut) => same_lines(input, cut.as_bytes()),
        Err(cause) => vec![Some(cause)],
    }
}

/// The listing without its accesses; each line of an event must be one of now.
pub fn cut(printed: &[u8]) -> Result<String, String> {
    let text = std::str::from_utf8(printed).map_err(|error| error.to_string())?;
    let mut before = String::with_capacity(text.len());
    for line in text.split_inclusive('\n') {
        let is_event = line.starts_with(|first: char| first.is_ascii_digit());
        match line.strip_suffix('\n').filter(|_| is_event) {
            None => before.push_str(line),
            Some(line) => {
                let read = event_line::read(line).ok_or(format!("no line of now: {line:?}"))?;
                before.push_str(read.before_p6);
                before.push('\n');
            }
        }
    }
    Ok(before)
}

/// The listing as it was before P6.
pub fn listing_before_p6(file: &[u8]) -> Result<String, Refusal> {
    let (settings, events) = read_all(file)?;
    let mut history = History::new(&Grid, settings)?;
    // Writing to a string does not fail.
    let mut text = format!("grid {} {} {}\n", settings.mode, settings.n, settings.k);
    for (position, event) in events.into_iter().enumerate() {
        let _ = write!(text, "{position} {} {} ", event.kind.word(), event.id);
        let _ = match history.call(event) {
            Ok(Answer::Asked(Stand::Holds(name)) | Answer::Turned(Stand::Holds(name), _)) => {
                writeln!(text, "holds {}", name.0)
            }
            Ok(Answer::Freed(name, _)) => writeln!(text, "freed {}", name.0),
            Ok(_) => writeln!(text, "seeks"),
            Err(refusal) => writeln!(text, "refused {}", refusal.number()),
        };
    }
    let _ = writeln!(text, "end {} {} {}", history.out.holders, history.peak, history.most);
    Ok(text)
}
