//! The command `calls`: arbitrary memories and calls on them, with the answers and the memories
//! afterwards, for a program that tries the library's calls. Each case is these lines:
//!
//! ```text
//! case NUMBER WHAT IT TRIES
//! settings MODE N K VERSION
//! records RECORD ...       the lent row before the call, one word a record, surplus included
//! x NUMBER ...
//! marks NUMBER ...
//! call setup | ask ID | turn ID | release ID
//! answer done | seeks | holds NAME                        of a setup or an ask
//!        seeks ACCESS | holds NAME ACCESS                 of a turn
//!        freed NAME ACCESS | freed NAME none              of a release
//!        refused NUMBER | refused 3 ROW INDEX             of any
//! records RECORD ...       the rows after the call
//! x NUMBER ...
//! marks NUMBER ...
//! ```
//!
//! A RECORD is `idle`, `hold/R/C/FIGURE` or `seek/R/C/POINT/FIGURE`, and `idle/FIGURE` where an idle
//! one has a figure other than 0; a POINT is `x` (write X), `scan/H`, `mark` (write mark), `read`
//! (read X), `right` or `down` (clear, going there). ROW is `records`, `x` or
//! `marks`. An ACCESS is as in a listing: `R` or `W`, `X` or `M`, the block, the place among its marks
//! and the value. Words are parted by one space; an empty row is its first word alone. The last line is
//! `end NUMBER`, the number of cases. MODE, K, R, C and marks are below 256; N, VERSION, H and
//! identifiers below 65,536; X and figures below 4,294,967,296.
//!
//! `calls PROGRAM` hands the cases over in the form of `binary`, and the program prints each case's
//! last four lines, those of its outcome.

mod binary;
mod compare;
mod families;
mod faults;
mod figures;
mod holders;
mod memories;
mod moments;
mod setups;
pub mod store;
mod surplus;

use std::fmt::Write;

use crate::calls::{call as call_of, setup, Answer, Memory};
use crate::grid::{Direction, Identifier, Point, Record, Settings, State};
use crate::refusal::Refusal;
use crate::rules::Rules;
use crate::schedule::Kind;

pub use binary::{pack, unpack, MOST_BYTES};
pub use compare::{inputs, run, Plan};
use families::Maker;

/// The longest rows that are lent.
pub const MOST_RECORDS: usize = 256;
pub const MOST_X: usize = 128;
pub const MOST_MARKS: usize = 30_740;

#[derive(Clone, Copy, PartialEq, Debug)]
pub enum Call {
    Setup,
    Ask(u16),
    Turn(u16),
    Release(u16),
}

#[derive(Clone, PartialEq, Debug)]
pub struct CallCase {
    pub tries: &'static str,
    pub settings: Settings,
    pub before: Memory,
    pub call: Call,
    pub answer: Result<Answer, Refusal>,
    pub after: Memory,
}

impl CallCase {
    /// The call made on the memory under the rules.
    pub fn new(
        rules: &dyn Rules,
        tries: &'static str,
        settings: Settings,
        before: Memory,
        call: Call,
    ) -> CallCase {
        let mut after = before.clone();
        let by = |kind, id: u16, after: &mut Memory| {
            call_of(rules, settings, kind, Identifier(id.into()), after)
        };
        let answer = match call {
            Call::Setup => setup(rules, settings, &mut after),
            Call::Ask(id) => by(Kind::Ask, id, &mut after),
            Call::Turn(id) => by(Kind::Turn, id, &mut after),
            Call::Release(id) => by(Kind::Free, id, &mut after),
        };
        CallCase { tries, settings, before, call, answer, after }
    }

    /// MODE N K VERSION.
    pub fn settings_words(&self) -> String {
        let Settings { mode, n, k, version } = self.settings;
        format!("{mode} {n} {k} {version}")
    }

    /// What is called: `setup`, `ask ID`, `turn ID` or `release ID`.
    pub fn call_words(&self) -> String {
        match self.call {
            Call::Setup => "setup".to_string(),
            Call::Ask(id) => format!("ask {id}"),
            Call::Turn(id) => format!("turn {id}"),
            Call::Release(id) => format!("release {id}"),
        }
    }

    /// The lines of the outcome: the answer and the rows after the call.
    pub fn outcome(&self) -> String {
        let answer = match self.answer {
            Ok(answer) => answer.to_string(),
            Err(Refusal::OutOfRange { row, index }) => format!("refused 3 {row} {index}"),
            Err(refusal) => refusal.to_string(),
        };
        let mut text = format!("answer {answer}\n");
        write_memory(&mut text, &self.after);
        text
    }
}

/// The cases of a seed. The first two make an input of just the greatest length.
pub fn cases(seed: u64) -> Vec<CallCase> {
    let mut maker = Maker::new(seed);
    maker.greatest_rows();
    let sizes = [(1, 1), (3, 1), (2, 2), (3, 2), (3, 3), (4, 3), (5, 4), (16, 16), (256, 2)];
    for mode in [0, 1] {
        for (index, (n, k)) in sizes.into_iter().enumerate() {
            // A size that has version 1 in one mode has version 2 in the other.
            let version = if index % 2 == usize::from(mode) { 1 } else { 2 };
            let settings = Settings::new(mode, n, k).of_version(version);
            maker.every_family(settings);
            maker.names(settings.of_version(3 - version));
            maker.anything(settings, 12);
        }
        for (n, k) in [(5, 2), (6, 3), (8, 4)] {
            maker.asks(Settings::new(mode, n, k));
        }
        maker.anything(Settings::new(mode, 256, 16), 4);
        maker.surplus(Settings::new(mode, 255, 3));
        maker.every_block(Settings::new(mode, 16, 16));
        for (n, k) in [(1, 1), (2, 1), (2, 2), (3, 2), (3, 3), (4, 1), (4, 3)] {
            maker.row_lengths(Settings::new(mode, n, k), 0..=8);
        }
    }
    maker.bad_settings();
    maker.versions();
    maker.cases
}

/// What a program prints on an input in the binary form if it has these rules.
pub fn outcomes(rules: &dyn Rules, input: &[u8]) -> Result<String, String> {
    let asked = unpack(input)?.into_iter();
    let outcome =
        |(settings, before, call)| CallCase::new(rules, "", settings, before, call).outcome();
    Ok(asked.map(outcome).collect())
}

/// The cases as text.
pub fn text(cases: &[CallCase]) -> String {
    let mut text = String::new();
    // Writing to a string does not fail.
    for (number, case) in cases.iter().enumerate() {
        let _ = writeln!(text, "case {number} {}", case.tries);
        let _ = writeln!(text, "settings {}", case.settings_words());
        write_memory(&mut text, &case.before);
        let _ = writeln!(text, "call {}", case.call_words());
        text.push_str(&case.outcome());
    }
    let _ = writeln!(text, "end {}", cases.len());
    text
}

fn write_memory(text: &mut String, memory: &Memory) {
    let row = |text: &mut String, name: &str, words: Vec<String>| {
        text.push_str(name);
        for word in words {
            text.push(' ');
            text.push_str(&word);
        }
        text.push('\n');
    };
    row(text, "records", memory.records.iter().map(|record| record_word(*record)).collect());
    row(text, "x", memory.registers.x.iter().map(|x| x.to_string()).collect());
    row(text, "marks", memory.registers.marks.iter().map(|mark| mark.to_string()).collect());
}

fn record_word(Record { state, figure }: Record) -> String {
    match state {
        State::Idle if figure == 0 => "idle".to_string(),
        State::Idle => format!("idle/{figure}"),
        State::Holding(place) => format!("hold/{}/{}/{figure}", place.r, place.c),
        State::Seeking(place, point) => {
            let point = match point {
                Point::WriteX => "x".to_string(),
                Point::Scan(h) => format!("scan/{h}"),
                Point::WriteMark => "mark".to_string(),
                Point::ReadX => "read".to_string(),
                Point::Clear(Direction::Right) => "right".to_string(),
                Point::Clear(Direction::Down) => "down".to_string(),
            };
            format!("seek/{}/{}/{point}/{figure}", place.r, place.c)
        }
    }
}
