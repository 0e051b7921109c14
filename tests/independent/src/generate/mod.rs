//! Schedules and damaged files from a seed: the set that the commands run.

pub mod damaged;
pub mod edges;
pub mod histories;
mod interleavings;
pub mod paths;
pub mod worst;

use crate::random::Random;
use crate::schedule::{file_of, read_all, Event, MOST_EVENTS};
use crate::Settings;

/// One input, and how it is handed over.
#[derive(Clone)]
pub struct Case {
    /// The family, and what this one is.
    pub label: String,
    pub bytes: Vec<u8>,
    /// Handed over in pieces of so many bytes with a pause between them; 0 means whole.
    pub piece: usize,
}

impl Case {
    pub fn new(label: impl Into<String>, bytes: Vec<u8>) -> Case {
        Case { label: label.into(), bytes, piece: 0 }
    }

    /// The case of a schedule that the writer accepts.
    pub fn of_schedule(label: impl Into<String>, settings: Settings, events: &[Event]) -> Case {
        let file = file_of(settings, events);
        Case::new(label, file.expect("generated schedules are in the file's limits"))
    }

    pub fn family(&self) -> &str {
        self.label.split(' ').next().unwrap_or("")
    }
}

/// The cases that every run has: 01's edges, the worst schedules that fit a file, paths to every
/// place, damaged files.
pub fn fixed_cases() -> Vec<Case> {
    let mut cases = edges::cases();
    cases.extend(worst::cases());
    cases.extend(paths::cases());
    cases.extend(damaged::cases());
    cases.extend(in_pieces());
    cases
}

/// The random case of that index: mostly a schedule, now and then a path or a damaged file.
pub fn random_case(seed: u64, index: u64) -> Case {
    let mut random = Random::of_case(seed, index);
    match random.below(100) {
        0..=7 => return damaged::random_case(&mut random),
        8..=11 => return paths::random_case(&mut random),
        _ => {}
    }
    let schedule = histories::random_schedule(&mut random);
    Case::of_schedule(schedule.label, schedule.settings, &schedule.events)
}

/// The fixed cases and so many random ones of a seed, of these the schedules that have an event.
pub fn schedules(seed: u64, count: u64) -> Vec<Case> {
    let random = (0..count).map(|index| random_case(seed, index));
    let mut cases: Vec<Case> = fixed_cases().into_iter().chain(random).collect();
    cases.retain(|case| read_all(&case.bytes).is_ok_and(|(_, events)| !events.is_empty()));
    cases
}

/// Inputs that arrive bit by bit: a program must read on to the end of its input.
fn in_pieces() -> Vec<Case> {
    let small = edges::listing_of_01();
    let long_settings = Settings::new(1, 8, 8);
    let long = worst::worst_schedule(long_settings, &worst::in_order(8), worst::LastWriter::Holds);
    let long = Case::of_schedule("", long_settings, &long);
    let full = damaged::full_file(MOST_EVENTS);
    let inputs = [(&small.bytes, 1), (&small.bytes, 7), (&small.bytes, 11), (&small.bytes, 40)];
    let more = [(&long.bytes, 100), (&full, 4096), (&full, 49_162), (&full, 5_000)];
    let case = |(bytes, piece): &(&Vec<u8>, usize)| Case {
        label: format!("pieces of {piece} bytes"),
        bytes: bytes.to_vec(),
        piece: *piece,
    };
    inputs.iter().chain(more.iter()).map(case).collect()
}
