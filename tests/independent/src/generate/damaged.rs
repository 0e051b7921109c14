//! Damaged files: truncations, changed bytes, wrong fields alone and two at a time, trailing bytes,
//! inputs longer than the largest file; and the counts on both sides of the limit.

use super::edges;
use super::histories::random_schedule;
use super::Case;
use crate::random::Random;
use crate::schedule::{file_bytes, Event, Kind, LARGEST_FILE, MOST_EVENTS};
use crate::Settings;

const GOOD: Settings = Settings::new(1, 2, 2);

/// A header with these fields, good or bad.
pub fn header(settings: Settings, count: u16) -> Vec<u8> {
    file_bytes(settings, count, &[])
}

/// A file of so many events: asks, turns and releases of two tasks in turn.
pub fn full_file(count: usize) -> Vec<u8> {
    let numbers: Vec<u32> = (0..count)
        .map(|position| {
            let id = (position / 9 % 2) as u16;
            let kind = if position % 9 == 0 { Kind::Ask } else { Kind::Turn };
            let kind = if position % 9 == 8 { Kind::Free } else { kind };
            Event::new(kind, id).number()
        })
        .collect();
    file_bytes(GOOD, count as u16, &numbers)
}

/// A file of two events, small enough to change each byte into each other.
fn small_file() -> Vec<u8> {
    let events = [Event::new(Kind::Ask, 1), Event::new(Kind::Turn, 1)];
    let numbers: Vec<u32> = events.iter().map(|event| event.number()).collect();
    file_bytes(GOOD, 2, &numbers)
}

fn truncations(name: &str, file: &[u8]) -> Vec<Case> {
    let truncated =
        |length| Case::new(format!("truncated {name} to {length} bytes"), file[..length].to_vec());
    (0..=file.len()).map(truncated).collect()
}

/// Every single-byte change of a file.
fn changes(name: &str, file: &[u8]) -> Vec<Case> {
    let mut cases = Vec::new();
    for at in 0..file.len() {
        for byte in (0..=255).filter(|byte| *byte != file[at]) {
            let mut bytes = file.to_vec();
            bytes[at] = byte;
            cases.push(Case::new(format!("changed {name} byte {at} to {byte}"), bytes));
        }
    }
    cases
}

/// A fault that can be put into a file, in the order in which opening tests for them.
#[derive(Clone, Copy, PartialEq, Debug)]
enum Fault {
    Letters,
    Version,
    Settings,
    Count,
    Length,
    Code,
}

impl Fault {
    const ALL: [Fault; 6] =
        [Fault::Letters, Fault::Version, Fault::Settings, Fault::Count, Fault::Length, Fault::Code];

    /// Puts the fault into the bytes of a file that has events.
    fn put(self, bytes: &mut Vec<u8>) {
        match self {
            Fault::Letters => bytes[2] = b's',
            Fault::Version => bytes[4] = 1,
            Fault::Settings => bytes[8] = 17,
            Fault::Count => bytes[10] |= 0x80,
            Fault::Length => bytes.push(0),
            Fault::Code => bytes[11] = 3,
        }
    }
}

/// Each fault alone and each two together, in a small file, in a full one and in one too long.
pub fn faults() -> Vec<Case> {
    let mut cases = Vec::new();
    let mut too_long = full_file(MOST_EVENTS);
    too_long.resize(LARGEST_FILE + 100_000, 0);
    for (name, file) in
        [("small", small_file()), ("full", full_file(MOST_EVENTS)), ("long", too_long)]
    {
        for first in Fault::ALL {
            for second in Fault::ALL {
                let mut bytes = file.clone();
                first.put(&mut bytes);
                if second != first {
                    second.put(&mut bytes);
                }
                let label = format!("faults {first:?} and {second:?} in a {name} file");
                cases.push(Case::new(label, bytes));
            }
        }
    }
    cases
}

/// Counts about the limit, with and without their events, and lengths about the count.
pub fn counts() -> Vec<Case> {
    let mut cases = Vec::new();
    for count in [0, 1, 255, 256, 16_383, 16_384, 16_385, 32_768, 65_535] {
        let bare = header(GOOD, count);
        cases.push(Case::new(format!("count {count}, bare header"), bare));
        let file = full_file(usize::from(count));
        for change in [-3i64, -2, -1, 1, 2, 3, 11] {
            let mut bytes = file.clone();
            bytes.resize((bytes.len() as i64 + change).max(0) as usize, 0);
            cases.push(Case::new(format!("count {count}, length changed by {change}"), bytes));
        }
        cases.push(Case::new(format!("count {count}, with its events"), file));
    }
    for position in [0, 1, 8_000, MOST_EVENTS - 1] {
        for code in [3, 4, 128, 255] {
            let mut bytes = full_file(MOST_EVENTS);
            bytes[11 + 3 * position] = code;
            cases.push(Case::new(format!("code {code} at {position}"), bytes));
        }
    }
    cases
}

/// Inputs that are no file at all.
pub fn no_files() -> Vec<Case> {
    let mut random = Random::new(2);
    let mut cases = vec![Case::new("none empty input", Vec::new())];
    for length in [1, 2, 3, 10, 11, 12, 14, 100, LARGEST_FILE, LARGEST_FILE + 1, 1_000_000] {
        let zeros = vec![0; length];
        let noise: Vec<u8> = (0..length).map(|_| random.next() as u8).collect();
        let mut lettered = noise.clone();
        for (byte, letter) in lettered.iter_mut().zip(b"GRS\x01\x00") {
            *byte = *letter;
        }
        cases.push(Case::new(format!("none {length} zeros"), zeros));
        cases.push(Case::new(format!("none {length} random bytes"), noise));
        cases.push(Case::new(format!("none {length} random bytes after the letters"), lettered));
    }
    cases
}

pub fn cases() -> Vec<Case> {
    let listing = edges::listing_of_01().bytes;
    let mut cases = truncations("small file", &small_file());
    cases.extend(truncations("listing of 01", &listing));
    cases.extend(changes("small file", &small_file()));
    cases.extend(changes("bare header", &header(Settings::new(0, 3, 3).of_version(2), 0)));
    cases.extend(faults());
    cases.extend(counts());
    cases.extend(no_files());
    cases
}

/// A random schedule's file, damaged in one to three places.
pub fn random_case(random: &mut Random) -> Case {
    let schedule = random_schedule(random);
    let mut bytes = Case::of_schedule("", schedule.settings, &schedule.events).bytes;
    for _ in 0..random.between(1, 3) {
        let header_or_any = if random.percent(50) { 11.min(bytes.len()) } else { bytes.len() };
        match random.below(4) {
            0 => bytes.truncate(random.below(bytes.len() + 1)),
            1 => {
                let added = random.between(1, 6);
                bytes.extend((0..added).map(|_| random.next() as u8));
            }
            _ if header_or_any == 0 => {}
            2 => bytes[random.below(header_or_any)] = random.next() as u8,
            _ => bytes[random.below(header_or_any)] ^= 1 << random.below(8),
        }
    }
    Case::new(format!("damaged {}", schedule.label), bytes)
}
