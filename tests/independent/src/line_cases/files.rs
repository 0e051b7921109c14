//! Schedule files to write as comma lines: good ones of both versions, and damaged ones.

use crate::generate::damaged::{counts, faults, full_file, header, no_files};
use crate::generate::histories::random_schedule;
use crate::generate::{edges, Case};
use crate::random::Random;
use crate::schedule::{file_of, Event, Kind, MOST_EVENTS};
use crate::Settings;

/// Bytes that tell something where they stand in a file.
const TELLING: [u8; 9] = [0, 1, 2, 3, 16, 17, 127, 128, 255];

/// A file of three events.
fn small(version: u16) -> Vec<u8> {
    let events =
        [Event::new(Kind::Ask, 0), Event::new(Kind::Turn, 258), Event::new(Kind::Free, 65_535)];
    let settings = Settings::new(1, 256, 16).of_version(version);
    file_of(settings, &events).expect("a small file is in the limits")
}

/// Every byte changed, every truncation, and bytes after the end.
fn every_byte(name: &str, file: &[u8]) -> Vec<Case> {
    let mut cases = vec![Case::new(format!("file {name}"), file.to_vec())];
    for at in 0..file.len() {
        cases.push(Case::new(format!("cut {name} to {at} bytes"), file[..at].to_vec()));
        for byte in TELLING.into_iter().chain([file[at] ^ 1, file[at].wrapping_add(1)]) {
            let mut bytes = file.to_vec();
            bytes[at] = byte;
            cases.push(Case::new(format!("byte {at} of {name} to {byte}"), bytes));
        }
    }
    for added in [1, 2, 3, 6] {
        let bytes = [file, &vec![0; added]].concat();
        cases.push(Case::new(format!("file {name} and {added} bytes more"), bytes));
    }
    cases
}

/// Every identifier whose decimal gets a digit more, in every kind of event.
fn identifiers() -> Case {
    let ids = [0, 1, 9, 10, 11, 99, 100, 101, 255, 256, 999, 1_000, 9_999, 10_000, 65_534, 65_535];
    let events = ids.iter().flat_map(|id| Kind::ALL.map(|kind| Event::new(kind, *id)));
    let events: Vec<Event> = events.collect();
    Case::of_schedule("file of identifiers", Settings::new(0, 1, 1).of_version(2), &events)
}

/// The longest text: as many events as a file has, each of the longest line.
fn longest() -> Case {
    let settings = Settings::new(1, 256, 16).of_version(2);
    let events = vec![Event::new(Kind::Turn, 65_535); MOST_EVENTS];
    Case::of_schedule("file of the longest text", settings, &events)
}

pub fn cases() -> Vec<Case> {
    let mut cases = every_byte("version 1", &small(1));
    cases.extend(every_byte("version 2", &small(2)));
    cases.extend(every_byte("bare", &header(Settings::new(0, 3, 3).of_version(2), 0)));
    cases.extend([identifiers(), longest(), edges::listing_of_01()]);
    cases.push(Case::new("file full", full_file(MOST_EVENTS)));
    cases.extend(faults());
    cases.extend(counts());
    cases.extend(no_files());
    cases
}

/// Files whose texts end about a small room, and some that are refused before the room is tested.
pub fn in_rooms() -> Vec<Case> {
    let mut coded = small(1);
    coded[11] = 3;
    let cut = small(2)[..19].to_vec();
    let bare = header(Settings::new(0, 1, 1), 0);
    let events = [Event::new(Kind::Ask, 9), Event::new(Kind::Free, 10)];
    let two = file_of(Settings::new(1, 2, 2), &events).expect("two events are in the limits");
    let files = [("bare", bare), ("two", two), ("small", small(2)), ("coded", coded), ("cut", cut)];
    files.into_iter().map(|(name, bytes)| Case::new(format!("room file {name}"), bytes)).collect()
}

/// A random schedule's file; of a long one the first events.
pub fn random_case(random: &mut Random) -> Case {
    let schedule = random_schedule(random);
    let count = schedule.events.len().min(random.between(0, 400));
    let label = format!("file {}, the first {count}", schedule.label);
    Case::of_schedule(label, schedule.settings, &schedule.events[..count])
}
