//! Texts of comma lines: small ones with every byte changed, removed or doubled, counts of events,
//! faults two at a time, and random ones. `fields` has those with other fields, words and line ends.

use super::fields;
use crate::generate::Case;
use crate::random::Random;

/// Bytes that tell something where they stand in a text.
const TELLING: [u8; 20] = *b"0129,\r\n \"+-.;aAGt\0\x80\xff";

/// A text of three events, small enough to change each byte.
pub fn small() -> Vec<u8> {
    b"1,2,2,1\r\nask,0\r\nturn,1\r\nfree,10\r\n".to_vec()
}

/// A text with large numbers.
const LARGE: &[u8] = b"0,256,16,2\r\nfree,65535\r\nask,256\r\n";
/// A good first line.
pub const FIRST: &str = "1,2,2,1";

/// A text of these lines, each with its end.
pub fn text(lines: &[&str]) -> Vec<u8> {
    lines.iter().flat_map(|line| [line.as_bytes(), b"\r\n"].concat()).collect()
}

/// The event lines of so many events, ended.
fn events(count: usize) -> Vec<u8> {
    let words = ["ask", "turn", "turn", "free"];
    let line = |at: usize| format!("{},{}\r\n", words[at % 4], at % 65_536);
    (0..count).flat_map(|at| line(at).into_bytes()).collect()
}

/// A text of so many events.
pub fn of_count(count: usize) -> Vec<u8> {
    [b"1,256,16,2\r\n".to_vec(), events(count)].concat()
}

/// Every byte changed, removed and doubled, a byte put before each, and every truncation.
fn every_byte(name: &str, text: &[u8]) -> Vec<Case> {
    let mut cases = Vec::new();
    for at in 0..=text.len() {
        let (before, after) = text.split_at(at);
        cases.push(Case::new(format!("truncated {name} to {at} bytes"), before.to_vec()));
        for byte in TELLING {
            let label = format!("inserted {byte} in {name} at {at}");
            cases.push(Case::new(label, [before, &[byte], after].concat()));
        }
        let [here, rest @ ..] = after else {
            continue;
        };
        let label = format!("removed byte {at} of {name}");
        cases.push(Case::new(label, [before, rest].concat()));
        let label = format!("doubled byte {at} of {name}");
        cases.push(Case::new(label, [before, &[*here], after].concat()));
        for byte in TELLING.into_iter().filter(|byte| byte != here) {
            let label = format!("changed byte {at} of {name} to {byte}");
            cases.push(Case::new(label, [before, &[byte], rest].concat()));
        }
    }
    cases
}

/// So many events after a first line, and what ends the text.
fn counted(count: usize, first: &str, last: &str) -> Case {
    let bytes = [first.as_bytes(), b"\r\n", &events(count), last.as_bytes()].concat();
    Case::new(format!("count {count} after {first}, then {last:?}"), bytes)
}

/// Counts of events about the limit and about 65,536, with faults in the first and in the last line.
fn counts() -> Vec<Case> {
    let mut cases = Vec::new();
    let lasts = ["", "ask,00\r\n", "ask,0"];
    for count in [0, 1, 255, 256, 16_384, 16_385] {
        for first in [FIRST, "0,256,16,2", "1,2,2,3", "1,2,3,1", "1,2,2", "9,9,9,9"] {
            cases.extend(lasts.map(|last| counted(count, first, last)));
        }
    }
    for count in [16_383, 32_768, 65_535, 65_536, 65_537, 81_920] {
        cases.extend(lasts.map(|last| counted(count, FIRST, last)));
        cases.push(counted(count, "1,2,3,1", ""));
    }
    let longest = [b"1,256,16,2\r\n".to_vec(), b"turn,65535\r\n".repeat(16_384)].concat();
    cases.push(Case::new("count 16384, the longest text", longest.clone()));
    cases.push(Case::new(
        "count 16384, the longest text less one byte",
        longest[..longest.len() - 1].to_vec(),
    ));
    cases.push(Case::new("count 16385, longer lines", [&longest[..], b"ask,65535\r\n"].concat()));
    cases
}

/// Inputs that are no text at all.
fn none() -> Vec<Case> {
    let mut random = Random::new(3);
    let mut cases = vec![Case::new("none empty text", Vec::new())];
    for length in [1, 2, 3, 11, 100, 70_000, 300_000] {
        let noise: Vec<u8> = (0..length).map(|_| random.next() as u8).collect();
        cases.push(Case::new(format!("none {length} random bytes"), noise));
        cases.push(Case::new(format!("none {length} zeros"), vec![0; length]));
        cases.push(Case::new(format!("none {length} digits"), vec![b'1'; length]));
        cases.push(Case::new(format!("none {length} ends"), b"\r\n".repeat(length)));
        let after = [FIRST.as_bytes(), b"\r\n", &vec![b'7'; length]].concat();
        cases.push(Case::new(format!("none {length} digits after a first line"), after));
    }
    cases
}

/// Breaks, versions, settings: each alone and each two together, early and late.
fn faults() -> Vec<Case> {
    let mut cases = Vec::new();
    for first in
        ["1,2,2,1", "1,2,2,0", "1,2,2,3", "1,2,3,1", "7,2,2,1", "1,257,2,2", "1,2,3,0", "1,2,256,3"]
    {
        for second in ["ask,0", "ask,00", "ask,65536", "ask", ""] {
            for last in ["free,0\r\n", "free,65536\r\n", "free,0", "free,0\n", "\r\n"] {
                let bytes = [&text(&[first, second, "turn,0"]), last.as_bytes()].concat();
                let label = format!("faults {first:?}, {second:?} and {last:?}");
                cases.push(Case::new(label, bytes));
            }
        }
    }
    cases
}

pub fn cases() -> Vec<Case> {
    let mut cases = vec![Case::new("good small", small()), Case::new("good large", LARGE.to_vec())];
    cases.extend(every_byte("small", &small()));
    cases.extend(every_byte("large", LARGE));
    cases.extend(fields::cases());
    cases.extend(counts());
    cases.extend(none());
    cases.extend(faults());
    cases
}

/// Texts whose files end about a small room, and some that are refused before the room is tested.
pub fn in_rooms() -> Vec<Case> {
    let small = small();
    let bare = text(&["0,1,1,2"]);
    let mut cases = vec![Case::new("room small", small), Case::new("room bare", bare)];
    cases.push(Case::new("room large", LARGE.to_vec()));
    for lines in [["1,2,2,1", "ask,00"], ["1,2,2,3", "ask,0"], ["1,2,3,1", "ask,0"]] {
        cases.push(Case::new(format!("room {lines:?}"), text(&lines)));
    }
    cases.push(Case::new("room 16385 events", of_count(16_385)));
    cases
}

/// A number that fits a field or is just above one, now and then with a leading zero.
fn random_number(random: &mut Random, largest: usize) -> String {
    let number = match random.below(10) {
        0 => random.pick(&[largest, largest + 1, largest - 1, 0]),
        1..=2 => random.below(largest + 1),
        _ => random.below(12),
    };
    let zero = if random.percent(1) { "0" } else { "" };
    format!("{zero}{number}")
}

fn random_lines(random: &mut Random) -> Vec<String> {
    let first = if random.percent(85) {
        let k = random.between(1, 16);
        let n = random.between(k, 256);
        format!("{},{n},{k},{}", random.below(2), random.between(1, 2))
    } else {
        let fields = [255, 65_535, 255, 65_535].map(|largest| random_number(random, largest));
        fields.join(",")
    };
    let count = if random.percent(97) { random.below(30) } else { random.below(3_000) };
    let is_wild = random.percent(30);
    let event = |random: &mut Random| {
        let word = random.pick(&["ask", "turn", "free"]);
        let wild = is_wild.then(|| random_number(random, 65_535));
        let id = wild.unwrap_or_else(|| random.below(65_536).to_string());
        format!("{word},{id}")
    };
    let mut lines = vec![first];
    lines.extend((0..count).map(|_| event(random)));
    lines
}

/// A random schedule's text, in two of three cases damaged in one to three places.
pub fn random_case(random: &mut Random) -> Case {
    let lines = random_lines(random);
    let mut bytes: Vec<u8> =
        lines.iter().flat_map(|line| format!("{line}\r\n").into_bytes()).collect();
    let damages = if random.percent(33) { 0 } else { random.between(1, 3) };
    for _ in 0..damages {
        let at = random.below(bytes.len().max(1));
        match random.below(5) {
            _ if bytes.is_empty() => {}
            0 => bytes.truncate(at),
            1 => bytes.insert(at, random.pick(&TELLING)),
            2 => drop(bytes.remove(at)),
            3 => bytes.insert(at, bytes[at]),
            _ => bytes[at] = random.pick(&TELLING),
        }
    }
    Case::new(format!("random text of {} lines, {damages} damages", lines.len()), bytes)
}
