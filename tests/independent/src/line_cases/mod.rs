//! Texts and files to convert (02, P12), good and damaged, fixed and from a seed; what is due on
//! them; and the commands `lines` and `texts`.

pub mod compare;
mod fields;
pub mod files;
pub mod store;
pub mod texts;

use crate::generate::{damaged, Case};
use crate::lines::{convert, number_words, Conversion, Lines, AS_NEEDED};
use crate::random::Random;
use crate::refusal::Refusal;

/// The rooms in which `in_rooms` are converted: each length up to a little above the longest output.
pub const ROOMS: std::ops::RangeInclusive<usize> = 0..=44;

/// The cases that every run has. Each text among them that is accepted is there as its file too.
pub fn fixed_cases() -> Vec<Case> {
    let texts = texts::cases();
    let back = texts.iter().filter_map(back_again);
    let mut cases: Vec<Case> = back.collect();
    cases.splice(0..0, texts);
    cases.extend(files::cases());
    cases.extend(in_pieces());
    cases
}

/// The output of an accepted text, as an input.
fn back_again(case: &Case) -> Option<Case> {
    let file = convert(&Lines, &case.bytes, AS_NEEDED).ok()?;
    Some(Case::new(format!("back {}", case.label), file))
}

/// The random case of that index: mostly a text, damaged or not, now and then a file.
pub fn random_case(seed: u64, index: u64) -> Case {
    let mut random = Random::of_case(seed, index);
    match random.below(100) {
        0..=9 => files::random_case(&mut random),
        10..=14 => damaged::random_case(&mut random),
        _ => texts::random_case(&mut random),
    }
}

/// Small cases whose outputs end about one of the rooms, and some that are refused before.
pub fn in_rooms() -> Vec<Case> {
    let mut cases = texts::in_rooms();
    cases.extend(files::in_rooms());
    cases
}

/// Inputs that arrive bit by bit: a program must read on to the end of its input.
fn in_pieces() -> Vec<Case> {
    let small = texts::small();
    let long = texts::of_count(3_000);
    let pieces = [(&small, 1), (&small, 3), (&small, 9), (&long, 100), (&long, 4_096)];
    let case = |(bytes, piece): (&Vec<u8>, usize)| Case {
        label: format!("pieces of {piece} bytes"),
        bytes: bytes.clone(),
        piece,
    };
    pieces.into_iter().map(case).collect()
}

/// What a run of a program that converts shows: its exit status, the first line of standard error
/// as far as its colon, and standard output, line by line, with bytes that are no plain text escaped.
pub fn shown(status: i32, said: &str, printed: &[u8]) -> String {
    let first = said.lines().next().unwrap_or("");
    let number = first.split(':').next().unwrap_or("");
    let mut text = format!("status {status}\nsaid {number:?}\n");
    for line in printed.split_inclusive(|byte| *byte == b'\n') {
        text.push_str(&line.escape_ascii().to_string());
        text.push('\n');
    }
    text
}

/// What is due on an input.
pub fn due(conversion: &dyn Conversion, bytes: &[u8], room: usize) -> String {
    match convert(conversion, bytes, room) {
        Ok(output) => shown(0, "", &output),
        Err(refusal) => shown(1, &number_words(refusal), b""),
    }
}

/// The answer without its line.
pub fn answer_word(answer: &Result<Vec<u8>, Refusal>) -> String {
    match answer {
        Ok(output) if output.starts_with(b"GRS") => "file".to_string(),
        Ok(_) => "text".to_string(),
        Err(refusal) => refusal.to_string(),
    }
}
