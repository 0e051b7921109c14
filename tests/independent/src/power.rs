//! The command `power`: the generated schedules tell from the grid each variant that differs in
//! listings, the calls on arbitrary memories each that differs in calls, and `trace` finds a fault in
//! the listings of each that shows wrong accesses. The generated texts and files tell each misreading
//! of comma lines from the conversions.

use std::collections::HashMap;
use std::thread;

use crate::call_cases::{self, CallCase};
use crate::generate::{fixed_cases, random_case, Case};
use crate::line_cases;
use crate::lines::{convert, Conversion, Lines, AS_NEEDED};
use crate::listing::listing;
use crate::refusal::Refusal;
use crate::rules::{Grid, Rules};
use crate::trace;
use crate::variants::lines::Misreading;
use crate::variants::{self, accesses, Variant};

/// Longer files are left out: they are few and would take most of the time.
const LONGEST_FILE: usize = 4_000;

/// What the set says of one variant.
struct Told<'a> {
    /// The cases whose listings differ from the grid's.
    differing: usize,
    /// Of these, the ones where two tasks hold one name at the same time.
    clashing: usize,
    /// The shortest that differs.
    shortest: Option<&'a Case>,
}

fn tell<'a>(rules: &dyn Rules, cases: &'a [(Case, String)]) -> Told<'a> {
    let mut told = Told { differing: 0, clashing: 0, shortest: None };
    for (case, text) in cases {
        let other = listing(rules, &case.bytes);
        if other == *text {
            continue;
        }
        told.differing += 1;
        if clashes(&other) {
            told.clashing += 1;
        }
        if told.shortest.is_none_or(|shortest| case.bytes.len() < shortest.bytes.len()) {
            told.shortest = Some(case);
        }
    }
    told
}

/// Whether two tasks of a listing hold one name at the same time.
fn clashes(text: &str) -> bool {
    let mut holders: HashMap<&str, usize> = HashMap::new();
    text.lines().any(|line| {
        let words: Vec<&str> = line.split(' ').collect();
        match words[..] {
            [_, _, _, "holds", name, ..] => {
                let count = holders.entry(name).or_default();
                *count += 1;
                *count > 1
            }
            [_, _, _, "freed", name, ..] => {
                *holders.entry(name).or_insert(1) -= 1;
                false
            }
            _ => false,
        }
    })
}

/// The first line that differs, as the grid and the variant print it.
fn first_difference(rules: &dyn Rules, case: &Case) -> String {
    let (grid, other) = (listing(&Grid, &case.bytes), listing(rules, &case.bytes));
    let mut lines = grid.lines().zip(other.lines());
    match lines.find(|(right, wrong)| right != wrong) {
        Some((right, wrong)) => format!("grid '{right}', variant '{wrong}'"),
        None => "one text goes on after the other".to_string(),
    }
}

/// Under how many of the calls the variant answers or leaves something else than the grid.
fn calls_told(rules: &dyn Rules, cases: &[CallCase]) -> usize {
    let other = |case: &&CallCase| {
        let again = CallCase::new(rules, case.tries, case.settings, case.before.clone(), case.call);
        again != **case
    };
    cases.iter().filter(other).count()
}

/// In how many of the variant's listings `trace` finds a fault.
fn faulty_traces(rules: &dyn Rules, cases: &[(Case, String)]) -> usize {
    let faulty = |(case, text): &&(Case, String)| {
        let is_schedule = text.starts_with("grid ");
        is_schedule && trace::fault(&case.bytes, listing(rules, &case.bytes).as_bytes()).is_some()
    };
    cases.iter().filter(faulty).count()
}

/// A text or file, its room, and what its conversion gives.
struct Converted {
    bytes: Vec<u8>,
    room: usize,
    answer: Result<Vec<u8>, Refusal>,
}

/// The texts and files of a seed, and the small ones in every room.
fn conversions(seed: u64, count: u64) -> Vec<Converted> {
    let random = (0..count).map(|index| line_cases::random_case(seed, index));
    let whole = line_cases::fixed_cases().into_iter().chain(random).map(|case| (case, AS_NEEDED));
    let small = line_cases::in_rooms();
    let small =
        line_cases::ROOMS.flat_map(|room| small.iter().map(move |case| (case.clone(), room)));
    let converted = |(case, room): (Case, usize)| {
        let answer = convert(&Lines, &case.bytes, room);
        Converted { bytes: case.bytes, room, answer }
    };
    whole.chain(small).map(converted).collect()
}

/// How many are converted otherwise.
fn conversions_told(conversion: &dyn Conversion, cases: &[Converted]) -> usize {
    let other = |case: &&Converted| convert(conversion, &case.bytes, case.room) != case.answer;
    cases.iter().filter(other).count()
}

/// Prints one line a variant (how many listings differ from the grid's, in how many of these two
/// tasks hold one name, and the shortest), then one with the faulty traces, one with the calls that
/// differ and those of `of_lines`, and answers how many were told and how many not, by each of these.
pub fn run(seed: u64, count: u64) -> (usize, usize) {
    let random = (0..count).map(|index| random_case(seed, index));
    let with_listing = |case: Case| {
        let text = listing(&Grid, &case.bytes);
        (case, text)
    };
    let cases = fixed_cases().into_iter().chain(random);
    let cases: Vec<(Case, String)> =
        cases.filter(|case| case.bytes.len() <= LONGEST_FILE).map(with_listing).collect();
    println!("seed {seed}: {} cases, each under the grid and under each variant", cases.len());
    let variants = variants::told_by_schedules();
    let told: Vec<Told> = thread::scope(|scope| {
        let cases = &cases;
        let telling: Vec<_> =
            variants.iter().map(|variant| scope.spawn(|| tell(variant.rules, cases))).collect();
        telling.into_iter().map(|told| told.join().expect("a listing ends for all bytes")).collect()
    });
    let mut passed = 0;
    for (Variant { name, rules, .. }, told) in variants.iter().zip(told) {
        let Told { differing, clashing, shortest } = told;
        let Some(case) = shortest else {
            println!("{name}: NOT TOLD from the grid");
            continue;
        };
        passed += 1;
        let difference = first_difference(*rules, case);
        let label = &case.label;
        println!("{name}: {differing} differ, {clashing} clash; shortest: {label}: {difference}");
    }
    let mut tell = |name: &str, told: usize, what: &str| {
        if told == 0 {
            println!("{name}: NOT TOLD from the grid: no {what}");
            return;
        }
        passed += 1;
        println!("{name}: {told} {what}");
    };
    for Variant { name, rules, .. } in &accesses::ALL {
        tell(name, faulty_traces(*rules, &cases), "faulty traces");
    }
    let calls = call_cases::cases(seed);
    println!("{} calls on arbitrary memories, under the grid and under each variant", calls.len());
    let by_calls = variants::told_by_calls();
    for Variant { name, rules, .. } in &by_calls {
        tell(name, calls_told(*rules, &calls), "calls that differ");
    }
    let failed = variants.len() + accesses::ALL.len() + by_calls.len() - passed;
    let (told, not_told) = of_lines(seed, count);
    (passed + told, failed + not_told)
}

/// Prints one line a misreading of comma lines, with the conversions that differ, and answers how many
/// were told from the conversions and how many not.
pub fn of_lines(seed: u64, count: u64) -> (usize, usize) {
    let conversions = conversions(seed, count);
    println!("{} texts and files, under each misreading of comma lines", conversions.len());
    let misreadings = variants::lines::all();
    let differing: Vec<usize> = thread::scope(|scope| {
        let tell = |misreading: &Misreading| {
            let conversion = misreading.conversion;
            scope.spawn(|| conversions_told(conversion, &conversions))
        };
        let telling: Vec<_> = misreadings.iter().map(tell).collect();
        telling.into_iter().map(|told| told.join().expect("a conversion ends")).collect()
    });
    for (Misreading { name, .. }, differing) in misreadings.iter().zip(&differing) {
        match differing {
            0 => println!("{name}: NOT TOLD from the conversions"),
            _ => println!("{name}: {differing} conversions that differ"),
        }
    }
    let told = differing.iter().filter(|differing| **differing > 0).count();
    (told, misreadings.len() - told)
}
