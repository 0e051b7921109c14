//! The command `compare`: a program that prints listings, run on each generated case, must print
//! the same bytes as the listing here.

use crate::comparison::{self, same_lines, Counts, Input, Part};
use crate::generate::{fixed_cases, random_case, Case};
use crate::listing::listing;
use crate::program::Program;
use crate::rules::Grid;

pub struct Plan {
    pub program: Program,
    /// Whether the fixed cases are run, before the random ones.
    pub fixed: bool,
    pub seed: u64,
    /// How many random cases are run; with no count, as many as the time allows.
    pub count: Option<u64>,
    pub seconds: Option<u64>,
}

/// Runs the plan and answers how many cases passed and how many failed.
pub fn run(plan: &Plan) -> (usize, usize) {
    let fixed = if plan.fixed { fixed_cases() } else { Vec::new() };
    println!("seed {}: {} fixed cases, then random ones", plan.seed, fixed.len());
    let input = |index| {
        let case = case_at(plan, &fixed, index)?;
        Some(input_of(plan.seed, index, case))
    };
    comparison::run(&plan.program, plan.seconds, &input, &same_lines)
}

/// The case of an index, if one is due there.
fn case_at(plan: &Plan, fixed: &[Case], index: usize) -> Option<Case> {
    let Some(random) = index.checked_sub(fixed.len()) else {
        return Some(fixed[index].clone());
    };
    let random = random as u64;
    let is_due = plan.count.is_none_or(|count| random < count);
    is_due.then(|| random_case(plan.seed, random))
}

fn input_of(seed: u64, index: usize, case: Case) -> Input {
    let due = listing(&Grid, &case.bytes);
    let part = Part {
        label: format!("case {index}, {}", case.label),
        family: case.family().to_string(),
        answers: answers(&due),
        due,
    };
    let file = format!("seed-{seed}-case-{index}.grs");
    Input { bytes: case.bytes, piece: case.piece, file, parts: vec![part] }
}

/// How often each answer stands in a listing.
fn answers(text: &str) -> Counts {
    let mut counts = Counts::new();
    for line in text.lines() {
        let words: Vec<&str> = line.split(' ').collect();
        let answer = match words[..] {
            [_, _, _, "refused", number] => format!("refused {number}"),
            [_, "ask" | "turn" | "free", _, answer, ..] => answer.to_string(),
            ["refused", number] => format!("file refused {number}"),
            _ => continue,
        };
        *counts.entry(answer).or_default() += 1;
    }
    counts
}
