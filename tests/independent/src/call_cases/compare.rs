//! The command `calls PROGRAM`: a program that makes the calls, run on inputs full of cases, must
//! print the outcomes that 01 gives.

use std::sync::Mutex;

use super::binary::{pack, MOST_BYTES};
use super::{cases, CallCase};
use crate::comparison::{self, same_lines, Counts, Input, Part};
use crate::program::Program;
use crate::random::Random;

/// Every so many inputs one is handed over in pieces, as a program must read on to the end.
const IN_PIECES: usize = 5;
const PIECE: usize = 5_000;

pub struct Plan {
    pub program: Program,
    pub seed: u64,
    /// With a time, the cases of the seeds that follow are run too, as many as it allows.
    pub seconds: Option<u64>,
}

/// Runs the plan and answers how many cases passed and how many failed.
pub fn run(plan: &Plan) -> (usize, usize) {
    println!("seed {}", plan.seed);
    let rounds = if plan.seconds.is_some() { usize::MAX } else { 1 };
    let seeds = (plan.seed..=u64::MAX).take(rounds);
    let inputs = Mutex::new(seeds.flat_map(inputs));
    let input = |_| inputs.lock().expect("making cases does not fail").next();
    comparison::run(&plan.program, plan.seconds, &input, &same_lines)
}

/// The inputs of a seed. But for the first two cases, which fill one input, the cases are mixed, so
/// that a program meets large and small memories in turn.
pub fn inputs(seed: u64) -> Vec<Input> {
    let mut cases: Vec<(usize, CallCase)> = cases(seed).into_iter().enumerate().collect();
    Random::new(seed).shuffle(&mut cases[2..]);
    let mut inputs: Vec<Input> = Vec::new();
    for (number, case) in &cases {
        let bytes = pack(case);
        let fits = |input: &Input| input.bytes.len() + bytes.len() <= MOST_BYTES;
        if !inputs.last().is_some_and(fits) {
            inputs.push(empty_input(seed, inputs.len()));
        }
        let index = inputs.len() - 1;
        let input = &mut inputs[index];
        let at = format!("seed {seed} case {number}, byte {} of input {index}", input.bytes.len());
        input.parts.push(part_of(&at, case));
        input.bytes.extend(bytes);
    }
    inputs
}

fn empty_input(seed: u64, index: usize) -> Input {
    Input {
        bytes: Vec::new(),
        piece: if index % IN_PIECES == 1 { PIECE } else { 0 },
        file: format!("seed-{seed}-input-{index}.calls"),
        parts: Vec::new(),
    }
}

fn part_of(at: &str, case: &CallCase) -> Part {
    let (tries, settings, call) = (case.tries, case.settings_words(), case.call_words());
    Part {
        label: format!("{at}, {tries}, settings {settings}, call {call}"),
        family: tries.to_string(),
        due: case.outcome(),
        answers: Counts::from([(answer_word(case), 1)]),
    }
}

/// The answer without its name.
fn answer_word(case: &CallCase) -> String {
    match case.answer {
        Ok(answer) => answer.to_string().split(' ').next().unwrap_or("").to_string(),
        Err(refusal) => refusal.to_string(),
    }
}
