//! The command `lines`: a program that converts, run on each generated text and file, must print the
//! same bytes, say the same refusal and end with the same status as the conversions here.

use super::{answer_word, due, fixed_cases, in_rooms, random_case, shown, ROOMS};
use crate::comparison::{self, same_lines, Counts, Input, Part};
use crate::generate::Case;
use crate::lines::{convert, Lines, AS_NEEDED};
use crate::program::{Printer, Program};

pub struct Plan {
    pub program: Program,
    /// Whether the program takes `--room N` and is run in small rooms too.
    pub rooms: bool,
    pub seed: u64,
    /// How many random cases are run; with no count, as many as the time allows.
    pub count: Option<u64>,
    pub seconds: Option<u64>,
}

/// A program that converts; what it prints is what a run of it shows.
struct Converter(Program);

impl Printer for Converter {
    fn print(&self, bytes: &[u8], piece: usize) -> Result<Vec<u8>, String> {
        let ran = self.0.run(bytes, piece)?;
        let said = String::from_utf8_lossy(&ran.said);
        Ok(shown(ran.status, &said, &ran.printed).into_bytes())
    }
}

/// Runs the plan and answers how many cases passed and how many failed.
pub fn run(plan: &Plan) -> (usize, usize) {
    let (mut passed, mut failed) = run_as_needed(plan);
    for room in ROOMS.filter(|_| plan.rooms) {
        let (same, different) = run_in_room(plan, room);
        passed += same;
        failed += different;
    }
    (passed, failed)
}

/// The fixed cases and the random ones, each in as much room as it needs.
fn run_as_needed(plan: &Plan) -> (usize, usize) {
    let fixed = fixed_cases();
    println!("seed {}: {} fixed cases, then random ones", plan.seed, fixed.len());
    let case_at = |index: usize| match index.checked_sub(fixed.len()) {
        None => Some(fixed[index].clone()),
        Some(random) => {
            let is_due = plan.count.is_none_or(|count| (random as u64) < count);
            is_due.then(|| random_case(plan.seed, random as u64))
        }
    };
    let input = |index| {
        let file = format!("seed-{}-convert-{index}", plan.seed);
        Some(input_of(index, case_at(index)?, AS_NEEDED, file))
    };
    let converter = Converter(plan.program.clone());
    comparison::run(&converter, plan.seconds, &input, &same_lines)
}

/// The small cases, each in a room of so many bytes.
fn run_in_room(plan: &Plan, room: usize) -> (usize, usize) {
    println!("in a room of {room} bytes");
    let mut program = plan.program.clone();
    program.arguments.extend(["--room".to_string(), room.to_string()]);
    let cases = in_rooms();
    let input = |index| {
        let file = format!("room-{room}-convert-{index}");
        Some(input_of(index, cases.get(index)?.clone(), room, file))
    };
    comparison::run(&Converter(program), None, &input, &same_lines)
}

fn input_of(index: usize, case: Case, room: usize, file: String) -> Input {
    let part = Part {
        label: format!("case {index}, {}", case.label),
        family: case.family().to_string(),
        due: due(&Lines, &case.bytes, room),
        answers: Counts::from([(answer_word(&convert(&Lines, &case.bytes, room)), 1)]),
    };
    Input { bytes: case.bytes, piece: case.piece, file, parts: vec![part] }
}
