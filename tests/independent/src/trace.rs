//! The command `trace`: what a listing shows of its turns and releases is all that happens to the
//! registers (02, P6). From the first line and the accesses alone X and marks are built again: a
//! write sets its register, and a read must show what was written last. After every event they must
//! be those of the run here.

use crate::access::{Access, Operation, Register};
use crate::comparison::{self, Input};
use crate::event_line;
use crate::generate::schedules;
use crate::grid::Registers;
use crate::history::History;
use crate::program::Printer;
use crate::rules::Grid;
use crate::schedule::read_all;

/// Traces what is printed of the schedules of a seed, and answers how many passed and how many failed.
pub fn run(printer: &dyn Printer, seed: u64, count: u64) -> (usize, usize) {
    let cases = schedules(seed, count);
    println!("seed {seed}: {} schedules", cases.len());
    let input = |index| cases.get(index).map(|case| Input::of_schedule("trace", index, case));
    let judge = |input: &Input, printed: &[u8]| vec![fault(&input.bytes, printed)];
    comparison::run(printer, None, &input, &judge)
}

/// What is wrong with the accesses in a printed listing of a schedule's file, if something is.
pub fn fault(file: &[u8], printed: &[u8]) -> Option<String> {
    follow(file, printed).err()
}

fn follow(file: &[u8], printed: &[u8]) -> Result<(), String> {
    let (settings, events) = read_all(file).map_err(|refusal| refusal.to_string())?;
    let mut history = History::new(&Grid, settings).map_err(|refusal| refusal.to_string())?;
    let text = std::str::from_utf8(printed).map_err(|error| error.to_string())?;
    let mut lines = text.lines();
    let mut board = lines.next().and_then(Board::new).ok_or("no first line")?;
    for event in events {
        let line = lines.next().ok_or("too few lines")?;
        let read = event_line::read(line).ok_or(format!("no line of an event: {line:?}"))?;
        if let Some(access) = read.access {
            board.make(access).ok_or(format!("no such access: {line:?}"))?;
        }
        // Refused or not, the call is part of the schedule.
        let _ = history.call(event);
        if board.registers != history.memory.registers {
            return Err(format!("other registers after {line:?}"));
        }
    }
    let end = lines.next().is_some_and(|line| line.starts_with("end ")) && lines.next().is_none();
    end.then_some(()).ok_or("no end line, or more after it".to_string())
}

/// The registers as a listing tells them.
struct Board {
    marks_in_block: usize,
    registers: Registers,
}

impl Board {
    /// All 0, as many as the first line says.
    fn new(line: &str) -> Option<Board> {
        let words: Vec<&str> = line.split(' ').collect();
        let ["grid", mode, n, k] = words[..] else {
            return None;
        };
        let (n, k): (usize, usize) = (n.parse().ok()?, k.parse().ok()?);
        let marks_in_block = if mode == "1" { n } else { 1 };
        let blocks = k * k.checked_sub(1)? / 2;
        let registers = Registers { x: vec![0; blocks], marks: vec![0; blocks * marks_in_block] };
        Some(Board { marks_in_block, registers })
    }

    /// Makes an access that is shown, if there is such a register and a read shows its value.
    fn make(&mut self, access: Access) -> Option<()> {
        let Access { operation, register, block, place, value } = access;
        match register {
            Register::X => {
                let x = self.registers.x.get_mut(block).filter(|_| place == 0)?;
                make_on(x, operation, value)
            }
            Register::Mark => {
                let index = block * self.marks_in_block + place;
                let in_block = place < self.marks_in_block;
                let mark = self.registers.marks.get_mut(index).filter(|_| in_block)?;
                make_on(mark, operation, u8::try_from(value).ok()?)
            }
        }
    }
}

fn make_on<T: PartialEq>(register: &mut T, operation: Operation, value: T) -> Option<()> {
    match operation {
        Operation::Read => (*register == value).then_some(()),
        Operation::Write => {
            *register = value;
            Some(())
        }
    }
}
