//! The four calls of 01 on lent memory: their refusals, first number first, and their answers.

use std::fmt;

use crate::access::Access;
use crate::grid::{Identifier, Name, Place, Point, Record, Registers, Settings, State};
use crate::refusal::{Refusal, Row};
use crate::rules::Rules;
use crate::schedule::Kind;

/// The lent rows. They may be longer than needed, and may hold anything.
#[derive(Clone, PartialEq, Eq, Hash, Debug)]
pub struct Memory {
    pub records: Vec<Record>,
    pub registers: Registers,
}

/// How long the rows must be.
pub struct Needed {
    pub records: usize,
    pub x: usize,
    pub marks: usize,
}

impl Needed {
    pub fn new<R: Rules + ?Sized>(rules: &R, settings: Settings) -> Needed {
        Needed {
            records: settings.tasks(),
            x: settings.blocks(),
            marks: settings.blocks() * rules.marks_in_block(settings),
        }
    }

    /// The number of values that each call tests.
    pub fn values(&self) -> usize {
        self.records + self.x + self.marks
    }
}

impl Memory {
    /// Makes all needed X and marks 0.
    pub fn clear_registers(&mut self, needed: &Needed) {
        self.registers.x[..needed.x].fill(0);
        self.registers.marks[..needed.marks].fill(0);
    }

    /// Rows of just the needed length, as setup leaves them.
    pub fn idle(rules: &dyn Rules, settings: Settings) -> Memory {
        let needed = Needed::new(rules, settings);
        Memory {
            records: vec![Record::IDLE; needed.records],
            registers: Registers { x: vec![0; needed.x], marks: vec![0; needed.marks] },
        }
    }
}

/// Where an ask or a turn leaves its task.
#[derive(Clone, Copy, PartialEq, Eq, Debug)]
pub enum Stand {
    Seeks,
    Holds(Name),
}

/// What an accepted call answers. Of registers an ask and a setup say nothing (02, P6).
#[derive(Clone, Copy, PartialEq, Eq, Debug)]
pub enum Answer {
    /// Setup.
    Done,
    /// Ask.
    Asked(Stand),
    /// Turn, with its access.
    Turned(Stand, Access),
    /// Release, with its access if it made one.
    Freed(Name, Option<Access>),
}

impl Answer {
    /// Where an ask or a turn leaves its task.
    pub fn stand(self) -> Option<Stand> {
        match self {
            Answer::Asked(stand) | Answer::Turned(stand, _) => Some(stand),
            Answer::Done | Answer::Freed(..) => None,
        }
    }
}

impl fmt::Display for Stand {
    fn fmt(&self, text: &mut fmt::Formatter) -> fmt::Result {
        match self {
            Stand::Seeks => text.write_str("seeks"),
            Stand::Holds(name) => write!(text, "holds {}", name.0),
        }
    }
}

/// As the listing prints it.
impl fmt::Display for Answer {
    fn fmt(&self, text: &mut fmt::Formatter) -> fmt::Result {
        match self {
            Answer::Done => text.write_str("done"),
            Answer::Asked(stand) => write!(text, "{stand}"),
            Answer::Turned(stand, access) => write!(text, "{stand} {access}"),
            Answer::Freed(name, Some(access)) => write!(text, "freed {} {access}", name.0),
            Answer::Freed(name, None) => write!(text, "freed {} none", name.0),
        }
    }
}

/// Setup tests 1, 2 and 18.
pub fn setup(
    rules: &dyn Rules,
    settings: Settings,
    memory: &mut Memory,
) -> Result<Answer, Refusal> {
    rules.setup(settings, memory)
}

/// Ask, turn or release: tests 1 to 4, then those of its kind. The figure in the task's record follows.
pub fn call(
    rules: &dyn Rules,
    settings: Settings,
    kind: Kind,
    id: Identifier,
    memory: &mut Memory,
) -> Result<Answer, Refusal> {
    let p = test_task(rules, settings, id, memory)?;
    let answer = match kind {
        Kind::Ask => ask(rules, settings, p, memory),
        Kind::Turn => turn(rules, settings, p, memory),
        Kind::Free => release(rules, settings, p, memory),
    };
    memory.records[p].figure = rules.figure(settings, kind, memory.records[p], answer.is_ok());
    answer
}

/// Ask tests 16 and 17, then 7.
fn ask(
    rules: &dyn Rules,
    settings: Settings,
    p: usize,
    memory: &mut Memory,
) -> Result<Answer, Refusal> {
    rules.test_ask(settings, &memory.records[..settings.tasks()], p)?;
    let start = Place { r: 0, c: 0 };
    let next = if settings.k() == 1 {
        State::Holding(start)
    } else {
        State::Seeking(start, Point::WriteX)
    };
    memory.records[p].state = next;
    Ok(Answer::Asked(stand(rules, settings, next)))
}

/// Turn tests 15 and 17.
fn turn(
    rules: &dyn Rules,
    settings: Settings,
    p: usize,
    memory: &mut Memory,
) -> Result<Answer, Refusal> {
    let state = memory.records[p].state;
    let State::Seeking(place, point) = state else {
        return Err(rules.wrong_moment(Kind::Turn, state));
    };
    let (next, access) = rules.turn(settings, p, place, point, &mut memory.registers);
    memory.records[p].state = next;
    Ok(Answer::Turned(stand(rules, settings, next), access))
}

/// Release tests 5, 15 and 16.
fn release(
    rules: &dyn Rules,
    settings: Settings,
    p: usize,
    memory: &mut Memory,
) -> Result<Answer, Refusal> {
    if !settings.long_lived() {
        return Err(Refusal::OneTimeRelease);
    }
    let state = memory.records[p].state;
    let State::Holding(place) = state else {
        return Err(rules.wrong_moment(Kind::Free, state));
    };
    let access = rules.release(settings, p, place, &mut memory.registers);
    memory.records[p].state = State::Idle;
    Ok(Answer::Freed(rules.name(settings, place), access))
}

/// Where an ask or a turn leaves a task in this state.
fn stand(rules: &dyn Rules, settings: Settings, state: State) -> Stand {
    match state {
        State::Holding(place) => Stand::Holds(rules.name(settings, place)),
        _ => Stand::Seeks,
    }
}

/// Tests 1 and 2: the settings, then the lengths of the rows.
pub fn test_rows<R: Rules + ?Sized>(
    rules: &R,
    settings: Settings,
    memory: &Memory,
) -> Result<Needed, Refusal> {
    rules.test_settings(settings)?;
    let needed = Needed::new(rules, settings);
    if memory.records.len() < needed.records
        || memory.registers.x.len() < needed.x
        || memory.registers.marks.len() < needed.marks
    {
        return Err(Refusal::ShortRow);
    }
    Ok(needed)
}

/// Tests 1 to 4; an identifier that passes them is the index of a task.
fn test_task(
    rules: &dyn Rules,
    settings: Settings,
    id: Identifier,
    memory: &Memory,
) -> Result<usize, Refusal> {
    let needed = test_rows(rules, settings, memory)?;
    rules.test_values(settings, &needed, memory, id)?;
    let p = id.0 as usize;
    if p >= settings.tasks() {
        return Err(Refusal::Identifier);
    }
    Ok(p)
}

/// Test 3, refused at the first needed value out of range: records, then X, then marks block by block.
pub fn first_out_of_range<R: Rules + ?Sized>(
    rules: &R,
    settings: Settings,
    needed: &Needed,
    memory: &Memory,
) -> Result<(), Refusal> {
    let bad = |row, index| Err(Refusal::OutOfRange { row, index });
    for (index, record) in memory.records[..needed.records].iter().enumerate() {
        if !record.state.in_range(settings) || !rules.figure_in_range(settings, *record) {
            return bad(Row::Records, index);
        }
    }
    for (index, x) in memory.registers.x[..needed.x].iter().enumerate() {
        if *x > u32::from(settings.n) {
            return bad(Row::X, index);
        }
    }
    let width = rules.marks_in_block(settings);
    for (block, marks) in memory.registers.marks[..needed.marks].chunks(width).enumerate() {
        // All the bits of the block's marks together tell quickly that none is above 1.
        if marks.iter().fold(0, |bits, mark| bits | mark) > 1 {
            let place = marks.iter().take_while(|mark| **mark <= 1).count();
            return bad(Row::Marks, block * width + place);
        }
    }
    Ok(())
}
