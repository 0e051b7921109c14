//! 01, "Rules of the grid", with the requests of 02: what an accepted call does, and those tests that
//! are easily misread.

use crate::access::{Access, Operation, Register};
use crate::calls::{first_out_of_range, test_rows, Answer, Memory, Needed, Stand};
use crate::grid::{
    x_of, Direction, Identifier, Name, Out, Place, Point, Record, Registers, Settings, State,
};
use crate::refusal::Refusal;
use crate::schedule::Kind;

/// The rules of the grid. What stands here is the grid itself; each of the variants puts its own
/// rule in place of one of these.
pub trait Rules: Sync {
    /// How many marks a block has.
    fn marks_in_block(&self, settings: Settings) -> usize {
        if settings.long_lived() {
            settings.tasks()
        } else {
            1
        }
    }

    /// The place of the task's mark among those of a block, or of its one mark.
    fn mark_place(&self, settings: Settings, task: usize) -> usize {
        if settings.long_lived() {
            task
        } else {
            0
        }
    }

    /// The index of the block's mark of the task, or of its one mark.
    fn mark(&self, settings: Settings, block: usize, task: usize) -> usize {
        block * self.marks_in_block(settings) + self.mark_place(settings, task)
    }

    /// Reads the block's mark of the task, or its one mark.
    fn read_mark(
        &self,
        settings: Settings,
        registers: &Registers,
        block: usize,
        task: usize,
    ) -> Access {
        let place = self.mark_place(settings, task);
        let value = u32::from(registers.marks[self.mark(settings, block, task)]);
        Access { operation: Operation::Read, register: Register::Mark, block, place, value }
    }

    /// Writes the block's mark of the task, or its one mark.
    fn write_mark(
        &self,
        settings: Settings,
        registers: &mut Registers,
        block: usize,
        task: usize,
        mark: u8,
    ) -> Access {
        let place = self.mark_place(settings, task);
        registers.marks[self.mark(settings, block, task)] = mark;
        let value = u32::from(mark);
        Access { operation: Operation::Write, register: Register::Mark, block, place, value }
    }

    /// Test 1.
    fn test_settings(&self, settings: Settings) -> Result<(), Refusal> {
        if settings.allowed() {
            Ok(())
        } else {
            Err(Refusal::Settings)
        }
    }

    fn name(&self, settings: Settings, place: Place) -> Name {
        settings.name(place)
    }

    /// Whether a task in this state counts against k.
    fn counts(&self, state: State) -> bool {
        state != State::Idle
    }

    /// Setup: tests 1 and 2, then 18 (02, P4). The records are idle already, and none is written. One
    /// that has a figure is out of range, so other than idle.
    fn setup(&self, settings: Settings, memory: &mut Memory) -> Result<Answer, Refusal> {
        let needed = test_rows(self, settings, memory)?;
        if memory.records[..needed.records].iter().any(|record| *record != Record::IDLE) {
            return Err(Refusal::BusyRow);
        }
        memory.clear_registers(&needed);
        Ok(Answer::Done)
    }

    /// 02, P1: the refusal of a call that the task's state does not allow.
    fn wrong_moment(&self, _: Kind, state: State) -> Refusal {
        match state {
            State::Idle => Refusal::TaskIdle,
            State::Seeking(..) => Refusal::TaskSeeking,
            State::Holding(_) => Refusal::TaskHolding,
        }
    }

    /// Task p asks: tests 16 and 17, then 7.
    fn test_ask(&self, settings: Settings, tasks: &[Record], p: usize) -> Result<(), Refusal> {
        self.test_idle(tasks[p].state)?;
        self.test_room(settings, tasks)
    }

    /// Tests 16 and 17 of an ask.
    fn test_idle(&self, state: State) -> Result<(), Refusal> {
        match state {
            State::Idle => Ok(()),
            _ => Err(self.wrong_moment(Kind::Ask, state)),
        }
    }

    /// Test 7: k or more tasks are out.
    fn test_room(&self, settings: Settings, tasks: &[Record]) -> Result<(), Refusal> {
        let out = tasks.iter().filter(|record| self.counts(record.state)).count();
        if out < settings.k() {
            Ok(())
        } else {
            Err(Refusal::TooManyOut)
        }
    }

    /// 02, P2: PEAK after an event is the greatest number out after any event up to it. Given are
    /// PEAK before the event and the tasks out before and after it.
    fn peak(&self, peak: usize, _: Out, after: Out) -> usize {
        peak.max(after.all())
    }

    /// 02, P7: the figure of a task after its call of a kind, accepted or refused. Given is its record
    /// with the state after the call and the figure before it.
    fn figure(&self, _: Settings, kind: Kind, record: Record, accepted: bool) -> u32 {
        match kind {
            _ if !accepted => record.figure,
            Kind::Ask | Kind::Free => 0,
            // A figure in range is far below the largest 32-bit value.
            Kind::Turn => record.figure + 1,
        }
    }

    fn figure_in_range(&self, settings: Settings, record: Record) -> bool {
        record.figure_in_range(settings)
    }

    /// 02, P7: MOST is the greatest figure of a task at the moment when it takes a name. Given are MOST
    /// before an accepted call of task p, its answer, and the records after it.
    fn most(&self, most: u32, answer: Answer, p: usize, tasks: &[Record]) -> u32 {
        match answer.stand() {
            Some(Stand::Holds(_)) => most.max(tasks[p].figure),
            _ => most,
        }
    }

    /// Test 3 of a call by this identifier.
    fn test_values(
        &self,
        settings: Settings,
        needed: &Needed,
        memory: &Memory,
        _: Identifier,
    ) -> Result<(), Refusal> {
        first_out_of_range(self, settings, needed, memory)
    }

    /// A turn of the seeking task p that stands at this place and point: the next state, and the
    /// access that was made.
    fn turn(
        &self,
        settings: Settings,
        p: usize,
        place: Place,
        point: Point,
        registers: &mut Registers,
    ) -> (State, Access) {
        grid_turn(self, settings, p, place, point, registers)
    }

    /// The release of task p from a place: the access that was made, which is none on the edge.
    fn release(
        &self,
        settings: Settings,
        p: usize,
        place: Place,
        registers: &mut Registers,
    ) -> Option<Access> {
        let clear = || self.write_mark(settings, registers, settings.block(place), p, 0);
        settings.is_block(place).then(clear)
    }
}

/// The turn of the grid: exactly one access.
pub fn grid_turn<R: Rules + ?Sized>(
    rules: &R,
    settings: Settings,
    p: usize,
    place: Place,
    point: Point,
    registers: &mut Registers,
) -> (State, Access) {
    let block = settings.block(place);
    match point {
        Point::WriteX => {
            let access = Access::write_x(registers, block, x_of(p));
            (State::Seeking(place, Point::Scan(0)), access)
        }
        Point::Scan(h) => {
            let access = rules.read_mark(settings, registers, block, usize::from(h));
            let next = if access.value == 1 {
                leave(settings, place, Direction::Right)
            } else if settings.long_lived() && h + 1 < settings.n {
                State::Seeking(place, Point::Scan(h + 1))
            } else {
                State::Seeking(place, Point::WriteMark)
            };
            (next, access)
        }
        Point::WriteMark => {
            let access = rules.write_mark(settings, registers, block, p, 1);
            (State::Seeking(place, Point::ReadX), access)
        }
        Point::ReadX => {
            let access = Access::read_x(registers, block);
            let next = if access.value == x_of(p) {
                State::Holding(place)
            } else {
                leave(settings, place, Direction::Down)
            };
            (next, access)
        }
        Point::Clear(direction) => {
            let access = rules.write_mark(settings, registers, block, p, 0);
            (moved(settings, place, direction), access)
        }
    }
}

/// Leaving a block: long-lived, the mark is cleared first; one-time, the move is made at once.
pub fn leave(settings: Settings, place: Place, direction: Direction) -> State {
    if settings.long_lived() {
        State::Seeking(place, Point::Clear(direction))
    } else {
        moved(settings, place, direction)
    }
}

/// A move: on the edge the task holds the place in the same turn, else it stands at write X.
pub fn moved(settings: Settings, place: Place, direction: Direction) -> State {
    let place = match direction {
        Direction::Right => Place { r: place.r, c: place.c + 1 },
        Direction::Down => Place { r: place.r + 1, c: place.c },
    };
    if settings.is_block(place) {
        State::Seeking(place, Point::WriteX)
    } else {
        State::Holding(place)
    }
}

/// The grid of 01.
pub struct Grid;

impl Rules for Grid {}
