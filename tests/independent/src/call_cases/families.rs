//! The families of calls on memories in range, in rows of just the needed length: what each tries.

use super::memories::{blocks, places};
use super::{Call, CallCase};
use crate::calls::Memory;
use crate::grid::{x_of, Direction, Place, Point, Record, Settings, State};
use crate::random::Random;
use crate::refusal::Row;
use crate::rules::{Grid, Rules};

pub struct Maker {
    pub random: Random,
    pub cases: Vec<CallCase>,
}

pub const ROWS: [Row; 3] = [Row::Records, Row::X, Row::Marks];

/// Calls of every kind by a task.
pub fn calls_of(id: u16) -> [Call; 3] {
    [Call::Ask(id), Call::Turn(id), Call::Release(id)]
}

/// The same and a setup.
pub fn all_calls(id: u16) -> [Call; 4] {
    [Call::Ask(id), Call::Turn(id), Call::Release(id), Call::Setup]
}

impl Maker {
    pub fn new(seed: u64) -> Maker {
        let random = Random::new(seed);
        Maker { random, cases: Vec::new() }
    }

    pub fn push(&mut self, tries: &'static str, settings: Settings, before: &Memory, call: Call) {
        self.cases.push(CallCase::new(&Grid, tries, settings, before.clone(), call));
    }

    /// The families that settings in the limits have; some stand in the files beside this one.
    pub fn every_family(&mut self, settings: Settings) {
        self.points(settings);
        self.own_x(settings);
        self.own_marks(settings);
        self.holders(settings);
        self.edge_holders(settings);
        self.names(settings);
        self.moments(settings);
        self.figures(settings);
        self.carried_figures(settings);
        self.asks(settings);
        self.many_out(settings);
        self.greatest_values(settings);
        self.surplus(settings);
        self.bad_surplus(settings);
        self.short_rows(settings);
        self.bad_values(settings);
        self.bad_rows(settings);
        self.later_blocks(settings);
        self.identifiers(settings);
        self.setups(settings);
    }

    /// Every point in some blocks: with registers as they come, and with the one that is touched
    /// unlike all the others.
    fn points(&mut self, settings: Settings) {
        let mut blocks = blocks(settings);
        self.random.shuffle(&mut blocks);
        blocks.truncate(6);
        for place in blocks {
            let p = self.random.task(settings);
            for point in self.random.points_of(settings, p) {
                let mut memory = self.random.memory(settings);
                memory.records[usize::from(p)] =
                    self.random.figured(settings, State::Seeking(place, point));
                self.push("point", settings, &memory, Call::Turn(p));
                for value in [0, 1] {
                    self.touch("point", settings, &mut memory, p, value);
                }
            }
        }
    }

    /// Turns in every block, each with the one register that it touches unlike all the others.
    pub fn every_block(&mut self, settings: Settings) {
        let clears = [Direction::Right, Direction::Down].map(Point::Clear);
        for place in blocks(settings) {
            let p = self.random.task(settings);
            let points = if settings.long_lived() {
                vec![Point::WriteMark, clears[0], clears[1]]
            } else {
                vec![Point::WriteX, Point::Scan(0), Point::WriteMark, Point::ReadX]
            };
            for point in points {
                let mut memory = self.random.memory(settings);
                memory.records[usize::from(p)] =
                    self.random.figured(settings, State::Seeking(place, point));
                let value = self.random.pick(&[0, 1]);
                self.touch("every block", settings, &mut memory, p, value);
            }
        }
    }

    /// A turn of the seeking task p with the one register of each row that it may touch unlike all
    /// the others, so that a turn that touches another is seen.
    fn touch(
        &mut self,
        tries: &'static str,
        settings: Settings,
        memory: &mut Memory,
        p: u16,
        value: u8,
    ) {
        let State::Seeking(place, point) = memory.records[usize::from(p)].state else {
            return;
        };
        let block = settings.block(place);
        let touched = match point {
            Point::Scan(h) => usize::from(h),
            _ => usize::from(p),
        };
        let own = x_of(usize::from(p));
        memory.registers.x.fill(own * u32::from(1 - value));
        memory.registers.x[block] = own * u32::from(value);
        memory.registers.marks.fill(1 - value);
        memory.registers.marks[Grid.mark(settings, block, touched)] = value;
        self.push(tries, settings, memory, Call::Turn(p));
    }

    /// The X of the first, the last and any task: written, and read where it is the task's own, that
    /// of the task before or after, or nobody's. The last task's of 256 is 0 in 8 bits.
    fn own_x(&mut self, settings: Settings) {
        let blocks = blocks(settings);
        if blocks.is_empty() {
            return;
        }
        for p in self.random.positions(settings.tasks()) {
            let place = self.random.pick(&blocks);
            let mut memory = self.random.memory(settings);
            memory.records[p] = self.random.figured(settings, State::Seeking(place, Point::WriteX));
            self.push("own X", settings, &memory, Call::Turn(p as u16));
            memory.records[p] = self.random.figured(settings, State::Seeking(place, Point::ReadX));
            let own = x_of(p);
            let near = [0, own - 1, own, own + 1];
            for x in near.into_iter().filter(|x| *x <= u32::from(settings.n)) {
                memory.registers.x[settings.block(place)] = x;
                self.push("own X", settings, &memory, Call::Turn(p as u16));
            }
        }
    }

    /// The own mark of the first, the last and any task, long-lived: scanned as any other, so that
    /// the task goes right if it is 1; then written, cleared and released.
    fn own_marks(&mut self, settings: Settings) {
        let blocks = blocks(settings);
        if blocks.is_empty() || !settings.long_lived() {
            return;
        }
        let clears = [Direction::Right, Direction::Down].map(Point::Clear);
        for p in self.random.positions(settings.tasks()) {
            let place = self.random.pick(&blocks);
            let task = p as u16;
            let mut memory = self.random.memory(settings);
            memory.records[p] =
                self.random.figured(settings, State::Seeking(place, Point::Scan(task)));
            for (own, others) in [(1, 0), (1, 1), (0, 1)] {
                memory.registers.marks.fill(others);
                memory.registers.marks[Grid.mark(settings, settings.block(place), p)] = own;
                self.push("own mark", settings, &memory, Call::Turn(task));
            }
            for (point, value) in [(Point::WriteMark, 0), (clears[0], 1), (clears[1], 1)] {
                memory.records[p] = self.random.figured(settings, State::Seeking(place, point));
                self.touch("own mark", settings, &mut memory, task, value);
            }
            memory.records[p] = self.random.figured(settings, State::Holding(place));
            memory.registers.marks.fill(1);
            self.push("own mark", settings, &memory, Call::Release(task));
        }
    }

    /// Every value the greatest in its range.
    fn greatest_values(&mut self, settings: Settings) {
        let mut memory = Memory::idle(&Grid, settings);
        let edge = settings.k - 1;
        let bound = settings.bound() as u32;
        memory.records.fill(State::Holding(Place { r: edge, c: 0 }).after(bound));
        memory.registers.x.fill(u32::from(settings.n));
        memory.registers.marks.fill(1);
        let p = settings.n - 1;
        self.push("greatest values", settings, &memory, Call::Release(p));
        let scan = Point::Scan(if settings.long_lived() { p } else { 0 });
        for point in [scan, Point::ReadX] {
            if edge > 0 {
                let state = State::Seeking(Place { r: edge - 1, c: 0 }, point);
                memory.records[usize::from(p)] = state.after(bound - 1);
                self.push("greatest values", settings, &memory, Call::Turn(p));
            }
        }
    }

    /// A record on which the call is accepted, if there is one.
    pub fn ready(&mut self, settings: Settings, call: Call) -> Option<Record> {
        let blocks = blocks(settings);
        let state = match call {
            Call::Setup | Call::Ask(_) => State::Idle,
            Call::Turn(_) if blocks.is_empty() => return None,
            Call::Turn(p) => {
                let points = self.random.points_of(settings, p);
                State::Seeking(self.random.pick(&blocks), self.random.pick(&points))
            }
            Call::Release(_) if !settings.long_lived() => return None,
            Call::Release(_) => State::Holding(self.random.pick(&places(settings.k() - 1))),
        };
        Some(self.random.figured(settings, state))
    }

    /// Any memory in range, any call, run on for some calls.
    pub fn anything(&mut self, settings: Settings, count: usize) {
        for _ in 0..count {
            let mut memory = self.random.memory(settings);
            for _ in 0..3 {
                let p = self.random.task(settings);
                let call = match memory.records[usize::from(p)].state {
                    _ if self.random.percent(10) => self.random.pick(&calls_of(p)),
                    State::Idle => Call::Ask(p),
                    State::Seeking(..) => Call::Turn(p),
                    State::Holding(_) => Call::Release(p),
                };
                self.push("anything", settings, &memory, call);
                memory = self.cases[self.cases.len() - 1].after.clone();
            }
        }
    }
}
