//! The families of calls on longer rows: the surplus never changes and no answer depends on it.

use super::binary::{pack, MOST_BYTES};
use super::families::{all_calls, calls_of, Maker, ROWS};
use super::memories::bad_records;
use super::{Call, CallCase, MOST_MARKS, MOST_RECORDS, MOST_X};
use crate::calls::Memory;
use crate::grid::{Place, Point, Record, Settings, State};
use crate::refusal::Row;
use crate::rules::Grid;

impl Maker {
    /// Longer rows with anything in the surplus.
    pub fn surplus(&mut self, settings: Settings) {
        for _ in 0..3 {
            let mut memory = self.random.memory(settings);
            for row in ROWS {
                for _ in 0..self.random.between(1, 3) {
                    self.lengthen(settings, &mut memory, row);
                }
            }
            let p = self.random.task(settings);
            for call in calls_of(p).into_iter().chain(calls_of(settings.n)) {
                self.push("surplus", settings, &memory, call);
            }
            memory.records[..settings.tasks()].fill(Record::IDLE);
            self.push("surplus", settings, &memory, Call::Setup);
        }
    }

    /// Bad values in the surplus of one row, and a call that is accepted all the same.
    pub fn bad_surplus(&mut self, settings: Settings) {
        for row in ROWS {
            let p = self.random.task(settings);
            for call in all_calls(p) {
                let Some(record) = self.ready(settings, call) else {
                    continue;
                };
                let mut memory = self.random.memory(settings);
                memory.records.fill(Record::IDLE);
                memory.records[usize::from(p)] = record;
                match row {
                    Row::Records if memory.records.len() == MOST_RECORDS => continue,
                    Row::Records => {
                        memory.records.push(self.random.pick(&bad_records(settings)));
                    }
                    Row::X => memory.registers.x.extend([u32::from(settings.n) + 1, u32::MAX]),
                    Row::Marks => memory.registers.marks.extend([2, 255]),
                }
                self.push("bad surplus", settings, &memory, call);
            }
        }
    }

    /// One more element of any contents in a row, if it may be longer.
    pub fn lengthen(&mut self, settings: Settings, memory: &mut Memory, row: Row) {
        let (x, marks) = (&mut memory.registers.x, &mut memory.registers.marks);
        let beyond = u32::from(settings.n) + 1;
        match row {
            Row::Records if memory.records.len() < MOST_RECORDS => {
                let mut any = bad_records(settings);
                any.extend([Record::IDLE, State::Holding(Place { r: 0, c: 0 }).after(0)]);
                memory.records.push(self.random.pick(&any));
            }
            Row::X if x.len() < MOST_X => {
                x.push(self.random.pick(&[0, 1, beyond, 65_535, 65_537, u32::MAX]));
            }
            Row::Marks if marks.len() < MOST_MARKS => {
                marks.push(self.random.pick(&[0, 1, 2, 255]));
            }
            _ => {}
        }
    }

    /// Two cases that fill an input of just the greatest length, then the longest rows of all under
    /// settings that need few of their elements.
    pub fn greatest_rows(&mut self) {
        let settings = Settings::new(1, 256, 16);
        let mut memory = self.random.memory(settings);
        let scan = State::Seeking(Place { r: 14, c: 0 }, Point::Scan(255));
        memory.records[255] = self.random.figured(settings, scan);
        for _ in 0..17 {
            self.lengthen(settings, &mut memory, Row::Marks);
        }
        let turn = CallCase::new(&Grid, "greatest rows", settings, memory, Call::Turn(255));
        let left = MOST_BYTES - pack(&turn).len();
        self.cases.push(turn);

        let settings = Settings::new(1, 256, 15);
        let mut memory = Memory::idle(&Grid, settings);
        memory.registers = self.random.memory(settings).registers;
        let setup = CallCase::new(&Grid, "", settings, memory.clone(), Call::Setup);
        for _ in pack(&setup).len()..left {
            self.lengthen(settings, &mut memory, Row::Marks);
        }
        self.push("greatest rows", settings, &memory, Call::Setup);

        for settings in [Settings::new(0, 1, 1), Settings::new(1, 2, 2)] {
            let mut memory = self.random.memory(settings);
            for (row, most) in ROWS.into_iter().zip([MOST_RECORDS, MOST_X, MOST_MARKS]) {
                for _ in 0..most {
                    self.lengthen(settings, &mut memory, row);
                }
            }
            for call in all_calls(0) {
                self.push("greatest rows", settings, &memory, call);
            }
        }
    }
}
