//! The families of calls with one fault or more: settings, lengths of rows, values, identifiers.

use std::ops::RangeInclusive;

use super::families::{all_calls, calls_of, Maker, ROWS};
use super::memories::bad_records;
use super::Call;
use crate::calls::{Memory, Needed};
use crate::grid::{Place, Record, Settings, State};
use crate::refusal::Row;
use crate::rules::{Grid, Rules};

const BAD_RECORD: Record = State::Holding(Place { r: 255, c: 255 }).after(0);

impl Maker {
    /// Each row one too short, and empty; also with a bad value, which comes second.
    pub fn short_rows(&mut self, settings: Settings) {
        let needed = Needed::new(&Grid, settings);
        for (row, length) in ROWS.into_iter().zip([needed.records, needed.x, needed.marks]) {
            let shorter = [length.saturating_sub(1), 0];
            for left in shorter.into_iter().filter(|left| *left < length) {
                let mut memory = self.random.memory(settings);
                memory.records[0] = BAD_RECORD;
                shorten(&mut memory, row, left);
                let p = self.random.task(settings);
                for call in all_calls(p) {
                    self.push("short row", settings, &memory, call);
                }
            }
        }
    }

    /// One row of every length, the others as needed.
    pub fn row_lengths(&mut self, settings: Settings, lengths: RangeInclusive<usize>) {
        for row in ROWS {
            for length in lengths.clone() {
                let mut memory = self.random.memory(settings);
                for _ in 0..length {
                    self.lengthen(settings, &mut memory, row);
                }
                shorten(&mut memory, row, length);
                let p = self.random.task(settings);
                let mut calls = all_calls(p).to_vec();
                if row != Row::Records {
                    self.random.shuffle(&mut calls);
                    calls.truncate(1);
                }
                for call in calls {
                    self.push("row length", settings, &memory, call);
                }
            }
        }
    }

    /// Each kind of bad value first, last and anywhere in its row, alone and before another.
    pub fn bad_values(&mut self, settings: Settings) {
        let needed = Needed::new(&Grid, settings);
        for record in bad_records(settings) {
            for at in self.random.positions(needed.records) {
                let mut memory = self.random.memory(settings);
                memory.records[at] = record;
                self.push_bad("bad record", settings, &memory);
            }
        }
        // Some of these would be in range in 16 bits.
        let n = u32::from(settings.n);
        for x in [n + 1, 512, 65_535, 65_536, 65_537, 65_536 + n, 1 << 31, u32::MAX] {
            for at in self.random.positions(needed.x) {
                let mut memory = self.random.memory(settings);
                memory.registers.x[at] = x;
                self.push_bad("bad X", settings, &memory);
            }
        }
        for mark in [2, 128, 255] {
            for at in self.random.positions(needed.marks) {
                let mut memory = self.random.memory(settings);
                memory.registers.marks[at] = mark;
                memory.registers.marks[needed.marks - 1] = mark;
                self.push_bad("bad mark", settings, &memory);
            }
        }
    }

    /// Bad values in two rows or three, in the later row at the smaller index.
    pub fn bad_rows(&mut self, settings: Settings) {
        let needed = Needed::new(&Grid, settings);
        if needed.x == 0 {
            return;
        }
        let bad = [[true, true, false], [true, false, true], [false, true, true], [true; 3]];
        for [records, x, marks] in bad {
            let mut memory = self.random.memory(settings);
            if records {
                memory.records[needed.records - 1] = BAD_RECORD;
            }
            if x {
                let at = if records { 0 } else { needed.x - 1 };
                memory.registers.x[at] = u32::from(settings.n) + 1;
            }
            if marks {
                memory.registers.marks[0] = 2;
            }
            self.push_bad("bad rows", settings, &memory);
        }
    }

    /// The first bad mark in a block that is not the first, with all after it bad.
    pub fn later_blocks(&mut self, settings: Settings) {
        let width = Grid.marks_in_block(settings);
        let later = settings.blocks().saturating_sub(1);
        for block in self.random.positions(later) {
            for place in self.random.positions(width) {
                let mut memory = self.random.memory(settings);
                memory.registers.marks[(block + 1) * width + place..].fill(2);
                self.push_bad("later block", settings, &memory);
            }
        }
    }

    /// One call by a task, one by an identifier beyond N, and now and then a setup.
    fn push_bad(&mut self, tries: &'static str, settings: Settings, memory: &Memory) {
        let p = self.random.task(settings);
        let beyond = settings.n;
        let calls = [calls_of(p), calls_of(beyond)].map(|calls| self.random.pick(&calls));
        for call in calls {
            self.push(tries, settings, memory, call);
        }
        if self.random.percent(10) {
            self.push(tries, settings, memory, Call::Setup);
        }
    }

    pub fn identifiers(&mut self, settings: Settings) {
        let n = settings.n;
        for id in [n - 1, n, n + 1, 256, 257, 32_768, 65_535] {
            let memory = self.random.memory(settings);
            for call in calls_of(id) {
                self.push("identifier", settings, &memory, call);
            }
        }
    }

    /// Settings outside the limits, on rows that would do for many others, and on empty ones.
    pub fn bad_settings(&mut self) {
        let bad = [
            (2, 3, 3),
            (255, 1, 1),
            (0, 0, 0),
            (1, 0, 1),
            (0, 1, 0),
            (1, 2, 3),
            (0, 15, 16),
            (1, 17, 17),
            (0, 256, 17),
            (1, 256, 255),
            (0, 257, 1),
            (1, 257, 16),
            (1, 512, 2),
            (1, 65_535, 16),
        ];
        let empty = Memory::idle(&Grid, Settings::new(0, 0, 0));
        let enough = self.random.memory(Settings::new(1, 6, 4));
        for (mode, n, k) in bad {
            let settings = Settings::new(mode, n, k);
            for memory in [&empty, &enough] {
                for call in all_calls(0) {
                    self.push("settings", settings, memory, call);
                }
            }
        }
    }

    /// Versions: 1 and 2, and others, some of which end in a byte of 1 or 2.
    pub fn versions(&mut self) {
        for version in [0, 1, 2, 3, 255, 256, 257, 258, 513, 65_535] {
            for mode in [0, 1] {
                let settings = Settings::new(mode, 3, 3).of_version(version);
                let memory = self.random.memory(settings);
                for call in all_calls(self.random.task(settings)) {
                    self.push("version", settings, &memory, call);
                }
            }
        }
    }
}

/// Cuts a row down to a length.
fn shorten(memory: &mut Memory, row: Row, length: usize) {
    match row {
        Row::Records => memory.records.truncate(length),
        Row::X => memory.registers.x.truncate(length),
        Row::Marks => memory.registers.marks.truncate(length),
    }
}
