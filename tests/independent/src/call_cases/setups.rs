//! The family of setups: over idle rows and over busy ones.

use super::families::{Maker, ROWS};
use super::memories::{bad_records, places};
use super::Call;
use crate::calls::Memory;
use crate::grid::{Settings, State};
use crate::rules::Grid;

impl Maker {
    /// Idle rows, just long enough and longer; one busy record, first, last and anywhere; all busy.
    /// X and marks hold anything, in range or not.
    pub fn setups(&mut self, settings: Settings) {
        let mut memory = self.idle_tasks(settings);
        self.push("setup", settings, &memory, Call::Setup);
        for row in ROWS.into_iter().cycle().take(6) {
            self.lengthen(settings, &mut memory, row);
        }
        self.push("setup", settings, &memory, Call::Setup);
        for at in self.random.positions(settings.tasks()) {
            let holding = State::Holding(self.random.pick(&places(settings.k() - 1)));
            let holding = self.random.figured(settings, holding);
            let bad = self.random.pick(&bad_records(settings));
            let seeking = self.ready(settings, Call::Turn(at as u16));
            for record in [holding, bad].into_iter().chain(seeking) {
                let mut memory = self.idle_tasks(settings);
                memory.records[at] = record;
                self.push("setup", settings, &memory, Call::Setup);
            }
        }
        for record in &mut memory.records {
            *record = self.random.record(settings, 0);
        }
        self.push("setup", settings, &memory, Call::Setup);
    }

    /// Idle tasks with anything in X and marks.
    fn idle_tasks(&mut self, settings: Settings) -> Memory {
        let mut memory = Memory::idle(&Grid, settings);
        let n = u32::from(settings.n);
        for x in &mut memory.registers.x {
            *x = self.random.pick(&[0, 1, n, n + 1, u32::MAX]);
        }
        for mark in &mut memory.registers.marks {
            *mark = self.random.pick(&[0, 1, 2, 255]);
        }
        memory
    }
}
