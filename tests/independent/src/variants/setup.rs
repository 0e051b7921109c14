//! Misreadings of 02, P4: setup over a busy row.

use super::Variant;
use crate::calls::{first_out_of_range, test_rows, Answer, Memory};
use crate::grid::{Record, Settings, State};
use crate::refusal::{Refusal, Row};
use crate::rules::{Grid, Rules};

/// A setup that tests 1 and 2, is refused by 18 where one of the N records is such, and makes them
/// idle otherwise.
fn setup_unless(
    settings: Settings,
    memory: &mut Memory,
    such: impl Fn(&Record) -> bool,
) -> Result<Answer, Refusal> {
    let needed = test_rows(&Grid, settings, memory)?;
    if memory.records[..needed.records].iter().any(such) {
        return Err(Refusal::BusyRow);
    }
    memory.records[..needed.records].fill(Record::IDLE);
    memory.clear_registers(&needed);
    Ok(Answer::Done)
}

/// 01's setup: the records of others are made idle.
pub struct SetupNeverBusy;

impl Rules for SetupNeverBusy {
    fn setup(&self, settings: Settings, memory: &mut Memory) -> Result<Answer, Refusal> {
        setup_unless(settings, memory, |_| false)
    }
}

/// Only holders are busy.
pub struct SetupOverSeekers;

impl Rules for SetupOverSeekers {
    fn setup(&self, settings: Settings, memory: &mut Memory) -> Result<Answer, Refusal> {
        setup_unless(settings, memory, |record| matches!(record.state, State::Holding(_)))
    }
}

/// A record out of range is not busy.
pub struct SetupOverBadRecords;

impl Rules for SetupOverBadRecords {
    fn setup(&self, settings: Settings, memory: &mut Memory) -> Result<Answer, Refusal> {
        let busy = |record: &Record| *record != Record::IDLE && record.in_range(settings);
        setup_unless(settings, memory, busy)
    }
}

/// An idle task's figure is not looked at (02, P7).
pub struct SetupOverFigures;

impl Rules for SetupOverFigures {
    fn setup(&self, settings: Settings, memory: &mut Memory) -> Result<Answer, Refusal> {
        setup_unless(settings, memory, |record| record.state != State::Idle)
    }
}

/// A value out of range is refused by 3, as in the other calls.
pub struct SetupTests3;

impl Rules for SetupTests3 {
    fn setup(&self, settings: Settings, memory: &mut Memory) -> Result<Answer, Refusal> {
        let needed = test_rows(self, settings, memory)?;
        first_out_of_range(self, settings, &needed, memory)?;
        Grid.setup(settings, memory)
    }
}

/// A record out of range is refused by 3, X and marks may hold anything.
pub struct SetupTests3OfRecords;

impl Rules for SetupTests3OfRecords {
    fn setup(&self, settings: Settings, memory: &mut Memory) -> Result<Answer, Refusal> {
        let needed = test_rows(self, settings, memory)?;
        match first_out_of_range(self, settings, &needed, memory) {
            Err(Refusal::OutOfRange { row: Row::Records, index }) => {
                Err(Refusal::OutOfRange { row: Row::Records, index })
            }
            _ => Grid.setup(settings, memory),
        }
    }
}

/// The records past N count too.
pub struct SetupTestsSurplus;

impl Rules for SetupTestsSurplus {
    fn setup(&self, settings: Settings, memory: &mut Memory) -> Result<Answer, Refusal> {
        test_rows(self, settings, memory)?;
        if memory.records.iter().any(|record| *record != Record::IDLE) {
            return Err(Refusal::BusyRow);
        }
        Grid.setup(settings, memory)
    }
}

/// 18 is tested before 2.
pub struct SetupBusyFirst;

impl Rules for SetupBusyFirst {
    fn setup(&self, settings: Settings, memory: &mut Memory) -> Result<Answer, Refusal> {
        self.test_settings(settings)?;
        if memory.records.iter().take(settings.tasks()).any(|record| *record != Record::IDLE) {
            return Err(Refusal::BusyRow);
        }
        Grid.setup(settings, memory)
    }
}

/// X and marks are made 0 before the records are looked at.
pub struct SetupClearsFirst;

impl Rules for SetupClearsFirst {
    fn setup(&self, settings: Settings, memory: &mut Memory) -> Result<Answer, Refusal> {
        let needed = test_rows(self, settings, memory)?;
        memory.clear_registers(&needed);
        Grid.setup(settings, memory)
    }
}

pub const ALL: [Variant; 9] = [
    Variant::by_calls("setup-never-busy", &SetupNeverBusy),
    Variant::by_calls("setup-over-seekers", &SetupOverSeekers),
    Variant::by_calls("setup-over-bad-records", &SetupOverBadRecords),
    Variant::by_calls("setup-over-figures", &SetupOverFigures),
    Variant::by_calls("setup-tests-3", &SetupTests3),
    Variant::by_calls("setup-tests-3-of-records", &SetupTests3OfRecords),
    Variant::by_calls("setup-tests-surplus", &SetupTestsSurplus),
    Variant::by_calls("setup-busy-first", &SetupBusyFirst),
    Variant::by_calls("setup-clears-first", &SetupClearsFirst),
];
