//! Misreadings of 02, P7: the turns used, in the record.

use super::Variant;
use crate::calls::{first_out_of_range, Answer, Memory, Needed};
use crate::grid::{Identifier, Record, Settings, State};
use crate::refusal::Refusal;
use crate::rules::{Grid, Rules};
use crate::schedule::Kind;

/// The figure is kept over a release and a new ask, and so an idle record may have any.
struct FigureKept;

impl Rules for FigureKept {
    fn figure(&self, settings: Settings, kind: Kind, record: Record, accepted: bool) -> u32 {
        match kind {
            Kind::Ask | Kind::Free => record.figure,
            Kind::Turn => Grid.figure(settings, kind, record, accepted),
        }
    }

    fn figure_in_range(&self, settings: Settings, record: Record) -> bool {
        IdleWithFigure.figure_in_range(settings, record)
    }
}

/// A release leaves the figure.
struct FreedWithFigure;

impl Rules for FreedWithFigure {
    fn figure(&self, settings: Settings, kind: Kind, record: Record, accepted: bool) -> u32 {
        match kind {
            Kind::Free => record.figure,
            _ => Grid.figure(settings, kind, record, accepted),
        }
    }
}

/// Refused turns are counted too.
struct RefusedTurnsCounted;

impl Rules for RefusedTurnsCounted {
    fn figure(&self, settings: Settings, kind: Kind, record: Record, accepted: bool) -> u32 {
        Grid.figure(settings, kind, record, accepted || kind == Kind::Turn)
    }
}

/// The ask is counted as a turn.
struct AskCounted;

impl Rules for AskCounted {
    fn figure(&self, settings: Settings, kind: Kind, record: Record, accepted: bool) -> u32 {
        match kind {
            Kind::Ask if accepted => 1,
            _ => Grid.figure(settings, kind, record, accepted),
        }
    }
}

/// No turn is counted.
struct FigureNotStored;

impl Rules for FigureNotStored {
    fn figure(&self, settings: Settings, kind: Kind, record: Record, accepted: bool) -> u32 {
        match kind {
            Kind::Turn => record.figure,
            _ => Grid.figure(settings, kind, record, accepted),
        }
    }
}

/// A seeker's figure stays in its range.
struct FigureStopsInRange;

impl Rules for FigureStopsInRange {
    fn figure(&self, settings: Settings, kind: Kind, record: Record, accepted: bool) -> u32 {
        let figure = Grid.figure(settings, kind, record, accepted);
        match record.state {
            State::Seeking(..) => figure.min(settings.bound() as u32 - 1),
            _ => figure,
        }
    }
}

/// A seeker may have used as many turns as the bound.
struct SeekerAtBound;

impl Rules for SeekerAtBound {
    fn figure_in_range(&self, settings: Settings, record: Record) -> bool {
        match record.state {
            State::Seeking(..) => record.figure as usize <= settings.bound(),
            _ => Grid.figure_in_range(settings, record),
        }
    }
}

/// A holder has used fewer turns than the bound.
struct HolderBelowBound;

impl Rules for HolderBelowBound {
    fn figure_in_range(&self, settings: Settings, record: Record) -> bool {
        match record.state {
            State::Holding(_) => (record.figure as usize) < settings.bound(),
            _ => Grid.figure_in_range(settings, record),
        }
    }
}

/// An idle record may have any figure.
struct IdleWithFigure;

impl Rules for IdleWithFigure {
    fn figure_in_range(&self, settings: Settings, record: Record) -> bool {
        record.state == State::Idle || Grid.figure_in_range(settings, record)
    }
}

/// Of the figure only 16 bits are tested.
struct FigureIn16Bits;

impl Rules for FigureIn16Bits {
    fn figure_in_range(&self, settings: Settings, record: Record) -> bool {
        Grid.figure_in_range(settings, record.state.after(record.figure % 65_536))
    }
}

/// The memory with the figures of the records at these indices made 0.
fn without_figures(memory: &Memory, at: impl Fn(usize) -> bool) -> Memory {
    let mut memory = memory.clone();
    for (index, record) in memory.records.iter_mut().enumerate() {
        if at(index) {
            record.figure = 0;
        }
    }
    memory
}

/// Only the figure of the task that calls is tested.
struct OwnFigureTested;

impl Rules for OwnFigureTested {
    fn test_values(
        &self,
        settings: Settings,
        needed: &Needed,
        memory: &Memory,
        id: Identifier,
    ) -> Result<(), Refusal> {
        let own_only = without_figures(memory, |index| index != id.0 as usize);
        first_out_of_range(self, settings, needed, &own_only)
    }
}

/// The figures are tested after X and marks, as if they were a row of their own.
struct FiguresLast;

impl Rules for FiguresLast {
    fn test_values(
        &self,
        settings: Settings,
        needed: &Needed,
        memory: &Memory,
        _: Identifier,
    ) -> Result<(), Refusal> {
        // With the figure 0 a record is in range if its state is.
        first_out_of_range(self, settings, needed, &without_figures(memory, |_| true))?;
        first_out_of_range(self, settings, needed, memory)
    }
}

/// MOST counts seekers too.
struct MostOfSeekers;

impl Rules for MostOfSeekers {
    fn most(&self, most: u32, _: Answer, p: usize, tasks: &[Record]) -> u32 {
        most.max(tasks[p].figure)
    }
}

/// MOST is the greatest figure among the last records that hold.
struct MostOfLastRecords;

impl Rules for MostOfLastRecords {
    fn most(&self, _: u32, _: Answer, _: usize, tasks: &[Record]) -> u32 {
        let holds = |record: &&Record| matches!(record.state, State::Holding(_));
        tasks.iter().filter(holds).map(|record| record.figure).max().unwrap_or(0)
    }
}

pub const ALL: [Variant; 14] = [
    Variant::both("figure-kept", &FigureKept),
    Variant::both("freed-with-figure", &FreedWithFigure),
    Variant::both("refused-turns-counted", &RefusedTurnsCounted),
    Variant::both("ask-counted", &AskCounted),
    Variant::both("figure-not-stored", &FigureNotStored),
    Variant::by_calls("figure-stops-in-range", &FigureStopsInRange),
    Variant::by_calls("seeker-at-bound", &SeekerAtBound),
    Variant::both("holder-below-bound", &HolderBelowBound),
    Variant::by_calls("idle-with-figure", &IdleWithFigure),
    Variant::by_calls("figure-in-16-bits", &FigureIn16Bits),
    Variant::by_calls("own-figure-tested", &OwnFigureTested),
    Variant::by_calls("figures-last", &FiguresLast),
    Variant::by_schedules("most-of-seekers", &MostOfSeekers),
    Variant::by_schedules("most-of-last-records", &MostOfLastRecords),
];
