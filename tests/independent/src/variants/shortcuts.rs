//! 01, "Shortcuts that look right".

use super::Variant;
use crate::access::Access;
use crate::grid::{x_of, Direction, Name, Place, Point, Registers, Settings, State};
use crate::rules::{grid_turn, leave, moved, Grid, Rules};

/// One shared mark per block in mode 1. A task going right has not set it: it reads it once more, and
/// leaves it as it is.
pub struct SharedMark;

impl Rules for SharedMark {
    fn marks_in_block(&self, _: Settings) -> usize {
        1
    }

    fn mark_place(&self, _: Settings, _: usize) -> usize {
        0
    }

    fn turn(
        &self,
        settings: Settings,
        p: usize,
        place: Place,
        point: Point,
        registers: &mut Registers,
    ) -> (State, Access) {
        match point {
            Point::Clear(Direction::Right) => {
                let access = self.read_mark(settings, registers, settings.block(place), p);
                (moved(settings, place, Direction::Right), access)
            }
            _ => grid_turn(self, settings, p, place, point, registers),
        }
    }
}

/// Clearing every mark of the block on release.
pub struct ClearEveryMark;

impl Rules for ClearEveryMark {
    fn release(
        &self,
        settings: Settings,
        p: usize,
        place: Place,
        registers: &mut Registers,
    ) -> Option<Access> {
        if settings.is_block(place) {
            let width = self.marks_in_block(settings);
            let first = settings.block(place) * width;
            registers.marks[first..first + width].fill(0);
        }
        Grid.release(settings, p, place, registers)
    }
}

/// Counting only holders against k.
pub struct CountHolders;

impl Rules for CountHolders {
    fn counts(&self, state: State) -> bool {
        matches!(state, State::Holding(_))
    }
}

/// Doing the scan as one turn.
pub struct ScanAtOnce;

impl Rules for ScanAtOnce {
    fn turn(
        &self,
        settings: Settings,
        p: usize,
        place: Place,
        point: Point,
        registers: &mut Registers,
    ) -> (State, Access) {
        let mut turned = grid_turn(self, settings, p, place, point, registers);
        if let Point::Scan(_) = point {
            while let (State::Seeking(place, Point::Scan(h)), _) = turned {
                turned = grid_turn(self, settings, p, place, Point::Scan(h), registers);
            }
        }
        turned
    }
}

/// Testing X before setting the mark: a task that reads its own X sets its mark and holds.
pub struct TestXFirst;

impl Rules for TestXFirst {
    fn turn(
        &self,
        settings: Settings,
        p: usize,
        place: Place,
        point: Point,
        registers: &mut Registers,
    ) -> (State, Access) {
        match point {
            Point::Scan(_) => match grid_turn(self, settings, p, place, point, registers) {
                (State::Seeking(place, Point::WriteMark), access) => {
                    (State::Seeking(place, Point::ReadX), access)
                }
                turned => turned,
            },
            Point::ReadX => {
                let access = Access::read_x(registers, settings.block(place));
                let next = if access.value == x_of(p) {
                    State::Seeking(place, Point::WriteMark)
                } else {
                    leave(settings, place, Direction::Down)
                };
                (next, access)
            }
            Point::WriteMark => {
                let access = self.write_mark(settings, registers, settings.block(place), p, 1);
                (State::Holding(place), access)
            }
            _ => grid_turn(self, settings, p, place, point, registers),
        }
    }
}

/// Numbering names with the block formula.
pub struct BlockNames;

impl Rules for BlockNames {
    fn name(&self, settings: Settings, place: Place) -> Name {
        Name(settings.block(place) as u32)
    }
}

/// The shortcuts by name.
pub const ALL: [Variant; 6] = [
    Variant::both("shared-mark", &SharedMark),
    Variant::both("clear-every-mark", &ClearEveryMark),
    Variant::both("count-holders", &CountHolders),
    Variant::both("scan-at-once", &ScanAtOnce),
    Variant::both("test-x-first", &TestXFirst),
    Variant::both("block-names", &BlockNames),
];
