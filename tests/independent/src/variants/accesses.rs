//! Misreadings of 02, P6: the grid, with another access shown than the one that is made.

use super::Variant;
use crate::access::{Access, Operation, Register};
use crate::grid::{x_of, Place, Point, Registers, Settings, State};
use crate::rules::{Grid, Rules};

/// Who makes an access, and on which registers.
struct Made<'a> {
    settings: Settings,
    p: usize,
    place: Place,
    before: &'a Registers,
}

/// The grid, with each access shown by a wrong rule.
struct Shown(fn(&Made, Access) -> Access);

impl Rules for Shown {
    fn turn(
        &self,
        settings: Settings,
        p: usize,
        place: Place,
        point: Point,
        registers: &mut Registers,
    ) -> (State, Access) {
        let before = registers.clone();
        let (next, access) = Grid.turn(settings, p, place, point, registers);
        (next, self.0(&Made { settings, p, place, before: &before }, access))
    }

    fn release(
        &self,
        settings: Settings,
        p: usize,
        place: Place,
        registers: &mut Registers,
    ) -> Option<Access> {
        let before = registers.clone();
        let access = Grid.release(settings, p, place, registers);
        access.map(|access| self.0(&Made { settings, p, place, before: &before }, access))
    }
}

/// A write shows what it overwrites.
fn value_before(made: &Made, access: Access) -> Access {
    let value = match access.register {
        Register::X => made.before.x[access.block],
        Register::Mark => {
            let width = Grid.marks_in_block(made.settings);
            u32::from(made.before.marks[access.block * width + access.place])
        }
    };
    Access { value, ..access }
}

/// The place of the task for the one-time mark.
fn one_time_place(made: &Made, access: Access) -> Access {
    match access.register {
        Register::Mark if !made.settings.long_lived() => Access { place: made.p, ..access },
        _ => access,
    }
}

/// The own place for every mark, also where another is scanned.
fn own_place(made: &Made, access: Access) -> Access {
    match access.register {
        Register::Mark => Access { place: Grid.mark_place(made.settings, made.p), ..access },
        Register::X => access,
    }
}

/// The mark's index in the lent row for its place in the block.
fn place_in_row(made: &Made, access: Access) -> Access {
    match access.register {
        Register::Mark => {
            let width = Grid.marks_in_block(made.settings);
            Access { place: access.block * width + access.place, ..access }
        }
        Register::X => access,
    }
}

/// A read for every access.
fn all_reads(_: &Made, access: Access) -> Access {
    Access { operation: Operation::Read, ..access }
}

/// The task for its X: p for p+1.
fn x_as_task(made: &Made, access: Access) -> Access {
    match access.register {
        Register::X if access.value == x_of(made.p) => Access { value: made.p as u32, ..access },
        _ => access,
    }
}

/// The name at the place for the number of its block.
fn block_as_name(made: &Made, access: Access) -> Access {
    Access { block: made.settings.name(made.place).0 as usize, ..access }
}

/// A release that shows `none` wherever it is made.
struct NoneOnRelease;

impl Rules for NoneOnRelease {
    fn release(
        &self,
        settings: Settings,
        p: usize,
        place: Place,
        registers: &mut Registers,
    ) -> Option<Access> {
        Grid.release(settings, p, place, registers);
        None
    }
}

/// A turn that shows the access of the next one, if the task still seeks.
struct NextAccess;

impl Rules for NextAccess {
    fn turn(
        &self,
        settings: Settings,
        p: usize,
        place: Place,
        point: Point,
        registers: &mut Registers,
    ) -> (State, Access) {
        let (next, access) = Grid.turn(settings, p, place, point, registers);
        let State::Seeking(place, point) = next else {
            return (next, access);
        };
        let (_, following) = Grid.turn(settings, p, place, point, &mut registers.clone());
        (next, following)
    }
}

pub const ALL: [Variant; 9] = [
    Variant::both("value-before", &Shown(value_before)),
    Variant::both("one-time-place", &Shown(one_time_place)),
    Variant::both("own-place", &Shown(own_place)),
    Variant::both("place-in-row", &Shown(place_in_row)),
    Variant::both("all-reads", &Shown(all_reads)),
    Variant::both("x-as-task", &Shown(x_as_task)),
    Variant::both("block-as-name", &Shown(block_as_name)),
    Variant::both("none-on-release", &NoneOnRelease),
    Variant::both("next-access", &NextAccess),
];
