//! Wrong grids: 01's shortcuts and misreadings of 02. Each runs in place of the grid and differs from
//! it in one rule, and the generated cases must tell it from the grid. `lines` has wrong conversions.

pub mod accesses;
pub mod figures;
pub mod lines;
pub mod moment;
pub mod names;
pub mod peak;
pub mod setup;
pub mod shortcuts;

use crate::rules::{Grid, Rules};

/// What must tell a variant from the grid.
#[derive(Clone, Copy, PartialEq, Eq)]
enum ToldBy {
    Schedules,
    Calls,
    Both,
}

/// A wrong grid.
#[derive(Clone, Copy)]
pub struct Variant {
    pub name: &'static str,
    pub rules: &'static dyn Rules,
    told_by: ToldBy,
}

impl Variant {
    /// A variant that differs from the grid in listings only.
    const fn by_schedules(name: &'static str, rules: &'static dyn Rules) -> Variant {
        Variant { name, rules, told_by: ToldBy::Schedules }
    }

    /// A variant that differs from the grid in calls only.
    const fn by_calls(name: &'static str, rules: &'static dyn Rules) -> Variant {
        Variant { name, rules, told_by: ToldBy::Calls }
    }

    /// A variant that differs from the grid in listings and in calls.
    const fn both(name: &'static str, rules: &'static dyn Rules) -> Variant {
        Variant { name, rules, told_by: ToldBy::Both }
    }
}

fn all() -> impl Iterator<Item = Variant> {
    let of_01 = shortcuts::ALL.into_iter();
    let of_calls = of_01.chain(moment::ALL).chain(peak::ALL).chain(names::ALL).chain(setup::ALL);
    of_calls.chain(accesses::ALL).chain(figures::ALL)
}

/// The variants that schedules must tell from the grid.
pub fn told_by_schedules() -> Vec<Variant> {
    all().filter(|variant| variant.told_by != ToldBy::Calls).collect()
}

/// The variants that calls on arbitrary memories must tell from the grid.
pub fn told_by_calls() -> Vec<Variant> {
    all().filter(|variant| variant.told_by != ToldBy::Schedules).collect()
}

/// The rules of that name: `grid`, or one of the variants.
pub fn rules_named(name: &str) -> Option<&'static dyn Rules> {
    if name == "grid" {
        return Some(&Grid);
    }
    all().find(|variant| variant.name == name).map(|variant| variant.rules)
}
