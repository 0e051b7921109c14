//! Misreadings of 02, P1: why the moment was wrong.

use super::Variant;
use crate::grid::{Record, Settings, State};
use crate::refusal::Refusal;
use crate::rules::{Grid, Rules};
use crate::schedule::Kind;

/// 6 is still answered.
pub struct StillSix;

impl Rules for StillSix {
    fn wrong_moment(&self, _: Kind, _: State) -> Refusal {
        Refusal::WrongMoment
    }
}

/// 15 for a seeking task, 16 for an idle one.
pub struct IdleForSeeking;

impl Rules for IdleForSeeking {
    fn wrong_moment(&self, kind: Kind, state: State) -> Refusal {
        match Grid.wrong_moment(kind, state) {
            Refusal::TaskIdle => Refusal::TaskSeeking,
            Refusal::TaskSeeking => Refusal::TaskIdle,
            refusal => refusal,
        }
    }
}

/// The number tells the call, not the task's state.
pub struct NumberByCall;

impl Rules for NumberByCall {
    fn wrong_moment(&self, kind: Kind, _: State) -> Refusal {
        match kind {
            Kind::Turn => Refusal::TaskIdle,
            Kind::Free => Refusal::TaskSeeking,
            Kind::Ask => Refusal::TaskHolding,
        }
    }
}

/// 16 for the ask of any task that is out; 17 is left to turns.
pub struct AskOfHolder;

impl Rules for AskOfHolder {
    fn wrong_moment(&self, kind: Kind, state: State) -> Refusal {
        match kind {
            Kind::Ask => Refusal::TaskSeeking,
            _ => Grid.wrong_moment(kind, state),
        }
    }
}

/// 15 for every release that frees nothing.
pub struct NothingToFree;

impl Rules for NothingToFree {
    fn wrong_moment(&self, kind: Kind, state: State) -> Refusal {
        match kind {
            Kind::Free => Refusal::TaskIdle,
            _ => Grid.wrong_moment(kind, state),
        }
    }
}

/// The numbers tested in ascending order: 16 and 17 after 7.
pub struct RoomFirst;

impl Rules for RoomFirst {
    fn test_ask(&self, settings: Settings, tasks: &[Record], p: usize) -> Result<(), Refusal> {
        self.test_room(settings, tasks)?;
        self.test_idle(tasks[p].state)
    }
}

pub const ALL: [Variant; 6] = [
    Variant::both("still-six", &StillSix),
    Variant::both("idle-for-seeking", &IdleForSeeking),
    Variant::both("number-by-call", &NumberByCall),
    Variant::both("ask-of-holder", &AskOfHolder),
    Variant::both("nothing-to-free", &NothingToFree),
    Variant::both("room-first", &RoomFirst),
];
