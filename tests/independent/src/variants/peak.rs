//! Misreadings of 02, P2: the greatest number out after any event.

use super::Variant;
use crate::grid::Out;
use crate::rules::Rules;

/// 01's rule: the greatest number of holders.
pub struct PeakOfHolders;

impl Rules for PeakOfHolders {
    fn peak(&self, peak: usize, _: Out, after: Out) -> usize {
        peak.max(after.holders)
    }
}

/// The greatest number of seekers.
pub struct PeakOfSeekers;

impl Rules for PeakOfSeekers {
    fn peak(&self, peak: usize, _: Out, after: Out) -> usize {
        peak.max(after.seekers)
    }
}

/// The tasks out at the end.
pub struct PeakAtTheEnd;

impl Rules for PeakAtTheEnd {
    fn peak(&self, _: usize, _: Out, after: Out) -> usize {
        after.all()
    }
}

/// The greatest number out before any event.
pub struct PeakBeforeEvents;

impl Rules for PeakBeforeEvents {
    fn peak(&self, peak: usize, before: Out, _: Out) -> usize {
        peak.max(before.all())
    }
}

/// The greatest number out after an event that gives a name.
pub struct PeakAtNames;

impl Rules for PeakAtNames {
    fn peak(&self, peak: usize, before: Out, after: Out) -> usize {
        if after.holders > before.holders {
            peak.max(after.all())
        } else {
            peak
        }
    }
}

pub const ALL: [Variant; 5] = [
    Variant::by_schedules("peak-of-holders", &PeakOfHolders),
    Variant::by_schedules("peak-of-seekers", &PeakOfSeekers),
    Variant::by_schedules("peak-at-the-end", &PeakAtTheEnd),
    Variant::by_schedules("peak-before-events", &PeakBeforeEvents),
    Variant::by_schedules("peak-at-names", &PeakAtNames),
];
