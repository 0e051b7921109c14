//! The worst schedules of demand 3: one task needs exactly (N+4)(k-1) of its own turns in mode 1,
//! 4(k-1) in mode 0.
//!
//! The k tasks of an order ask. In each row the tasks present write X in that order, scan, set
//! their marks, read X and go down; only the last writer reads its own X. The first task of the
//! order loses in all of the k-1 rows and uses the most turns.

use super::Case;
use crate::random::Random;
use crate::schedule::{Event, Kind, MOST_EVENTS};
use crate::Settings;

/// What the last writer of each row does after its write of X.
#[derive(Clone, Copy, PartialEq, Eq, Debug)]
pub enum LastWriter {
    /// Nothing more.
    Stops,
    /// It goes on with the others, reads its own X and holds.
    Holds,
}

impl LastWriter {
    pub const BOTH: [LastWriter; 2] = [LastWriter::Stops, LastWriter::Holds];
}

/// The order 0, 1, .., k-1.
pub fn in_order(k: u8) -> Vec<u16> {
    (0..u16::from(k)).collect()
}

/// The worst schedule of the first k tasks of an order, for its first task.
pub fn worst_schedule(settings: Settings, order: &[u16], last: LastWriter) -> Vec<Event> {
    contest(settings, &order[..settings.k()], last)
}

/// The worst schedule with only tasks 0 to m-1 out, m below k (02, P8): task 0 loses in the first m-1
/// rows, is alone in the next and holds there.
pub fn light_worst_schedule(settings: Settings, m: u8, last: LastWriter) -> Vec<Event> {
    let mut events = contest(settings, &in_order(m), last);
    let alone = scans(settings) + 3; // write X, scan, write mark, read X
    events.extend(vec![Event::new(Kind::Turn, 0); alone]);
    events
}

fn scans(settings: Settings) -> usize {
    if settings.long_lived() {
        settings.tasks()
    } else {
        1
    }
}

/// All tasks of an order ask, and in each row all present but the last writer of X go down.
fn contest(settings: Settings, order: &[u16], last: LastWriter) -> Vec<Event> {
    let scans = scans(settings);
    let mut events: Vec<Event> = order.iter().map(|task| Event::new(Kind::Ask, *task)).collect();
    let mut turns_of = |tasks: &[u16], rounds: usize| {
        for _ in 0..rounds {
            events.extend(tasks.iter().map(|task| Event::new(Kind::Turn, *task)));
        }
    };
    for row in 0..order.len() - 1 {
        let present = &order[..order.len() - row];
        let losers = &order[..order.len() - row - 1];
        let going_on = if last == LastWriter::Holds { present } else { losers };
        turns_of(present, 1); // write X
        turns_of(going_on, scans);
        turns_of(going_on, 1); // write mark
        turns_of(going_on, 1); // read X
        if settings.long_lived() {
            turns_of(losers, 1); // clear, going down
        }
    }
    events
}

/// The settings whose worst schedules are tried: all k, N from k on, and the greatest.
pub fn settings() -> Vec<Settings> {
    let mut all = Vec::new();
    for mode in [0, 1] {
        for k in 1..=16u8 {
            let least = u16::from(k);
            let sizes = [least, least + 1, least + 2, least + 3, 32, 64, 132, 255, 256];
            all.extend(sizes.map(|n| Settings::new(mode, n, k)));
        }
    }
    all
}

/// The worst schedules that fit a file: for task 0, and in version 2 for the last task with the
/// others in a random order.
pub fn cases() -> Vec<Case> {
    let mut random = Random::new(1);
    let mut cases = Vec::new();
    for settings in settings() {
        let mut last_first: Vec<u16> = (0..settings.n).rev().collect();
        random.shuffle(&mut last_first[1..]);
        for (version, order, last) in
            [(1, in_order(settings.k), LastWriter::Stops), (2, last_first, LastWriter::Holds)]
        {
            let settings = settings.of_version(version);
            let events = worst_schedule(settings, &order, last);
            if events.len() <= MOST_EVENTS {
                cases.push(Case::of_schedule(format!("worst {settings}"), settings, &events));
            }
        }
    }
    cases
}
