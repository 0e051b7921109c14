//! 02, P8, what light load costs: of a history since setup in which never more than m tasks were out,
//! 1 <= m < k. `P8` is what 02 says; `FALSE` are claims that look like it, and must be found false.

mod search;

use std::collections::{BTreeMap, BTreeSet};

use crate::generate::histories::light_schedule;
use crate::generate::worst::{light_worst_schedule, LastWriter};
use crate::grid::{Place, Record, Settings, State};
use crate::history::History;
use crate::random::Random;
use crate::refusal::Refusal;
use crate::rules::Grid;
use crate::schedule::Event;

pub use search::most_turns;

/// What is said of every moment of a history under light load.
pub struct Claim {
    pub name: &'static str,
    /// m, from the greatest number out after any event so far and the number out now.
    load: fn(usize, usize) -> usize,
    /// Within so many of its own turns an acquisition ends.
    turns: fn(Settings, usize) -> usize,
    /// A task that is out stands at r+c below this.
    diagonals: fn(usize) -> usize,
    /// The names held are below this.
    names: fn(Settings, usize) -> usize,
}

pub const P8: Claim = Claim {
    name: "P8",
    load: |most, _| most,
    turns,
    diagonals: |m| m,
    names: |settings, m| in_version_2(settings, m * (m + 1) / 2),
};

/// Claims that are false, each of them for every m from 2 on.
pub const FALSE: [Claim; 6] = [
    Claim { name: "one turn less", turns: |settings, m| turns(settings, m) - 1, ..P8 },
    Claim { name: "one diagonal less", diagonals: |m| m - 1, ..P8 },
    Claim {
        name: "names below m(m-1)/2",
        names: |settings, m| in_version_2(settings, m * (m - 1) / 2),
        ..P8
    },
    Claim {
        name: "one name less",
        names: |settings, m| in_version_2(settings, m * (m + 1) / 2 - 1),
        ..P8
    },
    Claim { name: "names in version 1 too", names: |_, m| m * (m + 1) / 2, ..P8 },
    Claim { name: "m counted at the end only", load: |_, now| now, ..P8 },
];

/// (N+4)(m-1) + N+3 if long-lived, 4m if one-time.
pub fn turns(settings: Settings, m: usize) -> usize {
    if settings.long_lived() {
        (settings.tasks() + 4) * (m - 1) + settings.tasks() + 3
    } else {
        4 * m
    }
}

/// This limit of the names in version 2, in version 1 that of all names.
fn in_version_2(settings: Settings, limit: usize) -> usize {
    if settings.version == 2 {
        limit
    } else {
        settings.names()
    }
}

impl Claim {
    /// Whether the claim is true of a task's record.
    fn holds_of(&self, settings: Settings, m: usize, record: Record) -> bool {
        let used = record.figure as usize;
        let (turns, diagonals) = ((self.turns)(settings, m), (self.diagonals)(m));
        let near = |place: Place| place.diagonal() < diagonals;
        match record.state {
            State::Idle => true,
            State::Seeking(place, _) => near(place) && used < turns,
            State::Holding(place) => {
                let name = settings.name(place).0 as usize;
                near(place) && used <= turns && name < (self.names)(settings, m)
            }
        }
    }

    /// If the claim is false now: m, and the task's record.
    fn refuted(&self, history: &History) -> Option<(usize, Record)> {
        let settings = history.settings;
        let m = (self.load)(history.peak, history.out.all());
        if m == 0 || m >= settings.k() {
            return None;
        }
        let refutes = |record: &&Record| !self.holds_of(settings, m, **record);
        history.memory.records.iter().find(refutes).map(|record| (m, *record))
    }
}

/// For each claim a record that refutes it in the history, by m.
pub fn refuted(
    claims: &[&Claim],
    settings: Settings,
    events: &[Event],
) -> Result<Vec<BTreeMap<usize, Record>>, Refusal> {
    let mut history = History::new(&Grid, settings)?;
    let mut found = vec![BTreeMap::new(); claims.len()];
    for event in events {
        // Refused or not, the call is part of the history.
        let _ = history.call(*event);
        for (claim, found) in claims.iter().zip(&mut found) {
            found.extend(claim.refuted(&history));
        }
    }
    Ok(found)
}

/// So many turns, and no more, can be needed in these grids: mode, N, k, m.
const EXACT: [(u8, u16, u8, u8, usize); 8] = [
    (1, 2, 2, 1, 5),
    (1, 3, 3, 1, 6),
    (1, 3, 3, 2, 13),
    (1, 4, 3, 2, 15),
    (0, 3, 3, 1, 4),
    (0, 3, 3, 2, 8),
    (0, 4, 3, 2, 8),
    (0, 4, 4, 3, 12),
];

/// Tries P8 and the false claims on random histories with few tasks out and on the worst ones, and P8
/// on all histories of small grids.
pub fn check_all(seed: u64, count: u64, check: &mut dyn FnMut(&str, Result<(), String>)) {
    let mut found = Refutations::default();
    for index in 0..count {
        let schedule = light_schedule(&mut Random::of_case(seed, index));
        check(&schedule.label, found.add(schedule.settings, &schedule.events));
    }
    println!("seed {seed}: {count} random histories under light load");
    let worst = worst_settings();
    for (settings, m, last) in &worst {
        let events = light_worst_schedule(*settings, *m, *last);
        let outcome = found.add(*settings, &events).and_then(|()| uses_all(*settings, *m, &events));
        check(&format!("light worst {settings} m {m} {last:?}"), outcome);
    }
    println!("{} worst histories under light load", worst.len());
    for (claim, refuted) in FALSE.iter().zip(&found.0) {
        println!("{}: refuted for m {refuted:?}", claim.name);
        let missing = (2..=5).find(|m| !refuted.contains(m));
        let outcome = missing.map_or(Ok(()), |m| Err(format!("not refuted for m {m}")));
        check(claim.name, outcome);
    }
    for (mode, n, k, m, due) in EXACT {
        let settings = Settings::new(mode, n, k);
        check(&format!("all histories of {settings} m {m}"), check_exact(settings, m, due));
    }
}

/// For each false claim the m for which it was refuted.
#[derive(Default)]
struct Refutations([BTreeSet<usize>; FALSE.len()]);

impl Refutations {
    /// Notes which false claims a history refutes; it must not refute P8.
    fn add(&mut self, settings: Settings, events: &[Event]) -> Result<(), String> {
        let claims: Vec<&Claim> = [&P8].into_iter().chain(&FALSE).collect();
        let found = refuted(&claims, settings, events).map_err(|refusal| refusal.to_string())?;
        for (known, found) in self.0.iter_mut().zip(&found[1..]) {
            known.extend(found.keys());
        }
        match found[0].first_key_value() {
            None => Ok(()),
            Some((m, record)) => Err(format!("m {m}, {record:?}")),
        }
    }
}

/// The settings and m whose worst histories are tried, in both forms.
fn worst_settings() -> Vec<(Settings, u8, LastWriter)> {
    let mut all = Vec::new();
    for (mode, version) in [(0, 1), (0, 2), (1, 1), (1, 2)] {
        for (k, m) in (2..=16).flat_map(|k| (1..k).map(move |m| (k, m))) {
            let settings = Settings::new(mode, u16::from(k) + 1, k).of_version(version);
            all.extend(LastWriter::BOTH.map(|last| (settings, m, last)));
        }
    }
    all
}

/// Task 0 holds at the end, after just as many turns as P8 allows, at the last diagonal that it allows.
fn uses_all(settings: Settings, m: u8, events: &[Event]) -> Result<(), String> {
    let mut history = History::new(&Grid, settings).map_err(|refusal| refusal.to_string())?;
    for event in events {
        history.call(*event).map_err(|refusal| format!("{event:?}: {refusal}"))?;
    }
    let due = State::Holding(Place { r: m - 1, c: 0 }).after(turns(settings, m.into()) as u32);
    match history.memory.records[0] {
        record if record == due => Ok(()),
        record => Err(format!("task 0 has {record:?}, not {due:?}")),
    }
}

fn check_exact(settings: Settings, m: u8, due: usize) -> Result<(), String> {
    let m = usize::from(m);
    let (most, diagonal) = most_turns(settings, m).map_err(|refusal| refusal.to_string())?;
    if (most, diagonal) != (due, m - 1) || due != turns(settings, m) {
        return Err(format!("{most} turns and r+c {diagonal}, not {due} and {}", m - 1));
    }
    Ok(())
}
