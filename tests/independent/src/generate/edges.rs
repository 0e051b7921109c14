//! 01, "Both sides of each edge": each edge that a schedule can show, as a file.

use super::damaged::header;
use super::Case;
use crate::schedule::{Event, Kind, MOST_EVENTS};
use crate::Settings;

fn ask(id: u16) -> Event {
    Event::new(Kind::Ask, id)
}

fn free(id: u16) -> Event {
    Event::new(Kind::Free, id)
}

fn turn(id: u16) -> Event {
    Event::new(Kind::Turn, id)
}

fn turns(id: u16, count: usize) -> Vec<Event> {
    vec![turn(id); count]
}

/// The listing of 01: its sixteen events.
pub fn listing_of_01() -> Case {
    let mut events = vec![ask(0), ask(1)];
    events.extend(turns(0, 1));
    events.extend(turns(1, 1));
    events.extend(turns(0, 5));
    events.extend(turns(1, 4));
    events.push(free(0));
    events.extend(turns(0, 1));
    events.push(free(1));
    Case::of_schedule("edge listing of 01", Settings::new(1, 2, 2), &events)
}

/// A first task alone, then a second behind it, each with turns to spare.
fn one_behind_another(settings: Settings, first: u16, second: u16) -> Case {
    let enough = settings.bound() + 1;
    let mut events = vec![ask(first)];
    events.extend(turns(first, enough));
    events.push(ask(second));
    events.extend(turns(second, enough));
    events.extend([free(first), free(second), ask(first)]);
    let label = format!("edge task {second} behind {first}, {settings}");
    Case::of_schedule(label, settings, &events)
}

/// All tasks ask, up to two beyond N, each after the other has had some turns.
fn asks_beyond_k(settings: Settings) -> Case {
    let mut events = Vec::new();
    for id in 0..=settings.n + 1 {
        events.push(ask(id));
        events.extend(turns(id, 2));
    }
    for id in [0, settings.n - 1] {
        events.extend(turns(id, settings.bound()));
        events.extend([free(id), ask(id), free(id)]);
    }
    Case::of_schedule(format!("edge asks beyond k, {settings}"), settings, &events)
}

/// So many asks and nothing more: PEAK is reached by the last event, or before a refused one.
fn only_asks(settings: Settings, count: u16) -> Case {
    let events: Vec<Event> = (0..count).map(ask).collect();
    let label = format!("edge only {count} asks, {settings}");
    Case::of_schedule(label, settings, &events)
}

/// Every kind of call by k tasks at every moment: idle, seeking with few and with k out, holding
/// with k out, and idle again.
fn moments(settings: Settings) -> Case {
    let tasks = 0..u16::from(settings.k);
    let mut events = Vec::new();
    for id in tasks.clone() {
        events.extend([free(id), turn(id), ask(id), ask(id), free(id)]);
    }
    for id in tasks.clone() {
        events.extend([ask(id), free(id), turn(id), ask(id)]);
    }
    for id in tasks.clone() {
        events.extend(turns(id, settings.bound()));
        events.extend([ask(id), turn(id)]);
    }
    for id in tasks {
        events.extend([free(id), free(id), turn(id)]);
    }
    Case::of_schedule(format!("edge moments, {settings}"), settings, &events)
}

/// Identifiers on both sides of N, in every call, before and after a task is out.
fn identifiers(settings: Settings) -> Case {
    let n = settings.n;
    let ids = [n - 1, n, n + 1, 255, 256, 257, 32_767, 32_768, 65_535];
    let all = ids.iter().flat_map(|id| Kind::ALL.map(|kind| Event::new(kind, *id)));
    let mut events: Vec<Event> = all.collect();
    let again = events.clone();
    events.push(ask(0));
    events.extend(again);
    Case::of_schedule(format!("edge identifiers, {settings}"), settings, &events)
}

/// A bare header with settings on both sides of each limit, and with versions.
fn settings_edges() -> Vec<Case> {
    let mut cases = Vec::new();
    for mode in [0, 1, 2, 3, 128, 255] {
        for n in [0, 1, 2, 3, 15, 16, 17, 255, 256, 257, 258, 512, 32_768, 65_535] {
            for k in [0, 1, 2, 3, 15, 16, 17, 18, 255] {
                let settings = Settings::new(mode, n, k);
                cases.push(Case::new(format!("edge settings {settings}"), header(settings, 0)));
            }
        }
    }
    // An unknown version comes before other settings outside the limits.
    for version in [0, 1, 2, 3, 255, 256, 257, 258, 513, 32_769, 65_535] {
        for settings in [Settings::new(1, 3, 3), Settings::new(2, 3, 3), Settings::new(1, 257, 17)]
        {
            let settings = settings.of_version(version);
            cases.push(Case::new(format!("edge settings {settings}"), header(settings, 0)));
        }
    }
    cases
}

pub fn cases() -> Vec<Case> {
    let mut cases = vec![listing_of_01()];
    let sizes = [(1, 1), (2, 1), (2, 2), (3, 2), (3, 3), (5, 5), (16, 16), (256, 1), (256, 2)];
    for (mode, version) in [(0, 1), (0, 2), (1, 1), (1, 2)] {
        for (n, k) in sizes.into_iter().chain([(256, 16)]) {
            let settings = Settings::new(mode, n, k).of_version(version);
            let k = u16::from(k);
            cases.extend([k - 1, k, k + 1].map(|count| only_asks(settings, count)));
            cases.push(asks_beyond_k(settings));
            cases.push(identifiers(settings));
            if settings.k() * (settings.bound() + 14) <= MOST_EVENTS {
                cases.push(moments(settings));
            }
            if n > 1 && 2 * settings.bound() + 7 <= MOST_EVENTS {
                cases.push(one_behind_another(settings, 0, 1));
                cases.push(one_behind_another(settings, n - 1, 0));
            }
        }
    }
    cases.extend(settings_edges());
    cases
}
