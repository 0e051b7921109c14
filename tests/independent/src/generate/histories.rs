//! Random schedules: settings of all sizes with their edges, lengths that suit them, and the tasks
//! that play.

use std::collections::BTreeSet;

use super::interleavings::{Interleaving, Maker};
use crate::calls::Needed;
use crate::grid::Settings;
use crate::random::Random;
use crate::rules::Grid;
use crate::schedule::{Event, MOST_EVENTS};

pub struct Schedule {
    pub label: String,
    pub settings: Settings,
    pub events: Vec<Event>,
}

/// A random schedule of a random interleaving.
pub fn random_schedule(random: &mut Random) -> Schedule {
    let settings = random_settings(random);
    let length = random_length(random, settings);
    let interleaving = random.pick(&Interleaving::WHOLE);
    let players = players(random, settings);
    let events = Maker::new(random, settings, length, players).play_whole(interleaving);
    let label = format!("random {interleaving:?} {settings}, {} events", events.len());
    Schedule { label, settings, events }
}

/// A random schedule in which at most m tasks are out at once, m below k.
pub fn light_schedule(random: &mut Random) -> Schedule {
    let mode = if random.percent(30) { 0 } else { 1 };
    let k = if random.percent(90) { random.between(2, 6) } else { 16 };
    let n = if random.percent(98) { k + random.below(5) } else { 256 };
    let settings = Settings::new(mode, n as u16, k as u8).of_version(random.pick(&[1, 2]));
    let m = random.between(1, k - 1);
    let turns_in_a_block = if settings.long_lived() { n + 4 } else { 4 };
    let length = random.below(turns_in_a_block * (m + 1) * 12);
    let interleaving = random.pick(&Interleaving::WHOLE);
    let players = players(random, settings);
    let maker = Maker::new(random, settings, length, players).with_room(m);
    let events = maker.play_whole(interleaving);
    let label = format!("light {interleaving:?} {settings} m {m}, {} events", events.len());
    Schedule { label, settings, events }
}

/// Settings of all sizes; the edges k = 1, k = N, N = 1, N = 256 and k = 16 come often.
fn random_settings(random: &mut Random) -> Settings {
    let mode = if random.percent(30) { 0 } else { 1 };
    let (n, k) = match random.below(100) {
        0..=2 => (1, 1),
        3..=7 => (random.pick(&[2, 3, 17, 256]), 1),
        8..=59 => {
            let k = random.between(2, 4);
            (k + random.below(4), k)
        }
        60..=69 => {
            let k = random.between(2, 8);
            (k, k)
        }
        70..=84 => {
            let k = random.between(2, 16);
            (random.between(k, 40), k)
        }
        85..=91 => (random.between(16, 64), 16),
        92..=97 => (random.between(250, 256), random.between(2, 6)),
        98 => (256, random.between(7, 15)),
        _ => (256, 16),
    };
    Settings::new(mode, n as u16, k as u8).of_version(random.pick(&[1, 2]))
}

/// A length from 0 to 16,384 that suits the settings: most are some acquisitions long.
fn random_length(random: &mut Random, settings: Settings) -> usize {
    let acquisition = if settings.long_lived() { settings.tasks() + 5 } else { 5 };
    let length = match random.below(100) {
        0..=2 => random.below(4),
        3..=4 => MOST_EVENTS,
        5..=9 => random.below(MOST_EVENTS + 1),
        _ => random.below(acquisition * settings.k() * 12),
    };
    // Some schedules on the largest memories are whole; the others are cut to keep a run short.
    let tested = Needed::new(&Grid, settings).values();
    let affordable = if random.percent(15) { MOST_EVENTS } else { 20_000_000 / tested };
    length.min(affordable).min(MOST_EVENTS)
}

/// The tasks that play: a few more than k, often with the first and the last.
fn players(random: &mut Random, settings: Settings) -> Vec<u16> {
    let mut tasks: Vec<u16> = (0..settings.n).collect();
    random.shuffle(&mut tasks);
    if random.percent(50) {
        tasks.retain(|task| *task != 0 && *task != settings.n - 1);
        tasks.splice(0..0, BTreeSet::from([0, settings.n - 1]));
    }
    tasks.truncate(settings.k() + random.below(4));
    if random.percent(50) {
        tasks.sort_unstable();
    }
    tasks
}
