//! Schedules that reach every place of the grid: k tasks go along a path from (0, 0) to the edge,
//! and one of them holds each place on it.
//!
//! To go down, the tasks present write X one after another before any of them sets its mark; the
//! last writer holds. To go right, one task holds first and the others find its mark.

use super::Case;
use crate::grid::{Direction, Point, State};
use crate::history::History;
use crate::random::Random;
use crate::rules::Grid;
use crate::schedule::{Event, Kind, MOST_EVENTS};
use crate::Settings;

struct Walk {
    history: History<'static>,
    events: Vec<Event>,
}

impl Walk {
    fn call(&mut self, kind: Kind, task: u16) {
        let event = Event::new(kind, task);
        self.events.push(event);
        // Refused or not, the call is part of the schedule.
        let _ = self.history.call(event);
    }

    /// Turns of a seeking task while its state is such.
    fn turns_while(&mut self, task: u16, such: impl Fn(State) -> bool) {
        while matches!(self.history.state(task), State::Seeking(..))
            && such(self.history.state(task))
        {
            self.call(Kind::Turn, task);
        }
    }

    fn until_holding(&mut self, task: u16) {
        self.turns_while(task, |_| true);
    }

    /// Turns of the task until it has left its block or holds it.
    fn until_left(&mut self, task: u16) {
        let before = self.history.state(task);
        let here = move |state| match (before, state) {
            (State::Seeking(was, _), State::Seeking(is, _)) => was == is,
            _ => false,
        };
        self.turns_while(task, here);
    }

    /// All tasks present but one leave the block in a direction; the last one holds it.
    fn go(&mut self, present: &[u16], direction: Direction) {
        let (holder, others) = present.split_last().expect("a path is shorter than k");
        match direction {
            Direction::Down => {
                for task in present {
                    self.call(Kind::Turn, *task);
                }
                let scans = |state| matches!(state, State::Seeking(_, Point::Scan(_)));
                for task in present {
                    self.turns_while(*task, scans);
                }
                for task in present {
                    self.until_left(*task);
                }
            }
            Direction::Right => {
                self.until_holding(*holder);
                for task in others {
                    self.until_left(*task);
                }
            }
        }
    }
}

/// The schedule of a path of k-1 moves for the first k tasks of an order. Long-lived, all then free
/// their names but one, and two ask again and go on alone.
pub fn path_schedule(settings: Settings, order: &[u16], path: &[Direction]) -> Vec<Event> {
    let history = History::new(&Grid, settings).expect("the settings of a path are in the limits");
    let mut walk = Walk { history, events: Vec::new() };
    let tasks = &order[..settings.k()];
    for task in tasks {
        walk.call(Kind::Ask, *task);
    }
    for (moves, direction) in path.iter().enumerate() {
        walk.go(&tasks[..tasks.len() - moves], *direction);
    }
    for task in &tasks[1..] {
        walk.call(Kind::Free, *task);
    }
    for task in tasks.iter().rev().take(2) {
        walk.call(Kind::Ask, *task);
        walk.until_holding(*task);
    }
    walk.events
}

/// A path to the edge place of row r, with its moves in a random order.
fn random_path(random: &mut Random, k: usize, r: usize) -> Vec<Direction> {
    let mut path = vec![Direction::Right; k - 1];
    path[..r].fill(Direction::Down);
    random.shuffle(&mut path);
    path
}

fn case(random: &mut Random, settings: Settings, path: &[Direction]) -> Option<Case> {
    let mut order: Vec<u16> = (0..settings.n).collect();
    random.shuffle(&mut order);
    let events = path_schedule(settings, &order, path);
    let letter = |direction: &Direction| {
        if *direction == Direction::Down {
            'D'
        } else {
            'R'
        }
    };
    let letters: String = path.iter().map(letter).collect();
    let label = format!("path {settings} {letters}");
    (events.len() <= MOST_EVENTS).then(|| Case::of_schedule(label, settings, &events))
}

/// For each version, k and place on the edge: first down and then right, first right and then down,
/// and in a random order.
pub fn cases() -> Vec<Case> {
    let mut random = Random::new(3);
    let mut cases = Vec::new();
    for (mode, version) in [(0, 1), (0, 2), (1, 1), (1, 2)] {
        for k in 1..=16u8 {
            for r in 0..usize::from(k) {
                let mut down_first = vec![Direction::Right; usize::from(k) - 1];
                down_first[..r].fill(Direction::Down);
                let right_first = down_first.iter().rev().copied().collect();
                let any = random_path(&mut random, usize::from(k), r);
                for path in [down_first, right_first, any] {
                    let n = u16::from(k) + random.below(4) as u16;
                    let settings = Settings::new(mode, n, k).of_version(version);
                    cases.extend(case(&mut random, settings, &path));
                }
            }
        }
    }
    cases
}

/// A random path in a grid whose schedule fits a file.
pub fn random_case(random: &mut Random) -> Case {
    let mode = random.below(2) as u8;
    let version = random.pick(&[1, 2]);
    let k = random.between(1, 16);
    let r = random.below(k);
    let path = random_path(random, k, r);
    let widest = random.pick(&[k, k + 1, 40, 100, 256]).max(k);
    let n = random.between(k, widest) as u16;
    let wide = Settings::new(mode, n, k as u8).of_version(version);
    let narrow = Settings { n: k as u16, ..wide };
    case(random, wide, &path)
        .or_else(|| case(random, narrow, &path))
        .expect("with N = k every path fits a file")
}
