//! The families of calls that give a name or free one.

use super::families::{calls_of, Maker};
use super::memories::places;
use super::Call;
use crate::grid::{x_of, Direction, Place, Point, Settings, State};

impl Maker {
    /// Holders at some places, alone and two at one place, with their marks 0 and 1.
    pub fn holders(&mut self, settings: Settings) {
        let mut places = places(settings.k() - 1);
        self.random.shuffle(&mut places);
        places.truncate(8);
        for place in places {
            let mut tasks: Vec<u16> = (0..settings.n).collect();
            self.random.shuffle(&mut tasks);
            for value in [0, 1] {
                let mut memory = self.random.memory(settings);
                for task in tasks.iter().take(2) {
                    memory.records[usize::from(*task)] =
                        self.random.figured(settings, State::Holding(place));
                }
                memory.registers.marks.fill(value);
                for call in calls_of(tasks[0]) {
                    self.push("holder", settings, &memory, call);
                }
            }
        }
    }

    /// A release at every place on the edge: it touches no register.
    pub fn edge_holders(&mut self, settings: Settings) {
        let edge = settings.k - 1;
        for place in (0..=edge).map(|r| Place { r, c: edge - r }) {
            let p = self.random.task(settings);
            let mut memory = self.random.memory(settings);
            memory.records[usize::from(p)] = self.random.figured(settings, State::Holding(place));
            memory.registers.marks.fill(1);
            self.push("edge holder", settings, &memory, Call::Release(p));
        }
    }

    /// Every name of the grid: given by a turn and, long-lived, freed.
    pub fn names(&mut self, settings: Settings) {
        for place in places(settings.k() - 1) {
            let p = self.random.task(settings);
            let mut memory = self.random.memory(settings);
            if let Some((from, point)) = self.last_turn(settings, place) {
                memory.records[usize::from(p)] =
                    self.random.figured(settings, State::Seeking(from, point));
                // The X is the task's own only if that gives the name; the scan meets a mark.
                let own = u32::from(from == place) * x_of(usize::from(p));
                memory.registers.x[settings.block(from)] = own;
                memory.registers.marks.fill(1);
                self.push("name", settings, &memory, Call::Turn(p));
            }
            if settings.long_lived() {
                memory.records[usize::from(p)] =
                    self.random.figured(settings, State::Holding(place));
                self.push("name", settings, &memory, Call::Release(p));
            }
        }
    }

    /// Where a task stands whose turn gives it the name at a place, if k is not 1.
    fn last_turn(&mut self, settings: Settings, place: Place) -> Option<(Place, Point)> {
        let Place { r, c } = place;
        if settings.is_block(place) {
            return Some((place, Point::ReadX));
        }
        let right = (c > 0).then(|| (Place { r, c: c - 1 }, Direction::Right));
        let down = (r > 0).then(|| (Place { r: r - 1, c }, Direction::Down));
        let ways: Vec<(Place, Direction)> = right.into_iter().chain(down).collect();
        if ways.is_empty() {
            return None;
        }
        let (from, direction) = self.random.pick(&ways);
        let point = match direction {
            _ if settings.long_lived() => Point::Clear(direction),
            Direction::Right => Point::Scan(0),
            Direction::Down => Point::ReadX,
        };
        Some((from, point))
    }
}
