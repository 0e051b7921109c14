//! Arbitrary memories: values in range that no history need reach, and values out of range.

use crate::calls::Memory;
use crate::grid::{Direction, Place, Point, Record, Settings, State};
use crate::random::Random;
use crate::rules::Grid;

/// The places with r+c at most so much.
pub fn places(diagonal: usize) -> Vec<Place> {
    let place = |r: usize, c: usize| Place { r: r as u8, c: c as u8 };
    (0..=diagonal).flat_map(|r| (0..=diagonal - r).map(move |c| place(r, c))).collect()
}

pub fn blocks(settings: Settings) -> Vec<Place> {
    if settings.k() < 2 {
        return Vec::new();
    }
    places(settings.k() - 2)
}

impl Random {
    pub fn task(&mut self, settings: Settings) -> u16 {
        self.below(settings.tasks()) as u16
    }

    /// Every point that is in range; the scan at the edges, at the task's own mark and anywhere.
    pub fn points_of(&mut self, settings: Settings, p: u16) -> Vec<Point> {
        let mut points = vec![Point::WriteX, Point::WriteMark, Point::ReadX, Point::Scan(0)];
        if settings.long_lived() {
            let anywhere = self.task(settings);
            points.extend([p, settings.n - 1, anywhere].map(Point::Scan));
            points.extend([Direction::Right, Direction::Down].map(Point::Clear));
        }
        points
    }

    pub fn record(&mut self, settings: Settings, idle_of_hundred: usize) -> Record {
        let blocks = blocks(settings);
        let state = if self.percent(idle_of_hundred) {
            State::Idle
        } else if blocks.is_empty() || self.percent(40) {
            State::Holding(self.pick(&places(settings.k() - 1)))
        } else {
            let p = self.task(settings);
            let points = self.points_of(settings, p);
            State::Seeking(self.pick(&blocks), self.pick(&points))
        };
        self.figured(settings, state)
    }

    /// A record in this state with a figure in its range, often at an end of it.
    pub fn figured(&mut self, settings: Settings, state: State) -> Record {
        let last = match state {
            State::Idle => 0,
            State::Seeking(..) => settings.bound() - 1,
            State::Holding(_) => settings.bound(),
        };
        let any = self.between(0, last);
        state.after(self.pick(&[0, last, any, any]) as u32)
    }

    /// A memory whose values are all in range, but that no history need reach.
    pub fn memory(&mut self, settings: Settings) -> Memory {
        let mut memory = Memory::idle(&Grid, settings);
        let idle = self.pick(&[0, 30, 60, 95]);
        let marked = self.pick(&[0, 5, 30, 80]);
        for record in &mut memory.records {
            *record = self.record(settings, idle);
        }
        for x in &mut memory.registers.x {
            *x = self.between(0, settings.tasks()) as u32;
        }
        for mark in &mut memory.registers.marks {
            *mark = u8::from(self.percent(marked));
        }
        memory
    }

    /// First, last and anywhere between them in a row of that length.
    pub fn positions(&mut self, length: usize) -> Vec<usize> {
        match length {
            0..=2 => (0..length).collect(),
            _ => vec![0, self.between(1, length - 2), length - 1],
        }
    }
}

/// Records that are out of range by their state, or by their figure alone.
pub fn bad_records(settings: Settings) -> Vec<Record> {
    let start = Place { r: 0, c: 0 };
    let bound = settings.bound() as u32;
    let mut bad: Vec<Record> = bad_states(settings).iter().map(|state| state.after(0)).collect();
    // Of some of these the low 16 bits are in range.
    let seeking = State::Seeking(start, Point::WriteX);
    bad.extend([bound, bound + 1, 65_536, u32::MAX].map(|figure| seeking.after(figure)));
    let holding = State::Holding(start);
    bad.extend([bound + 1, 65_536, u32::MAX].map(|figure| holding.after(figure)));
    bad.extend([1, 65_536, u32::MAX].map(|figure| State::Idle.after(figure)));
    bad
}

/// Places beyond the edge, also those whose sum in 8 bits would be small; scans beyond the last mark;
/// and, one-time, what only the long-lived grid has.
fn bad_states(settings: Settings) -> Vec<State> {
    let (mode, n, k) = (settings.mode, settings.n, settings.k);
    let mut bad = Vec::new();
    let seeking = [(0, k - 1), (k - 1, 0), (255, 1), (1, 255), (255, 255), (128, 128)];
    bad.extend(seeking.map(|(r, c)| State::Seeking(Place { r, c }, Point::WriteX)));
    let holding = [(0, k), (k, 0), (255, 1), (1, 255), (255, 255), (128, 128)];
    bad.extend(holding.map(|(r, c)| State::Holding(Place { r, c })));
    let points = if mode == 1 {
        vec![Point::Scan(n), Point::Scan(n + 1), Point::Scan(65_535)]
    } else {
        let clears = [Direction::Right, Direction::Down].map(Point::Clear);
        [Point::Scan(1), Point::Scan(n), Point::Scan(65_535)].into_iter().chain(clears).collect()
    };
    bad.extend(points.into_iter().map(|point| State::Seeking(Place { r: 0, c: 0 }, point)));
    bad
}
