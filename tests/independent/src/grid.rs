//! 01, "What the supervisor holds" and "Memory that is lent": settings, places and names, records
//! and their ranges, the shared registers.

use std::fmt;

/// A task's identifier; a call may be given any, those below N are tasks.
#[derive(Clone, Copy, PartialEq, Eq, Debug)]
pub struct Identifier(pub u32);

/// A name that a task holds, below k(k+1)/2.
#[derive(Clone, Copy, PartialEq, Eq, Debug)]
pub struct Name(pub u32);

#[derive(Clone, Copy, PartialEq, Eq, Hash, Debug)]
pub struct Settings {
    pub mode: u8,
    pub n: u16,
    pub k: u8,
    pub version: u16,
}

impl fmt::Display for Settings {
    fn fmt(&self, text: &mut fmt::Formatter) -> fmt::Result {
        let Settings { mode, n, k, version } = self;
        write!(text, "mode {mode} N {n} k {k} version {version}")
    }
}

/// r(r-1)/2.
fn pairs(r: usize) -> usize {
    r * r.saturating_sub(1) / 2
}

impl Settings {
    /// Settings of version 1.
    pub const fn new(mode: u8, n: u16, k: u8) -> Settings {
        Settings { mode, n, k, version: 1 }
    }

    pub const fn of_version(self, version: u16) -> Settings {
        Settings { version, ..self }
    }

    pub fn version_known(self) -> bool {
        matches!(self.version, 1 | 2)
    }

    pub fn allowed(self) -> bool {
        self.version_known()
            && self.mode <= 1
            && (1..=256).contains(&self.n)
            && (1..=16).contains(&self.k)
            && u16::from(self.k) <= self.n
    }

    pub fn long_lived(self) -> bool {
        self.mode == 1
    }

    pub fn tasks(self) -> usize {
        usize::from(self.n)
    }

    pub fn k(self) -> usize {
        usize::from(self.k)
    }

    /// B, the number of blocks.
    pub fn blocks(self) -> usize {
        pairs(self.k())
    }

    /// The number of names.
    pub fn names(self) -> usize {
        pairs(self.k() + 1)
    }

    /// Demand 3: within so many of its own accepted turns a task holds a name.
    pub fn bound(self) -> usize {
        let turns_in_a_block = if self.long_lived() { self.tasks() + 4 } else { 4 };
        turns_in_a_block * (self.k() - 1)
    }

    /// The number of the block at a place with r+c <= k-2.
    pub fn block(self, place: Place) -> usize {
        let r = usize::from(place.r);
        r * (self.k() - 1) - pairs(r) + usize::from(place.c)
    }

    /// The name at a place with r+c <= k-1: counted by rows, in version 2 by diagonals (02, P3).
    pub fn name(self, place: Place) -> Name {
        let (r, d) = (usize::from(place.r), place.diagonal());
        let name = if self.version == 2 {
            pairs(d + 1) + r
        } else {
            r * self.k() - pairs(r) + usize::from(place.c)
        };
        Name(name as u32)
    }

    /// Whether the place is a block: r+c <= k-2.
    pub fn is_block(self, place: Place) -> bool {
        place.diagonal() + 2 <= self.k()
    }

    /// Whether the place has a name: r+c <= k-1.
    pub fn is_named(self, place: Place) -> bool {
        place.diagonal() < self.k()
    }
}

#[derive(Clone, Copy, PartialEq, Eq, Hash, Debug)]
pub struct Place {
    pub r: u8,
    pub c: u8,
}

impl Place {
    /// r+c.
    pub fn diagonal(self) -> usize {
        usize::from(self.r) + usize::from(self.c)
    }
}

#[derive(Clone, Copy, PartialEq, Eq, Hash, Debug)]
pub enum Direction {
    Right,
    Down,
}

/// Where in its block a seeking task stands: the access that its next turn makes.
#[derive(Clone, Copy, PartialEq, Eq, Hash, Debug)]
pub enum Point {
    WriteX,
    Scan(u16),
    WriteMark,
    ReadX,
    Clear(Direction),
}

/// What a task does. It is out while it seeks or holds.
#[derive(Clone, Copy, PartialEq, Eq, Hash, Debug)]
pub enum State {
    Idle,
    Seeking(Place, Point),
    Holding(Place),
}

impl State {
    pub fn in_range(self, settings: Settings) -> bool {
        match self {
            State::Idle => true,
            State::Seeking(place, point) => {
                settings.is_block(place)
                    && match point {
                        Point::Scan(h) if settings.long_lived() => h < settings.n,
                        Point::Scan(h) => h == 0,
                        Point::Clear(_) => settings.long_lived(),
                        Point::WriteX | Point::WriteMark | Point::ReadX => true,
                    }
            }
            State::Holding(place) => settings.is_named(place),
        }
    }

    /// The record of a task in this state that has taken so many turns since its ask.
    pub const fn after(self, figure: u32) -> Record {
        Record { state: self, figure }
    }
}

/// A task's record: its state and, beside it, the accepted turns since its ask (02, P7).
#[derive(Clone, Copy, PartialEq, Eq, Hash, Debug)]
pub struct Record {
    pub state: State,
    pub figure: u32,
}

impl Record {
    pub const IDLE: Record = State::Idle.after(0);

    pub fn in_range(self, settings: Settings) -> bool {
        self.state.in_range(settings) && self.figure_in_range(settings)
    }

    /// A seeking task has used fewer turns than the bound, a holding one at most as many.
    pub fn figure_in_range(self, settings: Settings) -> bool {
        let used = self.figure as usize;
        match self.state {
            State::Idle => used == 0,
            State::Seeking(..) => used < settings.bound(),
            State::Holding(_) => used <= settings.bound(),
        }
    }
}

/// How many tasks are out: they seek or hold.
#[derive(Clone, Copy, Default)]
pub struct Out {
    pub seekers: usize,
    pub holders: usize,
}

impl Out {
    pub fn of(records: &[Record]) -> Out {
        let mut out = Out::default();
        for record in records {
            match record.state {
                State::Idle => {}
                State::Seeking(..) => out.seekers += 1,
                State::Holding(_) => out.holders += 1,
            }
        }
        out
    }

    pub fn all(self) -> usize {
        self.seekers + self.holders
    }
}

/// The shared registers. An X of 0 means nobody, p+1 means task p; a mark is 0 or 1.
#[derive(Clone, PartialEq, Eq, Hash, Debug)]
pub struct Registers {
    pub x: Vec<u32>,
    pub marks: Vec<u8>,
}

/// The X that names task p.
pub fn x_of(p: usize) -> u32 {
    p as u32 + 1
}
