//! Interleavings that bring tasks together in one block, with releases, new asks and refused calls.

use crate::grid::{Point, Settings, State};
use crate::history::History;
use crate::random::Random;
use crate::rules::Grid;
use crate::schedule::{Event, Kind};

/// Whose turn it is.
#[derive(Clone, Copy, PartialEq, Debug)]
pub enum Interleaving {
    /// Any task that can move.
    Any,
    /// One task for a while, then another.
    Sticky,
    /// All tasks in turn, each one call.
    LockStep,
    /// A task moves up to its next access that is no scan, now and then only into the scan.
    ToNextPoint,
    /// Some tasks are held where they stand while the others move.
    Stalled,
    /// Tasks ask until k are out.
    Fill,
    /// Holders free their names.
    Drain,
    /// One task goes on until it holds.
    Alone,
    /// Now the one, now the other of these.
    Phases,
}

impl Interleaving {
    /// Those that make a whole schedule.
    pub const WHOLE: [Interleaving; 6] = [
        Interleaving::Any,
        Interleaving::Sticky,
        Interleaving::LockStep,
        Interleaving::ToNextPoint,
        Interleaving::Stalled,
        Interleaving::Phases,
    ];
    /// Those that make a phase of one.
    const PHASE: [Interleaving; 8] = [
        Interleaving::Any,
        Interleaving::Sticky,
        Interleaving::LockStep,
        Interleaving::ToNextPoint,
        Interleaving::Stalled,
        Interleaving::Fill,
        Interleaving::Drain,
        Interleaving::Alone,
    ];
}

/// A schedule in the making: each call is run on the grid, so that the next can be chosen by it.
pub struct Maker<'a> {
    history: History<'static>,
    events: Vec<Event>,
    length: usize,
    players: Vec<u16>,
    /// At most so many tasks are let out at once.
    room: usize,
    /// The players that are held where they stand.
    held: Vec<u16>,
    /// In so many of a hundred steps a call is made that need not be right.
    refused_calls: usize,
    /// In so many of a hundred cases a holder that could free its name does.
    freeing: usize,
    random: &'a mut Random,
}

impl Maker<'_> {
    pub fn new(
        random: &mut Random,
        settings: Settings,
        length: usize,
        players: Vec<u16>,
    ) -> Maker<'_> {
        Maker {
            history: History::new(&Grid, settings).expect("random settings are in the limits"),
            events: Vec::new(),
            length,
            players,
            room: settings.k(),
            held: Vec::new(),
            refused_calls: random.pick(&[0, 0, 1, 5, 30]),
            freeing: random.pick(&[2, 10, 50, 100]),
            random,
        }
    }

    /// With at most so many tasks out at once, k or fewer.
    pub fn with_room(self, room: usize) -> Self {
        Maker { room, ..self }
    }

    /// The schedule of one interleaving.
    pub fn play_whole(mut self, interleaving: Interleaving) -> Vec<Event> {
        self.play(interleaving, self.length);
        self.events
    }

    /// Makes calls by an interleaving up to a length.
    fn play(&mut self, interleaving: Interleaving, until: usize) {
        let until = until.min(self.length);
        let mut last_player = None;
        while self.events.len() < until {
            if self.random.percent(self.refused_calls) {
                self.any_call();
                continue;
            }
            let Some(player) = self.able_player(last_player) else {
                if self.nobody_moves_again() {
                    return;
                }
                self.any_call();
                continue;
            };
            match interleaving {
                Interleaving::Any => self.step(player),
                Interleaving::Sticky => {
                    self.step(player);
                    let stay = 3 * self.history.settings.tasks();
                    last_player = Some(player).filter(|_| self.random.below(stay) > 2);
                }
                Interleaving::LockStep => self.round(),
                Interleaving::ToNextPoint => self.up_to_next_point(player),
                Interleaving::Stalled => self.stall(player, until),
                Interleaving::Fill => self.fill(),
                Interleaving::Drain => self.drain(),
                Interleaving::Alone => self.alone(player),
                Interleaving::Phases => {
                    let phase = self.random.pick(&Interleaving::PHASE);
                    let longest = 4 * (self.history.settings.tasks() + 5);
                    let calls = self.random.between(1, longest);
                    self.play(phase, self.events.len() + calls);
                }
            }
        }
    }

    fn call(&mut self, kind: Kind, id: u16) {
        if self.events.len() < self.length {
            let event = Event::new(kind, id);
            self.events.push(event);
            // Refused or not, the call is part of the schedule.
            let _ = self.history.call(event);
        }
    }

    /// The call that suits the player's state.
    fn step(&mut self, player: u16) {
        let kind = match self.history.state(player) {
            State::Idle => Kind::Ask,
            State::Seeking(..) => Kind::Turn,
            State::Holding(_) => Kind::Free,
        };
        self.call(kind, player);
    }

    /// A call at whatever moment, by whatever identifier.
    fn any_call(&mut self) {
        let n = self.history.settings.n;
        let any = self.random.next() as u16;
        let player = self.random.pick(&self.players);
        let id = match self.random.below(10) {
            0 => self.random.pick(&[n, n + 1, 255, 256, 257, 32_768, 65_535]),
            1 => any,
            2 => any % n,
            _ => player,
        };
        let kind = self.random.pick(&Kind::ALL);
        let lets_out = kind == Kind::Ask && self.room < self.history.settings.k();
        let full = self.history.out.all() == self.room;
        self.call(if lets_out && full { Kind::Turn } else { kind }, id);
    }

    fn able(&mut self, player: u16) -> bool {
        let settings = self.history.settings;
        !self.held.contains(&player)
            && match self.history.state(player) {
                State::Idle => self.history.out.all() < self.room,
                State::Seeking(..) => true,
                State::Holding(_) => settings.long_lived() && self.random.percent(self.freeing),
            }
    }

    /// A player whose next call would be accepted; the last one if it still is such.
    fn able_player(&mut self, last: Option<u16>) -> Option<u16> {
        if let Some(player) = last.filter(|player| self.able(*player)) {
            return Some(player);
        }
        let count = self.players.len();
        let first = self.random.below(count);
        let players: Vec<u16> = (0..count).map(|i| self.players[(first + i) % count]).collect();
        players.into_iter().find(|player| self.able(*player))
    }

    /// One-time, all that are let out hold: no more calls are made, and now and then the schedule ends.
    fn nobody_moves_again(&mut self) -> bool {
        let settings = self.history.settings;
        let over = !settings.long_lived() && self.history.out.holders == self.room;
        over && self.random.percent(10)
    }

    /// Each able player makes one call; now and then the order changes.
    fn round(&mut self) {
        if self.random.percent(5) {
            self.random.shuffle(&mut self.players);
        }
        for player in self.players.clone() {
            if self.able(player) {
                self.step(player);
            }
        }
    }

    /// The player moves until its next access is no scan, or somewhere into the scan.
    fn up_to_next_point(&mut self, player: u16) {
        self.step(player);
        let halt = self.history.settings.tasks() * 2;
        let mut calls = self.history.settings.tasks();
        while let State::Seeking(_, Point::Scan(_)) = self.history.state(player) {
            if calls == 0 || self.random.below(halt) == 0 {
                return;
            }
            calls -= 1;
            self.step(player);
        }
    }

    /// The player moves to one of its points and is held there while the others move.
    fn stall(&mut self, player: u16, until: usize) {
        for _ in 0..self.random.below(6) {
            self.up_to_next_point(player);
        }
        self.held.push(player);
        let others = self.random.between(1, 20);
        for _ in 0..others {
            if self.events.len() >= until {
                break;
            }
            match self.able_player(None) {
                Some(other) => self.up_to_next_point(other),
                None => self.any_call(),
            }
        }
        if self.held.len() >= self.history.settings.k() || self.random.percent(40) {
            let freed = self.random.below(self.held.len());
            self.held.swap_remove(freed);
        }
    }

    /// The idle players ask; if k are let out, one more than the grid takes.
    fn fill(&mut self) {
        let beyond = usize::from(self.room == self.history.settings.k());
        let asks = self.room - self.history.out.all() + beyond;
        let idle = |player: &u16| self.history.state(*player) == State::Idle;
        let asking: Vec<u16> = self.players.iter().copied().filter(idle).take(asks).collect();
        for player in &asking {
            self.call(Kind::Ask, *player);
        }
        if asking.is_empty() {
            self.any_call();
        }
    }

    /// The holders free their names; if none holds, one call of any kind.
    fn drain(&mut self) {
        let before = self.events.len();
        for player in self.players.clone() {
            if let State::Holding(_) = self.history.state(player) {
                self.call(Kind::Free, player);
            }
        }
        if self.events.len() == before {
            self.any_call();
        }
    }

    /// The player goes on until it no longer seeks.
    fn alone(&mut self, player: u16) {
        self.step(player);
        for _ in 0..self.history.settings.bound() {
            match self.history.state(player) {
                State::Seeking(..) => self.step(player),
                _ => return,
            }
        }
    }
}
