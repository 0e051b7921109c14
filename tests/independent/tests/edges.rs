//! 01, "Both sides of each edge", and the edges of 02.

use std::collections::BTreeSet;

use independent::calls::{Answer, Stand};
use independent::grid::{Name, Place, Settings};
use independent::history::History;
use independent::refusal::Refusal;
use independent::rules::Grid;
use independent::schedule::{Event, Kind};

struct Board(History<'static>);

impl Board {
    fn new(mode: u8, n: u16, k: u8) -> Board {
        Board(History::new(&Grid, Settings::new(mode, n, k)).unwrap())
    }

    fn call(&mut self, kind: Kind, id: u16) -> Result<Answer, Refusal> {
        self.0.call(Event::new(kind, id))
    }

    fn ask(&mut self, id: u16) -> Result<Answer, Refusal> {
        self.call(Kind::Ask, id)
    }

    /// The name that the task gets, and the turns it took.
    fn turns_to_hold(&mut self, id: u16) -> (u32, usize) {
        for turns in 1.. {
            if let Some(Stand::Holds(name)) = self.call(Kind::Turn, id).unwrap().stand() {
                return (name.0, turns);
            }
        }
        unreachable!()
    }
}

#[test]
fn names_at_k_5() {
    let settings = Settings::new(1, 5, 5);
    let names =
        [(0, 0), (0, 4), (1, 0), (2, 2), (4, 0)].map(|(r, c)| settings.name(Place { r, c }).0);
    assert_eq!(names, [0, 4, 5, 11, 14]);
}

/// 02, P3: d(d+1)/2 + r.
#[test]
fn names_by_diagonal_at_k_5() {
    let settings = Settings::new(1, 5, 5).of_version(2);
    let names = [(0, 0), (0, 1), (1, 0), (0, 4), (2, 2), (4, 0)]
        .map(|(r, c)| settings.name(Place { r, c }).0);
    assert_eq!(names, [0, 1, 2, 10, 12, 14]);
}

#[test]
fn both_versions_number_each_place_once() {
    for k in 1..=16u8 {
        let settings = Settings::new(0, 16, k);
        let places: Vec<Place> =
            (0..k).flat_map(|d| (0..=d).map(move |r| Place { r, c: d - r })).collect();
        let by_diagonal = places.iter().map(|place| settings.of_version(2).name(*place).0);
        assert!(by_diagonal.eq(0..settings.names() as u32));
        let by_row = places.iter().map(|place| settings.name(*place).0);
        assert_eq!(by_row.collect::<BTreeSet<u32>>().len(), settings.names());
        assert!(places.iter().all(|place| (settings.name(*place).0 as usize) < settings.names()));
    }
}

#[test]
fn names_and_blocks_are_counted_row_by_row() {
    for k in 1..=16u8 {
        let settings = Settings::new(0, 16, k);
        let (mut names, mut blocks) = (0, 0);
        for r in 0..k {
            for c in 0..k - r {
                let place = Place { r, c };
                assert_eq!(settings.name(place).0, names);
                names += 1;
                if settings.is_block(place) {
                    assert_eq!(settings.block(place), blocks);
                    blocks += 1;
                }
            }
        }
        assert_eq!((names as usize, blocks), (settings.names(), settings.blocks()));
    }
}

#[test]
fn k_1_holds_at_once() {
    for mode in [0, 1] {
        let mut board = Board::new(mode, 2, 1);
        assert_eq!(board.ask(1), Ok(Answer::Asked(Stand::Holds(Name(0)))));
        assert_eq!(board.ask(0), Err(Refusal::TooManyOut));
        assert_eq!(board.0.most, 0);
    }
}

#[test]
fn lone_task_and_the_one_behind_it() {
    for (first, second, turns) in [(0, 1, 3), (1, 0, 4)] {
        let mut board = Board::new(1, 2, 2);
        assert_eq!(board.ask(first), Ok(Answer::Asked(Stand::Seeks)));
        assert_eq!(board.turns_to_hold(first), (0, 5));
        assert_eq!(board.ask(second), Ok(Answer::Asked(Stand::Seeks)));
        assert_eq!(board.turns_to_hold(second), (1, turns));
    }
}

#[test]
fn one_time_first_and_later_task() {
    let mut board = Board::new(0, 2, 2);
    assert_eq!(board.ask(1), Ok(Answer::Asked(Stand::Seeks)));
    assert_eq!(board.turns_to_hold(1), (0, 4));
    assert_eq!(board.ask(0), Ok(Answer::Asked(Stand::Seeks)));
    assert_eq!(board.turns_to_hold(0), (1, 2));
}

#[test]
fn third_task_waits_until_one_is_freed() {
    let mut board = Board::new(1, 3, 2);
    board.ask(0).unwrap();
    board.ask(1).unwrap();
    assert_eq!(board.ask(2), Err(Refusal::TooManyOut));
    assert_eq!(board.turns_to_hold(0).0, 0);
    assert_eq!(board.ask(2), Err(Refusal::TooManyOut));
    assert!(matches!(board.call(Kind::Free, 0), Ok(Answer::Freed(Name(0), Some(_)))));
    assert_eq!(board.ask(2), Ok(Answer::Asked(Stand::Seeks)));
}

#[test]
fn identifiers_about_256() {
    let mut board = Board::new(1, 256, 16);
    assert_eq!(board.ask(256), Err(Refusal::Identifier));
    assert_eq!(board.ask(255), Ok(Answer::Asked(Stand::Seeks)));
}

#[test]
fn release_in_mode_0() {
    let mut board = Board::new(0, 3, 2);
    for id in 0..3 {
        assert_eq!(board.call(Kind::Free, id), Err(Refusal::OneTimeRelease));
    }
    assert_eq!(board.call(Kind::Free, 3), Err(Refusal::Identifier));
}

#[test]
fn settings_about_the_limits() {
    let allowed = |mode, n, k| Settings::new(mode, n, k).allowed();
    assert!(allowed(0, 1, 1) && allowed(1, 256, 16) && allowed(1, 16, 16));
    assert!(!allowed(1, 256, 17) && !allowed(0, 2, 3) && !allowed(1, 257, 2));
    let of_version = |version| Settings::new(1, 2, 2).of_version(version).allowed();
    assert!(of_version(1) && of_version(2));
    assert!([0, 3, 256, 257, 258, 65_535].into_iter().all(|version| !of_version(version)));
    assert!(!allowed(2, 2, 2) && !allowed(0, 0, 0) && !allowed(0, 1, 0) && !allowed(1, 0, 1));
}
