//! What the generated cases and calls cover, and that a seed gives the same ones again.

use std::collections::BTreeSet;

use independent::call_cases::{self, Call};
use independent::calls::{Answer, Needed, Stand};
use independent::generate::{fixed_cases, random_case, worst};
use independent::grid::{Direction, Point, Settings, State};
use independent::listing::listing;
use independent::refusal::{Refusal, Row};
use independent::rules::Grid;
use independent::schedule::read_all;

#[test]
fn a_seed_gives_the_same_cases_again() {
    for index in 0..20 {
        assert_eq!(random_case(3, index).bytes, random_case(3, index).bytes);
    }
    assert_ne!(random_case(3, 5).bytes, random_case(4, 5).bytes);
    assert_eq!(call_cases::text(&call_cases::cases(1)), call_cases::text(&call_cases::cases(1)));
}

#[test]
fn cases_have_every_name_of_every_grid_and_every_refusal() {
    let mut names = BTreeSet::new();
    let mut refusals = BTreeSet::new();
    for case in fixed_cases() {
        let text = listing(&Grid, &case.bytes);
        let settings = read_all(&case.bytes).map(|(settings, _)| settings);
        for line in text.lines() {
            let words: Vec<&str> = line.split(' ').collect();
            match words[..] {
                [_, _, _, "holds", name, ..] => {
                    let settings = settings.unwrap();
                    let Settings { mode, k, version, .. } = settings;
                    names.insert((mode, k, version, name.parse::<usize>().unwrap()));
                }
                [.., "refused", number] => {
                    refusals.insert(number.parse::<u8>().unwrap());
                }
                _ => {}
            }
        }
    }
    let all: usize = (1..=16).map(|k| Settings::new(1, 16, k).names()).sum();
    assert_eq!(names.len(), 4 * all);
    let due = [1, 4, 5, 7, 8, 9, 10, 11, 12, 15, 16, 17];
    assert_eq!(refusals.into_iter().collect::<Vec<u8>>(), due);
}

#[test]
fn worst_schedules_use_exactly_the_bound() {
    for case in worst::cases() {
        let (settings, _) = read_all(&case.bytes).unwrap();
        let text = listing(&Grid, &case.bytes);
        let most = text.trim_end().rsplit(' ').next().unwrap();
        assert_eq!(most, settings.bound().to_string(), "{}", case.label);
    }
}

#[test]
fn random_cases_have_the_edges() {
    let mut seen = BTreeSet::new();
    for index in 0..1500 {
        let Ok((settings, events)) = read_all(&random_case(1, index).bytes) else {
            seen.insert("bad file");
            continue;
        };
        let Settings { mode, n, k, version } = settings;
        let edges = [
            (mode == 0, "mode 0"),
            (mode == 1, "mode 1"),
            (version == 1, "version 1"),
            (version == 2, "version 2"),
            (k == 1, "k = 1"),
            (u16::from(k) == n, "k = N"),
            (n == 1, "N = 1"),
            (n == 256, "N = 256"),
            (k == 16, "k = 16"),
            (n == 256 && k == 16, "N = 256, k = 16"),
            (events.is_empty(), "no event"),
            (events.len() == 16_384, "16,384 events"),
            (events.iter().any(|event| event.id >= n), "identifier beyond N"),
        ];
        seen.extend(edges.iter().filter(|(is, _)| *is).map(|(_, name)| *name));
    }
    assert_eq!(seen.len(), 14, "{seen:?}");
}

#[test]
fn refused_calls_change_nothing_and_none_changes_the_surplus() {
    for case in call_cases::cases(1) {
        if case.answer.is_err() {
            assert_eq!(case.before, case.after);
            continue;
        }
        let needed = Needed::new(&Grid, case.settings);
        let (before, after) = (&case.before, &case.after);
        assert_eq!(before.records[needed.records..], after.records[needed.records..]);
        assert_eq!(before.registers.x[needed.x..], after.registers.x[needed.x..]);
        assert_eq!(before.registers.marks[needed.marks..], after.registers.marks[needed.marks..]);
    }
}

#[test]
fn calls_have_every_refusal_every_answer_and_every_point() {
    let mut seen = BTreeSet::new();
    for case in call_cases::cases(1) {
        seen.insert(match case.answer {
            Ok(Answer::Done) => "done",
            Ok(Answer::Asked(Stand::Seeks)) => "asked, seeks",
            Ok(Answer::Asked(Stand::Holds(_))) => "asked, holds",
            Ok(Answer::Turned(Stand::Seeks, _)) => "turned, seeks",
            Ok(Answer::Turned(Stand::Holds(_), _)) => "turned, holds",
            Ok(Answer::Freed(_, Some(_))) => "freed, with an access",
            Ok(Answer::Freed(_, None)) => "freed, with none",
            Err(Refusal::OutOfRange { row: Row::Records, .. }) => "3 records",
            Err(Refusal::OutOfRange { row: Row::X, .. }) => "3 x",
            Err(Refusal::OutOfRange { row: Row::Marks, .. }) => "3 marks",
            Err(Refusal::Settings) => "1",
            Err(Refusal::ShortRow) => "2",
            Err(Refusal::Identifier) => "4",
            Err(Refusal::OneTimeRelease) => "5",
            Err(Refusal::TooManyOut) => "7",
            Err(Refusal::TaskIdle) => "15",
            Err(Refusal::TaskSeeking) => "16",
            Err(Refusal::TaskHolding) => "17",
            Err(Refusal::BusyRow) => "18",
            Err(_) => "another",
        });
        let (Call::Turn(id), Ok(_)) = (case.call, case.answer) else {
            continue;
        };
        if let State::Seeking(_, point) = case.before.records[usize::from(id)].state {
            seen.insert(match (point, case.settings.mode) {
                (Point::WriteX, 0) => "one-time write X",
                (Point::Scan(_), 0) => "one-time scan",
                (Point::WriteMark, 0) => "one-time write mark",
                (Point::ReadX, 0) => "one-time read X",
                (Point::WriteX, _) => "write X",
                (Point::Scan(h), _) if h == id => "scan of the own mark",
                (Point::Scan(_), _) => "scan",
                (Point::WriteMark, _) => "write mark",
                (Point::ReadX, _) => "read X",
                (Point::Clear(Direction::Right), _) => "clear, going right",
                (Point::Clear(Direction::Down), _) => "clear, going down",
            });
        }
    }
    assert_eq!(seen.len(), 19 + 11, "{seen:?}");
}
