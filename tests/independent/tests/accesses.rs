//! 02, P6: the access of each turn and release, and that `trace` and `cut` notice a wrong one.

use std::path::Path;
use std::process::Command;

use independent::access::{Access, Operation, Register};
use independent::calls::Answer;
use independent::cut::{cut, listing_before_p6};
use independent::event_line;
use independent::generate::edges::listing_of_01;
use independent::generate::schedules;
use independent::grid::{Direction, Place, Point, Settings, State};
use independent::history::History;
use independent::listing::listing;
use independent::rules::Grid;
use independent::schedule::{Event, Kind};
use independent::trace::fault;
use independent::variants::accesses;

const BINARY: &str = env!("CARGO_BIN_EXE_independent");

/// What the call of task 2 of 4 shows, k = 3, if its state is such. X is 1, 2, 3 and of the marks
/// those at an odd index are 1.
fn shown(mode: u8, kind: Kind, state: State) -> String {
    let mut history = History::new(&Grid, Settings::new(mode, 4, 3)).unwrap();
    history.memory.records[2].state = state;
    history.memory.registers.x = vec![1, 2, 3];
    for (index, mark) in history.memory.registers.marks.iter_mut().enumerate() {
        *mark = (index % 2) as u8;
    }
    history.call(Event::new(kind, 2)).unwrap().to_string()
}

#[test]
fn every_access_letter_for_letter() {
    let block_1 = Place { r: 0, c: 1 };
    let block_2 = Place { r: 1, c: 0 };
    for (mode, place, point, due) in [
        (1, block_1, Point::WriteX, "seeks W X 1 0 3"),
        (1, block_1, Point::Scan(0), "seeks R M 1 0 0"),
        (1, block_1, Point::Scan(3), "seeks R M 1 3 1"),
        (1, block_2, Point::WriteMark, "seeks W M 2 2 1"),
        (1, block_1, Point::ReadX, "seeks R X 1 0 2"),
        (1, block_2, Point::ReadX, "holds 3 R X 2 0 3"),
        (1, block_2, Point::Clear(Direction::Right), "holds 4 W M 2 2 0"),
        (1, block_2, Point::Clear(Direction::Down), "holds 5 W M 2 2 0"),
        (0, block_2, Point::WriteX, "seeks W X 2 0 3"),
        (0, block_2, Point::Scan(0), "seeks R M 2 0 0"),
        (0, block_1, Point::Scan(0), "holds 2 R M 1 0 1"),
        (0, block_2, Point::WriteMark, "seeks W M 2 0 1"),
        (0, block_1, Point::ReadX, "holds 4 R X 1 0 2"),
    ] {
        assert_eq!(shown(mode, Kind::Turn, State::Seeking(place, point)), due);
    }
    assert_eq!(shown(1, Kind::Free, State::Holding(block_2)), "freed 3 W M 2 2 0");
    assert_eq!(shown(1, Kind::Free, State::Holding(Place { r: 1, c: 1 })), "freed 4 none");
    assert_eq!(shown(1, Kind::Ask, State::Idle), "seeks");
}

#[test]
fn an_ask_that_holds_at_once_shows_nothing() {
    let mut history = History::new(&Grid, Settings::new(1, 1, 1)).unwrap();
    assert_eq!(history.call(Event::new(Kind::Ask, 0)).unwrap().to_string(), "holds 0");
    let freed = history.call(Event::new(Kind::Free, 0)).unwrap();
    assert!(matches!(freed, Answer::Freed(_, None)) && freed.to_string() == "freed 0 none");
}

#[test]
fn lines_are_read_back() {
    let read = event_line::read("8 turn 0 holds 2 W M 0 1 0").unwrap();
    let (operation, register) = (Operation::Write, Register::Mark);
    let access = Access { operation, register, block: 0, place: 1, value: 0 };
    assert_eq!((read.before_p6, read.access), ("8 turn 0 holds 2", Some(access)));
    for line in ["1 ask 0 seeks", "1 ask 0 holds 0", "1 free 0 refused 15", "1 free 0 freed 2 none"]
    {
        assert_eq!(event_line::read(line).unwrap().access, None);
    }
    for line in [
        "1 ask 0 seeks none",
        "1 ask 0 seeks W X 0 0 1",
        "1 turn 0 seeks",
        "1 turn 0 seeks none",
        "1 turn 0 holds 2",
        "1 turn 0 seeks W X 0 0",
        "1 turn 0 seeks W X 0 0 1 0",
        "1 turn 0 seeks X W 0 0 1",
        "1 turn 0 refused 15 none",
        "1 turn 0 freed 2 none",
        "1 free 0 freed 2",
        "1 free 0 freed none 2",
        "end 0 2 6",
    ] {
        assert_eq!(event_line::read(line), None, "{line}");
    }
}

#[test]
fn trace_finds_each_wrong_access() {
    let mut cases = schedules(1, 50);
    cases.retain(|case| case.bytes.len() <= 500);
    let faults = |rules| {
        let faulty = |text: String, file: &[u8]| fault(file, text.as_bytes()).is_some();
        cases.iter().filter(|case| faulty(listing(rules, &case.bytes), &case.bytes)).count()
    };
    assert_eq!(faults(&Grid), 0);
    for variant in accesses::ALL {
        assert!(faults(variant.rules) > 0, "{}", variant.name);
    }
}

#[test]
fn trace_finds_a_changed_a_missing_and_a_surplus_line() {
    let file = listing_of_01().bytes;
    let text = listing(&Grid, &file);
    assert_eq!(fault(&file, text.as_bytes()), None);
    for (was, is) in [
        ("R X 0 0 2", "R X 0 0 1"),
        ("W M 0 1 0", "none"),
        ("R M 0 1 0", "R M 0 1 1"),
        ("R M 0 1 0", "R M 0 2 0"),
        ("R M 0 1 0", "R M 1 1 0"),
        ("W X 0 0 1", "W X 0 1 1"),
        (" none", ""),
        ("0 ask 0 seeks", "0 ask 0 seeks none"),
        ("15 free 1 freed 0 W M 0 1 0\n", ""),
        ("end 0 2 6\n", ""),
        ("end 0 2 6\n", "end 0 2 6\nend 0 2 6\n"),
        ("grid 1 2 2", "grid 0 2 2"),
    ] {
        let changed = text.replacen(was, is, 1);
        assert!(changed != text && fault(&file, changed.as_bytes()).is_some(), "{was}: {is}");
    }
}

#[test]
fn cut_gives_the_listing_of_before() {
    let file = listing_of_01().bytes;
    let before = listing_before_p6(&file).unwrap();
    assert!(before.contains("\n8 turn 0 holds 2\n9 turn 1 seeks\n"));
    assert!(before
        .ends_with("\n13 free 0 freed 2\n14 turn 0 refused 15\n15 free 1 freed 0\nend 0 2 6\n"));
    assert_eq!(cut(listing(&Grid, &file).as_bytes()), Ok(before.clone()));
    assert!(cut(before.as_bytes()).is_err());
}

/// The last line and the exit status of a command.
fn closing(words: &[&str]) -> (bool, String) {
    let directory = Path::new(env!("CARGO_TARGET_TMPDIR")).join("listings");
    std::fs::create_dir_all(&directory).unwrap();
    let output = Command::new(BINARY).current_dir(directory).args(words).output().unwrap();
    let text = String::from_utf8(output.stdout).unwrap();
    (output.status.success(), text.lines().last().unwrap().to_string())
}

#[test]
fn programs_are_traced_and_cut() {
    let none = ["--count", "0"];
    let program = [BINARY, "--count", "0", "--", "gridlist"];
    for words in [[&["trace"], &none[..]].concat(), [&["cut"], &program[..]].concat()] {
        let (success, last) = closing(&words);
        assert!(success && last.ends_with(" passed, 0 failed"), "{last}");
    }
    for (command, variant) in [("trace", "next-access"), ("cut", "block-names")] {
        let words = [&[command], &program[..], &["--variant", variant]].concat();
        let (success, last) = closing(&words);
        assert!(!success && !last.ends_with(" 0 failed"), "{last}");
    }
}
