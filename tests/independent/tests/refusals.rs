//! The refusals of the calls, in their order, and what they leave as it was.

use independent::calls::{call, setup, Answer, Memory, Stand};
use independent::grid::{Direction, Identifier, Place, Point, Record, Settings, State};
use independent::refusal::{Refusal, Row};
use independent::rules::Grid;
use independent::schedule::Kind;

/// Each call is refused so and changes nothing.
fn all_refuse(settings: Settings, id: u32, memory: &Memory, refusal: Refusal) {
    for kind in Kind::ALL {
        let mut after = memory.clone();
        assert_eq!(call(&Grid, settings, kind, Identifier(id), &mut after), Err(refusal));
        assert_eq!(after, *memory);
    }
}

fn bad_record() -> Record {
    State::Holding(Place { r: 255, c: 255 }).after(0)
}

#[test]
fn faults_one_before_another() {
    let settings = Settings::new(1, 3, 3);
    let mut memory = Memory::idle(&Grid, settings);
    memory.records[2] = bad_record();
    memory.registers.x[1] = 4;
    memory.registers.marks[7] = 2;
    let mut short = memory.clone();
    short.registers.marks.pop();
    all_refuse(Settings::new(1, 3, 4), 9, &short, Refusal::Settings);
    all_refuse(settings, 9, &short, Refusal::ShortRow);
    all_refuse(settings, 9, &memory, Refusal::OutOfRange { row: Row::Records, index: 2 });
    memory.records[2] = Record::IDLE;
    all_refuse(settings, 9, &memory, Refusal::OutOfRange { row: Row::X, index: 1 });
    memory.registers.x[1] = 3;
    all_refuse(settings, 9, &memory, Refusal::OutOfRange { row: Row::Marks, index: 7 });
    memory.registers.marks[7] = 1;
    all_refuse(settings, 3, &memory, Refusal::Identifier);
}

#[test]
fn each_row_may_be_short() {
    let settings = Settings::new(1, 3, 3);
    for row in [Row::Records, Row::X, Row::Marks] {
        let mut memory = Memory::idle(&Grid, settings);
        match row {
            Row::Records => drop(memory.records.pop()),
            Row::X => drop(memory.registers.x.pop()),
            Row::Marks => drop(memory.registers.marks.pop()),
        }
        all_refuse(settings, 0, &memory, Refusal::ShortRow);
        assert_eq!(setup(&Grid, settings, &mut memory), Err(Refusal::ShortRow));
    }
}

/// The numbers of ask, turn and release, 0 where the call is accepted; a refused one changes nothing.
fn numbers(settings: Settings, id: u32, memory: &Memory) -> [u8; 3] {
    Kind::ALL.map(|kind| {
        let mut after = memory.clone();
        let answer = call(&Grid, settings, kind, Identifier(id), &mut after);
        assert!(answer.is_ok() || after == *memory);
        answer.map_or_else(Refusal::number, |_| 0)
    })
}

/// 02, P1: the state tells the number. With k out an ask of an idle task is 7, of another it is not;
/// a one-time release is 5 in every state.
#[test]
fn moment_comes_before_count_and_after_mode() {
    let place = Place { r: 0, c: 0 };
    for (mode, [of_idle, of_seeking, of_holding]) in [(0, [5, 5, 5]), (1, [15, 16, 0])] {
        let settings = Settings::new(mode, 3, 2);
        let mut memory = Memory::idle(&Grid, settings);
        memory.records[0] = State::Seeking(place, Point::WriteX).after(0);
        assert_eq!(numbers(settings, 1, &memory), [0, 15, of_idle]);
        memory.records[1] = State::Holding(place).after(0);
        assert_eq!(numbers(settings, 0, &memory), [16, 0, of_seeking]);
        assert_eq!(numbers(settings, 1, &memory), [17, 17, of_holding]);
        assert_eq!(numbers(settings, 2, &memory), [7, 15, of_idle]);
        assert_eq!(numbers(settings, 3, &memory), [4; 3]);
        memory.records[2] = State::Holding(place).after(0);
        assert_eq!(numbers(settings, 2, &memory), [17, 17, of_holding]);
    }
}

#[test]
fn ranges_of_records() {
    let seeking = |r, c, point| State::Seeking(Place { r, c }, point).after(0);
    let holding = |r, c| State::Holding(Place { r, c }).after(0);
    let once = Settings::new(0, 4, 3);
    let long = Settings::new(1, 4, 3);
    for settings in [once, long] {
        assert!(seeking(1, 0, Point::ReadX).in_range(settings));
        assert!(!seeking(1, 1, Point::ReadX).in_range(settings));
        assert!(!seeking(255, 1, Point::ReadX).in_range(settings));
        assert!(holding(1, 1).in_range(settings));
        assert!(!holding(3, 0).in_range(settings));
        assert!(!holding(1, 255).in_range(settings));
        assert!(seeking(0, 0, Point::Scan(0)).in_range(settings));
        let clear = seeking(0, 0, Point::Clear(Direction::Down));
        assert_eq!(clear.in_range(settings), settings.long_lived());
        let later = seeking(0, 0, Point::Scan(3));
        assert_eq!(later.in_range(settings), settings.long_lived());
        assert!(!seeking(0, 0, Point::Scan(4)).in_range(settings));
    }
    assert!(!seeking(0, 0, Point::WriteX).in_range(Settings::new(1, 1, 1)));
}

#[test]
fn surplus_is_neither_tested_nor_counted_nor_changed() {
    let settings = Settings::new(1, 2, 2);
    let mut memory = Memory::idle(&Grid, settings);
    memory.records.extend([bad_record(), State::Holding(Place { r: 0, c: 0 }).after(0)]);
    memory.registers.x.push(999);
    memory.registers.marks.push(7);
    let surplus = memory.clone();
    assert_eq!(
        call(&Grid, settings, Kind::Ask, Identifier(0), &mut memory),
        Ok(Answer::Asked(Stand::Seeks))
    );
    assert_eq!(
        call(&Grid, settings, Kind::Ask, Identifier(1), &mut memory),
        Ok(Answer::Asked(Stand::Seeks))
    );
    assert!(call(&Grid, settings, Kind::Turn, Identifier(1), &mut memory).is_ok());
    assert_eq!(memory.registers.x, [2, 999]);
    assert_eq!(
        call(&Grid, settings, Kind::Ask, Identifier(2), &mut memory),
        Err(Refusal::Identifier)
    );
    memory.records[..2].fill(Record::IDLE);
    assert_eq!(setup(&Grid, settings, &mut memory), Ok(Answer::Done));
    assert_eq!(memory, surplus);
}

/// 02, P4: setup tests 1, 2 and 18; a record out of range is other than idle.
#[test]
fn setup_declines_a_busy_row() {
    let settings = Settings::new(1, 3, 3);
    let place = Place { r: 0, c: 0 };
    let mut memory = Memory::idle(&Grid, settings);
    memory.registers.x.fill(u32::MAX);
    memory.registers.marks.fill(255);
    let refused = |settings, memory: &Memory, refusal| {
        let mut after = memory.clone();
        assert_eq!(setup(&Grid, settings, &mut after), Err(refusal));
        assert_eq!(after, *memory);
    };
    for (at, record) in [
        (0, State::Seeking(place, Point::WriteX).after(0)),
        (1, State::Holding(place).after(0)),
        (2, bad_record()),
        (2, State::Seeking(place, Point::Scan(3)).after(0)),
        (1, State::Idle.after(1)),
    ] {
        let mut busy = memory.clone();
        busy.records[at] = record;
        refused(settings, &busy, Refusal::BusyRow);
        refused(Settings::new(1, 3, 4), &busy, Refusal::Settings);
        busy.registers.marks.pop();
        refused(settings, &busy, Refusal::ShortRow);
    }
    memory.records.extend([bad_record(), State::Holding(place).after(0)]);
    let records = memory.records.clone();
    assert_eq!(setup(&Grid, settings, &mut memory), Ok(Answer::Done));
    assert_eq!(memory.records, records);
    assert_eq!(memory.registers, Memory::idle(&Grid, settings).registers);
}

#[test]
fn states_that_no_history_reaches_follow_the_rules() {
    let settings = Settings::new(1, 2, 2);
    let place = Place { r: 0, c: 0 };
    let mut memory = Memory::idle(&Grid, settings);
    memory.records = vec![State::Seeking(place, Point::Scan(0)).after(0); 2];
    memory.registers.marks = vec![1, 0];
    assert!(call(&Grid, settings, Kind::Turn, Identifier(0), &mut memory).is_ok());
    let going_right = State::Seeking(place, Point::Clear(Direction::Right));
    assert_eq!(memory.records[0], going_right.after(1));
    memory.records = vec![State::Holding(place).after(3); 2];
    assert!(call(&Grid, settings, Kind::Free, Identifier(1), &mut memory).is_ok());
    assert_eq!(memory.registers.marks, [1, 0]);
    assert_eq!(memory.records, [State::Holding(place).after(3), Record::IDLE]);
}
