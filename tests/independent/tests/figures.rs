//! 02, P7: the turns used, in the record.

use independent::calls::{call, Answer, Memory, Stand};
use independent::generate::worst::{in_order, worst_schedule, LastWriter};
use independent::grid::{Identifier, Place, Point, Record, Settings, State};
use independent::history::History;
use independent::refusal::{Refusal, Row};
use independent::rules::Grid;
use independent::schedule::{Event, Kind};

const START: Place = Place { r: 0, c: 0 };

fn seeking(figure: u32) -> Record {
    State::Seeking(START, Point::WriteX).after(figure)
}

#[test]
fn ranges_of_figures() {
    for (settings, bound) in [
        (Settings::new(0, 4, 3), 8),
        (Settings::new(1, 4, 3), 16),
        (Settings::new(1, 256, 16), 3_900),
    ] {
        let holding = |figure| State::Holding(START).after(figure);
        assert!([0, 1, bound - 1].into_iter().all(|figure| seeking(figure).in_range(settings)));
        assert!([0, bound - 1, bound].into_iter().all(|figure| holding(figure).in_range(settings)));
        for figure in [bound + 1, 65_536, u32::MAX] {
            assert!(!seeking(figure).in_range(settings) && !holding(figure).in_range(settings));
        }
        assert!(!seeking(bound).in_range(settings));
        assert!(Record::IDLE.in_range(settings));
        assert!(
            [1, bound, u32::MAX].map(|f| State::Idle.after(f).in_range(settings)) == [false; 3]
        );
    }
    let alone = Settings::new(1, 3, 1);
    assert!(State::Holding(START).after(0).in_range(alone));
    assert!(!State::Holding(START).after(1).in_range(alone));
}

#[test]
fn a_figure_carried_past_its_range_is_stored_and_met_by_every_call() {
    for settings in [Settings::new(0, 3, 2), Settings::new(1, 3, 2)] {
        let bound = settings.bound() as u32;
        let mut memory = Memory::idle(&Grid, settings);
        memory.records[1] = seeking(bound - 1);
        let turned = call(&Grid, settings, Kind::Turn, Identifier(1), &mut memory);
        assert!(matches!(turned, Ok(Answer::Turned(Stand::Seeks, _))));
        assert_eq!(memory.records[1], State::Seeking(START, Point::Scan(0)).after(bound));
        for (kind, id) in Kind::ALL.into_iter().flat_map(|kind| [0, 1, 2, 3].map(|id| (kind, id))) {
            let mut after = memory.clone();
            let answer = call(&Grid, settings, kind, Identifier(id), &mut after);
            assert_eq!(answer, Err(Refusal::OutOfRange { row: Row::Records, index: 1 }));
            assert_eq!(after, memory);
        }
    }
}

#[test]
fn a_name_taken_at_the_bound_is_freed() {
    let settings = Settings::new(1, 3, 2);
    let mut memory = Memory::idle(&Grid, settings);
    memory.records[1] = State::Seeking(START, Point::ReadX).after(settings.bound() as u32 - 1);
    memory.registers.x[0] = 2;
    assert!(call(&Grid, settings, Kind::Turn, Identifier(1), &mut memory).is_ok());
    assert_eq!(memory.records[1], State::Holding(START).after(settings.bound() as u32));
    assert!(call(&Grid, settings, Kind::Free, Identifier(1), &mut memory).is_ok());
    assert_eq!(memory.records, [Record::IDLE; 3]);
}

#[test]
fn turns_are_counted_from_each_ask() {
    let mut history = History::new(&Grid, Settings::new(1, 2, 2)).unwrap();
    let mut figures = Vec::new();
    let calls = [Kind::Turn, Kind::Ask, Kind::Ask, Kind::Turn, Kind::Turn, Kind::Turn, Kind::Turn]
        .into_iter()
        .chain([Kind::Turn, Kind::Turn, Kind::Free, Kind::Free, Kind::Ask, Kind::Turn]);
    for kind in calls {
        let _ = history.call(Event::new(kind, 1));
        figures.push(history.memory.records[1].figure);
    }
    // Refused are a turn before the ask, a second ask, a turn of the holder and a second release.
    assert_eq!(figures, [0, 0, 0, 1, 2, 3, 4, 5, 5, 0, 0, 0, 1]);
    assert_eq!(history.most, 5);
}

#[test]
fn worst_schedules_carry_a_figure_to_the_bound() {
    for settings in [Settings::new(0, 16, 16), Settings::new(1, 5, 4)] {
        let mut history = History::new(&Grid, settings).unwrap();
        for event in worst_schedule(settings, &in_order(settings.k), LastWriter::Holds) {
            history.call(event).unwrap();
        }
        assert_eq!(history.memory.records[0].figure as usize, settings.bound());
        assert!(history.call(Event::new(Kind::Turn, 0)) == Err(Refusal::TaskHolding));
    }
}
