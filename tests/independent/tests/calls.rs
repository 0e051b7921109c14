//! The calls on arbitrary memories: their binary form, their text, and the edges among them.

use std::collections::BTreeSet;

use independent::call_cases::{
    self, cases, inputs, outcomes, pack, store, unpack, Call, CallCase, MOST_BYTES, MOST_MARKS,
    MOST_RECORDS, MOST_X,
};
use independent::calls::{Answer, Memory, Needed, Stand};
use independent::grid::{Direction, Place, Point, Record, Registers, Settings, State};
use independent::refusal::{Refusal, Row};
use independent::rules::Grid;

fn at(r: u8, c: u8) -> Place {
    Place { r, c }
}

#[test]
fn a_case_byte_for_byte() {
    let records = vec![
        State::Seeking(at(1, 2), Point::Scan(258)).after(0x0403_0201),
        State::Holding(at(3, 4)).after(5),
        State::Idle.after(0),
        State::Idle.after(65_536),
        State::Seeking(at(255, 0), Point::Clear(Direction::Right)).after(u32::MAX),
        State::Seeking(at(0, 7), Point::Clear(Direction::Down)).after(0),
        State::Seeking(at(0, 1), Point::WriteX).after(0),
        State::Seeking(at(0, 1), Point::WriteMark).after(0),
        State::Seeking(at(0, 1), Point::ReadX).after(0),
    ];
    let registers = Registers { x: vec![1, 65_537, 0xFEDC_BA98], marks: vec![0, 1, 255, 2, 0] };
    let before = Memory { records, registers };
    let settings = Settings::new(1, 259, 4).of_version(1_541);
    let case = CallCase::new(&Grid, "", settings, before, Call::Turn(772));
    let due = [
        &[1, 1, 3, 1, 4, 5, 6, 4, 3, 9, 0, 3, 0, 5, 0][..],
        &[1, 1, 2, 1, 2, 1, 1, 2, 3, 4],
        &[2, 3, 4, 0, 0, 0, 5, 0, 0, 0],
        &[0, 0, 0, 0, 0, 0, 0, 0, 0, 0],
        &[0, 0, 0, 0, 0, 0, 0, 0, 1, 0],
        &[1, 255, 0, 4, 0, 0, 255, 255, 255, 255],
        &[1, 0, 7, 5, 0, 0, 0, 0, 0, 0],
        &[1, 0, 1, 0, 0, 0, 0, 0, 0, 0],
        &[1, 0, 1, 2, 0, 0, 0, 0, 0, 0],
        &[1, 0, 1, 3, 0, 0, 0, 0, 0, 0],
        &[1, 0, 0, 0, 1, 0, 1, 0, 0x98, 0xBA, 0xDC, 0xFE],
        &[0, 1, 255, 2, 0],
    ];
    assert_eq!(pack(&case), due.concat());
    let empty = Memory { records: vec![], registers: Registers { x: vec![], marks: vec![] } };
    for (call, code, low) in [(Call::Ask(9), 0, 9), (Call::Release(9), 2, 9), (Call::Setup, 3, 0)] {
        let case = CallCase::new(&Grid, "", Settings::new(0, 1, 1), empty.clone(), call);
        assert_eq!(pack(&case), [code, 0, 1, 0, 1, 1, 0, low, 0, 0, 0, 0, 0, 0, 0]);
        assert_eq!(case.outcome(), "answer refused 2\nrecords\nx\nmarks\n");
    }
}

#[test]
fn an_outcome_letter_for_letter() {
    let input = [
        &[1, 1, 2, 0, 2, 2, 0, 1, 0, 4, 0, 1, 0, 2, 0][..],
        &[0, 0, 0, 0, 0, 0, 0, 0, 0, 0],
        &[1, 0, 0, 0, 0, 0, 4, 0, 0, 0],
        &[2, 9, 9, 0, 0, 0, 0, 1, 0, 0],
        &[0, 0, 0, 0, 0, 0, 7, 0, 0, 0],
        &[1, 0, 0, 0, 0, 1],
    ]
    .concat();
    let due = "answer seeks W X 0 0 2\nrecords idle seek/0/0/scan/0/5 hold/9/9/256 idle/7\nx 2\nmarks 0 1\n";
    assert_eq!(outcomes(&Grid, &input).unwrap(), due);
    let two = [&input[..], &input[..]].concat();
    assert_eq!(outcomes(&Grid, &two).unwrap(), due.repeat(2));
    assert_eq!(outcomes(&Grid, &[]).unwrap(), "");
    assert!(outcomes(&Grid, &input[..input.len() - 1]).is_err());
    for (index, value) in [(0, 4), (15, 3), (28, 6)] {
        let mut bad = input.clone();
        bad[index] = value;
        assert!(outcomes(&Grid, &bad).is_err());
    }
}

#[test]
fn what_is_packed_is_unpacked_again() {
    for case in cases(1) {
        let asked = unpack(&pack(&case)).unwrap();
        assert_eq!(asked, [(case.settings, case.before, case.call)]);
    }
}

#[test]
fn rows_and_inputs_are_within_their_limits() {
    for case in cases(1).iter().chain(&cases(2)) {
        assert!(case.before.records.len() <= MOST_RECORDS);
        assert!(case.before.registers.x.len() <= MOST_X);
        assert!(case.before.registers.marks.len() <= MOST_MARKS);
    }
    let inputs = inputs(1);
    assert_eq!(inputs[0].bytes.len(), MOST_BYTES);
    assert!(inputs.iter().all(|input| input.bytes.len() <= MOST_BYTES));
    let count: usize = inputs.iter().map(|input| input.parts.len()).sum();
    assert_eq!(count, cases(1).len());
}

/// What of the edges a case is.
fn edges(case: &CallCase) -> Vec<String> {
    let CallCase { settings, before, call, answer, after, .. } = case;
    let needed = Needed::new(&Grid, *settings);
    let (records, x, marks) = (&before.records, &before.registers.x, &before.registers.marks);
    let out = records.iter().take(needed.records).filter(|record| record.state != State::Idle);
    let many_out = settings.allowed() && out.count() > settings.k();
    let mut edges = Vec::new();
    match (call, answer) {
        (_, Err(Refusal::OutOfRange { row: Row::Marks, index })) => {
            let first_block = if settings.long_lived() { settings.tasks() } else { 1 };
            edges.extend((*index >= first_block).then(|| "mark of a later block".to_string()));
        }
        (_, Err(Refusal::OutOfRange { row: Row::X, index })) => {
            edges.push(format!("X {}", x[*index]));
            edges.extend((marks[0] > 1 && *index > 0).then(|| "X before marks".to_string()));
        }
        (_, Err(Refusal::OutOfRange { row: Row::Records, index })) => {
            edges.extend(figure_edge(*settings, *call, records[*index], *index));
            let bad = x.first().is_some_and(|x| *x > u32::from(settings.n));
            edges.extend((bad && *index > 0).then(|| "records before X".to_string()));
            let bad = marks.first().is_some_and(|mark| *mark > 1);
            edges.extend((bad && *index > 0).then(|| "records before marks".to_string()));
        }
        (Call::Setup, Ok(_)) => {
            let bad = x.first().is_some_and(|x| *x > u32::from(settings.n));
            edges.extend(bad.then(|| "setup over a bad X".to_string()));
            let busy = records[needed.records..].iter().any(|record| *record != Record::IDLE);
            edges.extend(busy.then(|| "setup beside a busy surplus".to_string()));
        }
        (Call::Setup, Err(Refusal::BusyRow)) => {
            let busy = records.iter().position(|record| *record != Record::IDLE);
            let last = busy == needed.records.checked_sub(1);
            edges.extend(last.then(|| "setup with the last record busy".to_string()));
            let bad = busy.is_some_and(|busy| !records[busy].in_range(*settings));
            edges.extend(bad.then(|| "setup with a bad record".to_string()));
            let figure = busy.is_some_and(|busy| records[busy].state == State::Idle);
            edges.extend(figure.then(|| "setup with an idle figure".to_string()));
        }
        (Call::Ask(_), Err(Refusal::TooManyOut)) => {
            edges.extend(many_out.then(|| "ask with more than k out".to_string()));
        }
        (Call::Turn(p), Ok(answer)) => {
            let used = after.records[usize::from(*p)].figure as usize;
            let carried = answer.stand() == Some(Stand::Seeks) && used == settings.bound();
            edges.extend(carried.then(|| "figure carried past its range".to_string()));
            edges.extend(many_out.then(|| "turn with more than k out".to_string()));
            let right = matches!(
                after.records[usize::from(*p)].state,
                State::Seeking(_, Point::Clear(Direction::Right))
            );
            let own = match records[usize::from(*p)].state {
                State::Seeking(_, Point::Scan(h)) => h == *p && settings.long_lived(),
                _ => false,
            };
            edges.extend((own && right).then(|| "own mark 1".to_string()));
        }
        (Call::Release(p), Ok(Answer::Freed(_, access))) => {
            let Record { state: State::Holding(place), figure } = records[usize::from(*p)] else {
                unreachable!()
            };
            let most = figure as usize == settings.bound();
            edges.extend(most.then(|| "holder at the bound".to_string()));
            let touches_nothing = before.registers == after.registers && marks.contains(&1);
            let edge = !settings.is_block(place) && touches_nothing && access.is_none();
            edges.extend(edge.then(|| "release on the edge".to_string()));
        }
        _ => {}
    }
    if answer.is_ok() && *call != Call::Setup {
        let bad = |record: &Record| !record.in_range(*settings);
        let in_records = records[needed.records..].iter().any(bad);
        let in_x = x[needed.x..].iter().any(|x| *x > u32::from(settings.n));
        let in_marks = marks[needed.marks..].iter().any(|mark| *mark > 1);
        let which = [(in_records, "records"), (in_x, "x"), (in_marks, "marks")];
        edges.extend(which.iter().filter(|(is, _)| *is).map(|(_, row)| format!("surplus {row}")));
        let full = settings.n == 256 && records.len() == 256;
        edges.extend(full.then(|| "256 records".to_string()));
    }
    if case.tries == "row length" {
        edges.push(format!("{} of {} records", records.len(), settings.n));
    }
    edges
}

/// Which record is out of range by its figure alone, and whose call meets it.
fn figure_edge(settings: Settings, call: Call, record: Record, index: usize) -> Option<String> {
    let Record { state, figure } = record;
    let (Call::Ask(id) | Call::Turn(id) | Call::Release(id)) = call else {
        return None;
    };
    if !state.in_range(settings) {
        return None;
    }
    let state = match state {
        State::Idle => "idle",
        State::Seeking(..) => "seeking",
        State::Holding(_) => "holding",
    };
    let beyond = figure as usize - settings.bound().min(figure as usize);
    let by = match usize::from(id) {
        id if id == index => "its own call",
        id if id >= settings.tasks() => "no task",
        _ => "another task",
    };
    let edge = match beyond {
        0 | 1 => format!("{beyond} beyond the bound"),
        _ => "far beyond the bound".to_string(),
    };
    Some(format!("{state}, {edge}, met by {by}"))
}

#[test]
fn cases_have_every_edge_of_figures() {
    let seen: BTreeSet<String> = cases(1).iter().flat_map(edges).collect();
    let bys = ["its own call", "another task", "no task"];
    let beyond = ["0 beyond the bound", "1 beyond the bound", "far beyond the bound"];
    for (state, beyond) in [("seeking", &beyond[..]), ("holding", &beyond[1..]), ("idle", &beyond)]
    {
        for (beyond, by) in beyond.iter().flat_map(|beyond| bys.map(|by| (beyond, by))) {
            let edge = format!("{state}, {beyond}, met by {by}");
            assert!(seen.contains(&edge), "{edge}");
        }
    }
}

#[test]
fn cases_and_stored_cases_have_the_edges() {
    let seen: BTreeSet<String> = cases(1).iter().flat_map(edges).collect();
    let named = [
        "mark of a later block",
        "X before marks",
        "records before X",
        "records before marks",
        "ask with more than k out",
        "turn with more than k out",
        "own mark 1",
        "release on the edge",
        "surplus records",
        "surplus x",
        "surplus marks",
        "setup over a bad X",
        "setup beside a busy surplus",
        "setup with the last record busy",
        "setup with a bad record",
        "setup with an idle figure",
        "figure carried past its range",
        "holder at the bound",
        "seeking, 0 beyond the bound, met by another task",
        "seeking, 0 beyond the bound, met by no task",
    ];
    let wide = [65_536, 65_537, 1 << 31, u32::MAX].map(|x: u32| format!("X {x}"));
    let stored: BTreeSet<String> = store::cases().iter().flat_map(edges).collect();
    for edge in named.map(String::from).into_iter().chain(wide) {
        assert!(seen.contains(&edge) && stored.contains(&edge), "{edge}");
    }
    assert!(seen.contains("256 records"));
    for (n, length) in (1..=4).flat_map(|n| (0..=8).map(move |length| (n, length))) {
        assert!(seen.contains(&format!("{length} of {n} records")));
    }
}

#[test]
fn text_has_the_outcomes() {
    let cases = store::cases();
    let text = call_cases::text(&cases);
    assert!(text.ends_with(&format!("end {}\n", cases.len())));
    assert!(cases.iter().all(|case| text.contains(&case.outcome())));
}
