//! The command `invariants`: demand 3 and the figures of 02, P7, tried on the grid here. Random
//! histories and all states that small settings can reach; and the worst schedules use exactly the
//! bound. `light_load` adds 02, P8.

use std::collections::HashSet;

use crate::calls::{Answer, Memory, Stand};
use crate::generate::histories::random_schedule;
use crate::generate::paths;
use crate::generate::worst::{self, in_order, worst_schedule, LastWriter};
use crate::grid::State;
use crate::history::History;
use crate::light_load;
use crate::random::Random;
use crate::rules::Grid;
use crate::schedule::{read_all, Event, Kind};
use crate::Settings;

/// Memories up to so many values are copied before each call, to see that a refusal changes none.
const SMALL_MEMORY: usize = 400;

/// Runs all checks, prints what fails, and answers how many passed and how many failed.
pub fn run(seed: u64, count: u64) -> (usize, usize) {
    let mut failures = Vec::new();
    let mut checks = 0;
    let mut check = |label: &str, outcome: Result<(), String>| {
        checks += 1;
        if let Err(cause) = outcome {
            println!("FAILED: {label}: {cause}");
            failures.push(label.to_string());
        }
    };
    for index in 0..count {
        let schedule = random_schedule(&mut Random::of_case(seed, index));
        check(&schedule.label, check_history(schedule.settings, &schedule.events));
    }
    println!("seed {seed}: {count} random histories");
    for case in paths::cases() {
        let read = read_all(&case.bytes).map_err(|refusal| refusal.to_string());
        let outcome = read.and_then(|(settings, events)| check_history(settings, &events));
        check(&case.label, outcome);
    }
    println!("paths to every place of every grid");
    let worst = worst::settings();
    for settings in &worst {
        for last in LastWriter::BOTH {
            check(&format!("worst {settings} {last:?}"), check_worst(*settings, last));
        }
    }
    println!("{} settings with their worst schedules, in two forms", worst.len());
    for (mode, n, k) in [
        (0, 2, 2),
        (0, 3, 2),
        (0, 3, 3),
        (1, 1, 1),
        (1, 2, 2),
        (1, 3, 2),
        (1, 4, 2),
        (1, 3, 3),
        (0, 4, 3),
    ] {
        let settings = Settings::new(mode, n, k);
        check(&format!("reachable {settings}"), check_reachable(settings));
    }
    light_load::check_all(seed, count, &mut check);
    (checks - failures.len(), failures.len())
}

/// All that demand 3 and P7 say of a history, after each of its calls.
fn check_history(settings: Settings, events: &[Event]) -> Result<(), String> {
    let mut history = History::new(&Grid, settings).map_err(|refusal| refusal.to_string())?;
    let values = history.memory.records.len() + history.memory.registers.marks.len();
    let mut most = 0;
    for (position, event) in events.iter().enumerate() {
        let before = (values <= SMALL_MEMORY).then(|| history.memory.clone());
        let task = usize::from(event.id);
        let state = history.memory.records.get(task).map(|record| record.state);
        let answer = history.call(*event);
        let fail = |cause: &str| Err(format!("{cause} at event {position}, {event:?}"));
        if answer.is_err() && before.is_some_and(|before| before != history.memory) {
            return fail("a refused call changed something");
        }
        if event.kind == Kind::Turn && matches!(state, Some(State::Seeking(..))) {
            let used = history.turns[task];
            let Ok(answer) = answer else {
                return fail("the turn of a seeking task was refused");
            };
            let seeks = answer.stand() == Some(Stand::Seeks);
            if used > settings.bound() || (seeks && used == settings.bound()) {
                return fail("bound passed");
            }
        }
        if let Ok(Some(Stand::Holds(_))) = answer.map(Answer::stand) {
            most = most.max(history.turns[task]);
        }
        check_names(settings, &history.memory).or_else(|cause| fail(&cause))?;
        check_figures(&history).or_else(|cause| fail(&cause))?;
    }
    if history.most as usize != most {
        return Err(format!("MOST is {}, and the most turns counted {most}", history.most));
    }
    check_each_alone(&history)
}

/// The figure of a task that is out is its turns counted since its ask, that of an idle one 0.
fn check_figures(history: &History) -> Result<(), String> {
    for (task, record) in history.memory.records.iter().enumerate() {
        let due = if record.state == State::Idle { 0 } else { history.turns[task] };
        if record.figure as usize != due {
            return Err(format!("the figure of task {task} is {}, not {due}", record.figure));
        }
    }
    Ok(())
}

/// The names held differ and are below k(k+1)/2.
fn check_names(settings: Settings, memory: &Memory) -> Result<(), String> {
    let mut held = vec![false; settings.names()];
    for record in &memory.records {
        if let State::Holding(place) = record.state {
            let name = settings.name(place).0 as usize;
            match held.get_mut(name) {
                None => return Err(format!("name {name} is too great")),
                Some(held) if *held => return Err(format!("name {name} is held twice")),
                Some(held) => *held = true,
            }
        }
    }
    Ok(())
}

/// Each seeking task holds within the bound, though every other task stops for good.
fn check_each_alone(history: &History) -> Result<(), String> {
    let seeks = |task: &u16| matches!(history.state(*task), State::Seeking(..));
    for task in (0..history.settings.n).filter(seeks) {
        let mut alone = history.clone();
        while let State::Seeking(..) = alone.state(task) {
            let turn = alone.call(Event::new(Kind::Turn, task));
            turn.map_err(|refusal| format!("alone, task {task}: {refusal}"))?;
            if alone.turns[usize::from(task)] > history.settings.bound() {
                return Err(format!("alone, task {task} passed the bound"));
            }
        }
    }
    Ok(())
}

/// The worst schedule: every call is accepted and task 0 uses exactly the bound.
fn check_worst(settings: Settings, last: LastWriter) -> Result<(), String> {
    let events = worst_schedule(settings, &in_order(settings.k), last);
    let mut history = History::new(&Grid, settings).map_err(|refusal| refusal.to_string())?;
    for event in events {
        history.call(event).map_err(|refusal| format!("{event:?}: {refusal}"))?;
    }
    let holds = matches!(history.state(0), State::Holding(_));
    if !holds || history.turns[0] != settings.bound() || history.most as usize != settings.bound() {
        return Err(format!("task 0 used {} turns, not {}", history.turns[0], settings.bound()));
    }
    Ok(())
}

/// The memory but for its figures, which no state depends on.
fn without_figures(memory: &Memory) -> Memory {
    let mut memory = memory.clone();
    memory.records.iter_mut().for_each(|record| *record = record.state.after(0));
    memory
}

/// In every state that some history reaches, the names differ and seekers' turns are accepted.
fn check_reachable(settings: Settings) -> Result<(), String> {
    let start = History::new(&Grid, settings).map_err(|refusal| refusal.to_string())?;
    let mut seen = HashSet::from([without_figures(&start.memory)]);
    let mut waiting = vec![start];
    while let Some(history) = waiting.pop() {
        check_names(settings, &history.memory)?;
        for task in 0..settings.n {
            for kind in Kind::ALL {
                let mut next = history.clone();
                let seeking = matches!(history.state(task), State::Seeking(..));
                match next.call(Event::new(kind, task)) {
                    Err(_) if seeking && kind == Kind::Turn => {
                        return Err(format!("turn of seeking task {task} refused"));
                    }
                    Err(_) if next.memory != history.memory => {
                        return Err("a refused call changed something".to_string());
                    }
                    Err(_) => {}
                    Ok(_) => {
                        if seen.insert(without_figures(&next.memory)) {
                            waiting.push(next);
                        }
                    }
                }
            }
        }
    }
    println!("{settings}: all {} states that can be reached", seen.len());
    Ok(())
}
