//! The most that light load can cost in small grids, by all states that their histories reach.

use std::collections::{HashMap, VecDeque};

use crate::calls::{self, Memory, Stand};
use crate::grid::{Identifier, Settings, State};
use crate::refusal::Refusal;
use crate::rules::Grid;
use crate::schedule::Kind;

/// The most own turns that an acquisition uses in any history with at most m tasks out, and the
/// greatest r+c of a task that is out, by all states that such histories reach. For each state the
/// greatest number of turns is kept that each seeking task can have used there.
pub fn most_turns(settings: Settings, m: usize) -> Result<(usize, usize), Refusal> {
    let start = Memory::idle(&Grid, settings);
    let mut reached = HashMap::from([(start.clone(), vec![0; settings.tasks()])]);
    let mut waiting = VecDeque::from([start]);
    let (mut most, mut diagonal) = (0, 0);
    while let Some(memory) = waiting.pop_front() {
        let used = reached[&memory].clone();
        let out = memory.records.iter().filter(|record| record.state != State::Idle).count();
        for task in 0..settings.tasks() {
            let kind = match memory.records[task].state {
                State::Idle if out < m => Kind::Ask,
                State::Seeking(..) => Kind::Turn,
                State::Holding(_) if settings.long_lived() => Kind::Free,
                _ => continue,
            };
            let mut next = memory.clone();
            let id = Identifier(task as u32);
            let answer = calls::call(&Grid, settings, kind, id, &mut next)?;
            // The turns are counted here, so that one state is the same whatever they are.
            next.records[task].figure = 0;
            let mut used = used.clone();
            used[task] = if kind == Kind::Turn { used[task] + 1 } else { 0 };
            if let Some(Stand::Holds(_)) = answer.stand() {
                most = most.max(used[task]);
                used[task] = 0;
            }
            if let State::Seeking(place, _) | State::Holding(place) = next.records[task].state {
                diagonal = diagonal.max(place.diagonal());
            }
            if let Some(next) = raised(&mut reached, next, used) {
                waiting.push_back(next);
            }
        }
    }
    println!("{settings} m {m}: {} states, most turns {most}", reached.len());
    Ok((most, diagonal))
}

/// Notes the turns used in a state; gives the state back if some are more than was known.
fn raised(
    reached: &mut HashMap<Memory, Vec<usize>>,
    memory: Memory,
    used: Vec<usize>,
) -> Option<Memory> {
    let Some(known) = reached.get_mut(&memory) else {
        reached.insert(memory.clone(), used);
        return Some(memory);
    };
    let more = known.iter().zip(&used).any(|(known, used)| used > known);
    for (known, used) in known.iter_mut().zip(used) {
        *known = used.max(*known);
    }
    more.then_some(memory)
}
