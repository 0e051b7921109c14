//! A setup and the calls after it, with what the end line of the listing counts.

use crate::calls::{self, Answer, Memory};
use crate::grid::{Out, Settings, State};
use crate::refusal::Refusal;
use crate::rules::Rules;
use crate::schedule::{Event, Kind};

#[derive(Clone)]
pub struct History<'a> {
    rules: &'a dyn Rules,
    pub settings: Settings,
    pub memory: Memory,
    /// For each task, the accepted turns since its last accepted ask, counted beside the records.
    pub turns: Vec<usize>,
    pub out: Out,
    /// The greatest number of tasks out after any event.
    pub peak: usize,
    /// The most accepted turns any completed acquisition used.
    pub most: u32,
}

impl<'a> History<'a> {
    /// An accepted setup on memory of just the needed length.
    pub fn new(rules: &'a dyn Rules, settings: Settings) -> Result<History<'a>, Refusal> {
        if !settings.allowed() {
            return Err(Refusal::Settings);
        }
        let mut memory = Memory::idle(rules, settings);
        calls::setup(rules, settings, &mut memory)?;
        let turns = vec![0; settings.tasks()];
        Ok(History { rules, settings, memory, turns, out: Out::default(), peak: 0, most: 0 })
    }

    /// Runs one event and keeps count.
    pub fn call(&mut self, event: Event) -> Result<Answer, Refusal> {
        let before = self.out;
        let answer = self.call_and_count_turns(event);
        if answer.is_ok() {
            self.out = Out::of(&self.memory.records);
        }
        self.peak = self.rules.peak(self.peak, before, self.out);
        answer
    }

    fn call_and_count_turns(&mut self, event: Event) -> Result<Answer, Refusal> {
        let id = event.identifier();
        let task = usize::from(event.id);
        let answer = calls::call(self.rules, self.settings, event.kind, id, &mut self.memory)?;
        match event.kind {
            Kind::Ask => self.turns[task] = 0,
            Kind::Turn => self.turns[task] += 1,
            Kind::Free => {}
        }
        self.most = self.rules.most(self.most, answer, task, &self.memory.records);
        Ok(answer)
    }

    pub fn state(&self, task: u16) -> State {
        self.memory.records[usize::from(task)].state
    }
}
