//! The families of figures (02, P7): at both sides of their edges in every state, and the turn that
//! carries one past its range.

use super::families::{calls_of, Maker};
use super::Call;
use crate::calls::Memory;
use crate::grid::{x_of, Place, Point, Record, Settings, State};

const START: Place = Place { r: 0, c: 0 };

impl Maker {
    /// Each figure at an edge, in each state: the call that suits the task, one by another task and
    /// one by an identifier beyond N. A setup over idle tasks of which one has a figure.
    pub fn figures(&mut self, settings: Settings) {
        let bound = settings.bound() as u32;
        let p = self.random.task(settings);
        let suiting = [
            (State::Idle, Call::Ask(p)),
            (State::Seeking(START, Point::WriteX), Call::Turn(p)),
            (State::Holding(START), Call::Release(p)),
        ];
        for (state, call) in suiting {
            for figure in [0, bound.saturating_sub(1), bound, bound + 1, u32::MAX] {
                let mut memory = self.idle_but(settings, p, state.after(figure));
                self.push("figure", settings, &memory, call);
                for id in [(p + 1) % settings.n, settings.n] {
                    let call = self.random.pick(&calls_of(id));
                    self.push("figure", settings, &memory, call);
                }
                if state == State::Idle {
                    self.push("figure", settings, &memory, Call::Setup);
                }
                if let Some(x) = memory.registers.x.first_mut() {
                    *x = u32::from(settings.n) + 1;
                    self.push("figure", settings, &memory, call);
                }
            }
        }
    }

    /// The turn at the last figure in range. If the task still seeks, the figure is past its range and
    /// the next call of any task is refused; if it holds, it may free its name.
    pub fn carried_figures(&mut self, settings: Settings) {
        if settings.k() == 1 {
            return;
        }
        let last = settings.bound() as u32 - 1;
        let p = self.random.task(settings);
        let own = x_of(usize::from(p));
        for (point, x) in [(Point::WriteX, 0), (Point::WriteMark, own), (Point::ReadX, own)] {
            let record = State::Seeking(START, point).after(last);
            let mut memory = self.idle_but(settings, p, record);
            memory.registers.x[settings.block(START)] = x;
            self.push("carried figure", settings, &memory, Call::Turn(p));
            let carried = self.cases[self.cases.len() - 1].after.clone();
            let next = [p, (p + 1) % settings.n, settings.n].map(calls_of);
            for call in next.into_iter().flatten() {
                self.push("carried figure", settings, &carried, call);
            }
        }
    }

    /// A memory in range in which the task has this record and the others are idle.
    fn idle_but(&mut self, settings: Settings, p: u16, record: Record) -> Memory {
        let mut memory = self.random.memory(settings);
        memory.records.fill(Record::IDLE);
        memory.records[usize::from(p)] = record;
        memory
    }
}
