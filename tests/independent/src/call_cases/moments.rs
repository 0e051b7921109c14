//! The families of calls at every moment: idle, seeking and holding tasks, with few and many out.

use super::families::{calls_of, Maker};
use super::memories::places;
use super::{Call, MOST_RECORDS};
use crate::calls::Memory;
use crate::grid::{Place, Record, Settings, State};

impl Maker {
    /// Every call of an idle, a seeking and a holding task, with none of the others out, with k of
    /// them and with all.
    pub fn moments(&mut self, settings: Settings) {
        for others in [0, settings.k(), settings.tasks() - 1] {
            let order = self.any_order(settings);
            let p = order[settings.tasks() - 1];
            let mut memory = self.with_out(settings, &order, others);
            let holding = State::Holding(self.random.pick(&places(settings.k() - 1)));
            let holding = self.random.figured(settings, holding);
            let seeking = self.ready(settings, Call::Turn(p as u16));
            for record in [Record::IDLE, holding].into_iter().chain(seeking) {
                memory.records[p] = record;
                for call in calls_of(p as u16) {
                    self.push("moment", settings, &memory, call);
                }
            }
        }
    }

    /// An ask with about k tasks out, seekers and holders, and with surplus records out.
    pub fn asks(&mut self, settings: Settings) {
        let k = settings.k();
        for out in [0, k - 1, k, k + 1, settings.tasks()] {
            let order = self.any_order(settings);
            let mut memory = self.with_out(settings, &order, out);
            memory.records.extend([State::Holding(Place { r: 0, c: 0 }).after(0); 2]);
            memory.records.truncate(MOST_RECORDS);
            for task in [order[0], order[order.len() - 1]] {
                self.push("ask", settings, &memory, Call::Ask(task as u16));
            }
        }
    }

    /// A turn and a release with every task out, more than k: they are accepted.
    pub fn many_out(&mut self, settings: Settings) {
        if settings.tasks() <= settings.k() {
            return;
        }
        for _ in 0..3 {
            let order = self.any_order(settings);
            let p = order[0];
            for call in [Call::Turn(p as u16), Call::Release(p as u16)] {
                let mut memory = self.with_out(settings, &order, settings.tasks());
                if let Some(record) = self.ready(settings, call) {
                    memory.records[p] = record;
                    self.push("many out", settings, &memory, call);
                }
            }
        }
    }

    fn any_order(&mut self, settings: Settings) -> Vec<usize> {
        let mut order: Vec<usize> = (0..settings.tasks()).collect();
        self.random.shuffle(&mut order);
        order
    }

    /// A memory in range in which the first so many tasks of an order are out and no others.
    fn with_out(&mut self, settings: Settings, order: &[usize], out: usize) -> Memory {
        let mut memory = self.random.memory(settings);
        for (index, task) in order.iter().enumerate() {
            let idle = if index < out { 0 } else { 100 };
            memory.records[*task] = self.random.record(settings, idle);
        }
        memory
    }
}
