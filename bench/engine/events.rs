//! Processes, events and delta steps.

use crate::bodies::{run, Act};
use crate::numbers::{at, at_mut};
use crate::running::{Flow, Instance};
use crate::writing::NEVER;
use std::cmp::Reverse;
use std::collections::BinaryHeap;
use std::rc::Rc;

/// A process of an instance.
pub struct Process {
    pub instance: usize,
    pub body: Rc<[Act]>,
    /// The number of its block's first event.
    pub first_event: usize,
}

/// The processes that run in the next delta step: by process a bit, and whether there are any.
#[derive(Default)]
pub struct Ready {
    pub words: Vec<u64>,
    any: bool,
}

impl Ready {
    #[inline(always)]
    pub fn add(&mut self, process: usize) {
        *at_mut(&mut self.words, process / 64) |= 1 << (process % 64);
        self.any = true;
    }
}

/// The event side: processes, events, and which of them come when.
#[derive(Default)]
pub struct Events {
    pub processes: Vec<Process>,
    pub ready: Ready,
    /// By event, the processes that are sensitive to it, and the time at which it comes.
    pub wakes: Vec<Vec<usize>>,
    pub times: Vec<u64>,
    /// Events by their times; those that came or were moved to an earlier time are still there.
    pub pending: BinaryHeap<Reverse<(u64, usize)>>,
    /// Events of the next delta step.
    pub soon: Vec<usize>,
}

impl Events {
    /// The time of the first pending event.
    #[inline(always)]
    pub fn first(&self) -> u64 {
        self.pending.peek().map_or(NEVER, |it| it.0.0)
    }

    /// All that happens at a time, with its delta steps.
    pub fn settle(&mut self, flow: &mut Flow, time: u64) {
        if !flow.written.is_empty() {
            update(flow, &mut self.ready, time);
        }
        while self.first() <= time {
            let Some(Reverse((due, event))) = self.pending.pop() else { break };
            if *at(&self.times, event) == due {
                self.come(event);
            }
        }
        while std::mem::take(&mut self.ready.any) {
            for word in 0..self.ready.words.len() {
                let mut bits = std::mem::take(at_mut(&mut self.ready.words, word));
                while bits != 0 {
                    self.run_process(64 * word + bits.trailing_zeros() as usize, flow, time);
                    bits &= bits - 1;
                }
            }
            if !flow.written.is_empty() {
                update(flow, &mut self.ready, time);
            }
            while let Some(event) = self.soon.pop() {
                self.come(event);
            }
        }
    }

    /// An event comes, and wakes processes.
    fn come(&mut self, event: usize) {
        *at_mut(&mut self.times, event) = NEVER;
        for process in at(&self.wakes, event) {
            self.ready.add(*process);
        }
    }

    fn run_process(&mut self, number: usize, flow: &mut Flow, time: u64) {
        let process = at(&self.processes, number);
        let Instance { slots, inputs, signals, .. } = at_mut(&mut flow.instances, process.instance);
        let slots = slots.as_mut_slice();
        for (slot, signal) in &*inputs {
            *at_mut(slots, *slot) = at(&flow.signals, *signal).value;
        }
        run(&process.body, slots, &mut flow.asked);
        while let Some((port, value)) = flow.asked.writes.pop() {
            let signal = *at(signals, port);
            at_mut(&mut flow.signals, signal).waiting.get_or_insert(value);
            flow.written.push(signal);
        }
        let first = process.first_event;
        while let Some((event, after)) = flow.asked.notices.pop() {
            self.notify(first + event, time, after);
        }
    }

    fn notify(&mut self, event: usize, time: u64, after: u64) {
        if after == 0 {
            self.soon.push(event);
        } else if time + after < *at(&self.times, event) {
            *at_mut(&mut self.times, event) = time + after;
            self.pending.push(Reverse((time + after, event)));
        }
    }
}

/// Signals that were written change, and wake processes.
fn update(flow: &mut Flow, ready: &mut Ready, time: u64) {
    for number in &flow.written {
        let signal = at_mut(&mut flow.signals, *number);
        let Some(value) = signal.waiting.take() else { continue };
        if value == signal.value {
            continue;
        }
        signal.value = value;
        for process in &signal.wakes {
            ready.add(*process);
        }
        if let Some(column) = signal.column {
            at_mut(&mut flow.sheet.columns, column).change(time, value);
        }
    }
    flow.written.clear();
}
