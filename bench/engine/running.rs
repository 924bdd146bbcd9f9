//! Clusters as they run: firings by a plan, what they move, and the boundaries between periods.

use crate::bodies::{run, Act, Asked};
use crate::events::Events;
use crate::notes::Notes;
use crate::numbers::{at, at_mut};
use crate::planning::{Edge, Progress};
use crate::reading::Block;
use crate::straight::{pass, run_sums, Form};
use crate::writing::{Sheet, NEVER};
use std::collections::VecDeque;
use std::rc::Rc;

/// The samples of a port for all that read it, whose size is a power of 2: the last ones that it has written, of which each
/// reader knows the first that it has not read.
pub struct Ring {
    pub samples: Vec<i64>,
    /// How many were written, as the readers count: it may wrap.
    pub end: usize,
}

impl Ring {
    #[inline(always)]
    pub fn get(&self, place: usize) -> i64 {
        *at(&self.samples, place & (self.samples.len() - 1))
    }

    #[inline(always)]
    pub fn push(&mut self, sample: i64) {
        let place = self.end & (self.samples.len() - 1);
        *at_mut(&mut self.samples, place) = sample;
        self.end = self.end.wrapping_add(1);
    }

    /// Makes room for so many samples that were written and not read.
    pub fn reserve(&mut self, count: usize) {
        let (old, new) = (self.samples.len(), count.next_power_of_two());
        if old < new {
            let mut samples = vec![0; new];
            for k in 1..=old {
                let place = self.end.wrapping_sub(k);
                samples[place & (new - 1)] = self.get(place);
            }
            self.samples = samples;
        }
    }
}

/// What a port moves at a firing: between its slots and another thing, by that one's number.
#[derive(Clone, Copy)]
pub struct Wire {
    pub port: usize,
    pub slot: usize,
    pub rate: usize,
    pub other: usize,
}

/// An in port: its ring, its place in it, and its edge.
pub struct Inlet {
    pub wire: Wire,
    pub first: usize,
    pub edge: usize,
}

/// A module, or an instance of a block of processes.
pub struct Instance {
    pub block: usize,
    /// The body of a module.
    pub body: Rc<[Act]>,
    pub slots: Vec<i64>,
    /// From rings, and to rings.
    pub reads: Vec<Inlet>,
    pub writes: Vec<Wire>,
    /// To edges, one for each reader; only plans ask for them.
    pub sends: Vec<Wire>,
    /// To columns.
    pub traced: Vec<Wire>,
    /// Out ports whose slots are 0 before the body runs, as it doesn't set all of them.
    pub cleared: Vec<Wire>,
    /// Slots of ports that read an event signal, and those signals.
    pub inputs: Vec<(usize, usize)>,
    /// Slots of ports of a module that write an event signal, and their sinks.
    pub sinks: Vec<(usize, usize)>,
    /// By port, its event signal if it has one.
    pub signals: Vec<usize>,
    /// Whether a firing reads and writes rings and nothing else; and how the body runs.
    pub plain: bool,
    pub form: Form,
    /// The time between two firings, and that of the next one.
    pub step: u64,
    pub next: u64,
}

/// A port of a module that writes an event signal: samples wait in it until they are due.
pub struct Sink {
    pub instance: usize,
    pub signal: usize,
    pub waiting: VecDeque<i64>,
}

/// An event signal: its value, and the one that was written since the last delta step.
pub struct Signal {
    pub value: i64,
    pub waiting: Option<i64>,
    /// Processes that are sensitive to it.
    pub wakes: Vec<usize>,
    pub column: Option<usize>,
}

/// Who acts in a plan, by its number.
#[derive(Clone, Copy)]
pub enum Actor {
    Module(usize),
    Sink(usize),
}

/// Modules that edges join, with the plan of the period that they are in.
#[derive(Default)]
pub struct Cluster {
    pub modules: Vec<usize>,
    /// Its edges, in an order in which each but the first knows one of its ends.
    pub edges: Vec<usize>,
    pub sinks: Vec<usize>,
    /// Whether a module has a body that changes rates.
    pub changes: bool,
    /// The actors of a period, and the turns in which they act: the time in the period, and the end in the list.
    pub actors: Vec<Actor>,
    pub turns: Vec<(u64, usize)>,
    pub period: u64,
    /// The time at which its period began, and the turn that is next.
    pub since: u64,
    pub turn: usize,
}

impl Cluster {
    /// The time of the next turn.
    pub fn due(&self) -> u64 {
        self.since + self.turns.get(self.turn).map_or(self.period, |turn| turn.0)
    }
}

/// All that firings and processes change.
pub struct Flow {
    pub instances: Vec<Instance>,
    pub rings: Vec<Ring>,
    pub sinks: Vec<Sink>,
    pub signals: Vec<Signal>,
    /// Event signals that were written since the last delta step.
    pub written: Vec<usize>,
    /// What the body that runs asks for.
    pub asked: Asked,
    pub sheet: Sheet,
}

impl Flow {
    #[inline(always)]
    fn fire(&mut self, module: usize) {
        let it = at_mut(&mut self.instances, module);
        if let Form::Passed(number, cast) = it.form {
            return pass(it, &mut self.rings, number, cast);
        }
        if !it.plain {
            it.prepare(&self.signals);
        }
        for inlet in &mut it.reads {
            let (ring, Wire { slot, rate, .. }) = (at(&self.rings, inlet.wire.other), inlet.wire);
            if rate == 1 {
                *at_mut(&mut it.slots, slot) = ring.get(inlet.first);
            } else {
                for k in 0..rate {
                    *at_mut(&mut it.slots, slot + k) = ring.get(inlet.first.wrapping_add(k));
                }
            }
            inlet.first = inlet.first.wrapping_add(rate);
        }
        match &it.form {
            Form::Sums(sums) => run_sums(sums, &mut it.slots),
            _ => run(&it.body, &mut it.slots, &mut self.asked),
        }
        for wire in &it.writes {
            let ring = at_mut(&mut self.rings, wire.other);
            if wire.rate == 1 {
                ring.push(*at(&it.slots, wire.slot));
            } else {
                for k in 0..wire.rate {
                    ring.push(*at(&it.slots, wire.slot + k));
                }
            }
        }
        if !it.plain {
            it.finish(&mut self.sheet, &mut self.sinks);
        }
    }

    fn send(&mut self, sink: usize) {
        let it = at_mut(&mut self.sinks, sink);
        at_mut(&mut self.signals, it.signal).waiting = it.waiting.pop_front();
        self.written.push(it.signal);
    }
}

impl Instance {
    /// What a firing does before it reads rings.
    fn prepare(&mut self, signals: &[Signal]) {
        for wire in &self.cleared {
            self.slots[wire.slot..wire.slot + wire.rate].fill(0);
        }
        for (slot, signal) in &self.inputs {
            *at_mut(&mut self.slots, *slot) = at(signals, *signal).value;
        }
    }

    /// What it does after it has written rings.
    fn finish(&mut self, sheet: &mut Sheet, sinks: &mut [Sink]) {
        for wire in &self.traced {
            let step = if wire.rate == 1 { self.step } else { self.step / wire.rate as u64 };
            let column = at_mut(&mut sheet.columns, wire.other);
            for k in 0..wire.rate {
                column.ahead.push_back((self.next + k as u64 * step, *at(&self.slots, wire.slot + k)));
            }
            column.next = self.next + self.step;
        }
        for (slot, sink) in &self.sinks {
            at_mut(sinks, *sink).waiting.push_back(*at(&self.slots, *slot));
        }
        self.next += self.step;
    }

    /// The ports of a module that read or write an event signal.
    pub fn event_ports(&self) -> impl Iterator<Item = usize> + '_ {
        let is_one = |port: &usize| self.signals[*port] != usize::MAX;
        (0..self.signals.len()).filter(is_one)
    }

    /// All its wires, each with the rate of its port.
    pub fn wires(&mut self) -> impl Iterator<Item = &mut Wire> {
        let reads = self.reads.iter_mut().map(|inlet| &mut inlet.wire);
        reads.chain(&mut self.writes).chain(&mut self.sends).chain(&mut self.traced).chain(&mut self.cleared)
    }
}

/// A model that runs: its event side and its clusters, with what they share.
pub struct Engine {
    pub blocks: Vec<Block>,
    pub flow: Flow,
    pub clusters: Vec<Cluster>,
    pub edges: Vec<Edge>,
    pub progress: Progress,
    pub events: Events,
    pub notes: Notes,
}

impl Engine {
    /// The bodies that change rates run; a new plan where a rate is another.
    fn cross(&mut self, number: usize) {
        let cluster = &mut self.clusters[number];
        cluster.since += cluster.period;
        cluster.turn = 0;
        if !cluster.changes {
            return;
        }
        let mut changed = false;
        for &module in &cluster.modules {
            let it = &mut self.flow.instances[module];
            let block = &self.blocks[it.block];
            if block.changes {
                run(&block.change, &mut it.slots, &mut self.flow.asked);
                changed |= it.take_rates(block);
            }
        }
        if changed {
            self.plan(number);
        }
    }

    fn run_turn(&mut self, number: usize, time: u64) {
        let cluster = at(&self.clusters, number);
        if cluster.turn == cluster.turns.len() {
            self.cross(number);
        }
        let cluster = at_mut(&mut self.clusters, number);
        let (offset, end) = *at(&cluster.turns, cluster.turn);
        // (a new plan may begin later)
        if cluster.since + offset == time {
            let first = if cluster.turn == 0 { 0 } else { at(&cluster.turns, cluster.turn - 1).1 };
            cluster.turn += 1;
            for actor in &cluster.actors[first..end] {
                match *actor {
                    Actor::Module(module) => self.flow.fire(module),
                    Actor::Sink(sink) => self.flow.send(sink),
                }
            }
        }
    }

    /// Positions of periods that have begun, below the stop, whose samples did not come: each has a row.
    fn announce(&mut self, stop: u64) {
        for cluster in &self.clusters {
            for module in &cluster.modules {
                let it = &self.flow.instances[*module];
                for wire in &it.traced {
                    let (step, end) = (it.step / wire.rate as u64, stop.min(cluster.since + cluster.period));
                    let times = (it.next..end).step_by(step as usize);
                    self.flow.sheet.columns[wire.other].ahead.extend(times.map(|time| (time, 0)));
                }
            }
        }
    }

    pub fn run(&mut self, stop: u64) {
        let mut dues: Vec<u64> = self.clusters.iter().map(|cluster| cluster.due()).collect();
        let mut time = 0;
        while time < stop {
            let mut next = NEVER;
            for number in 0..dues.len() {
                if dues[number] == time {
                    self.run_turn(number, time);
                    dues[number] = self.clusters[number].due();
                }
                next = next.min(dues[number]);
            }
            let events = &mut self.events;
            if time == 0 || !self.flow.written.is_empty() || events.first() <= time {
                events.settle(&mut self.flow, time);
            }
            self.flow.sheet.rows(time + 1, false);
            self.flow.sheet.flush(8_192);
            time = next.min(self.events.first());
        }
        self.announce(stop);
        self.flow.sheet.rows(stop, true);
        self.flow.sheet.flush(0);
        self.notes.flush(0);
    }
}
