//! An engine made of the lines of a text.

use crate::bodies::{Act, Asked, Bound};
use crate::events::{Events, Process};
use crate::notes::Notes;
use crate::planning::{Edge, Progress};
use crate::reading::{Block, Kind, Lines, Port};
use crate::running::{Cluster, Engine, Flow, Inlet, Instance, Ring, Signal, Sink, Wire};
use crate::straight::Form;
use crate::writing::{Column, Sheet, MOST_DECIMALS, NEVER};
use std::collections::{HashMap, VecDeque};

/// Whether a body sets all samples of a port, whatever it reads.
fn is_set(port: &Port, body: &[Act]) -> bool {
    let sets = |slot: usize| body.iter().any(|act| matches!(act, Act::Set(place, _, _) if *place == slot));
    matches!(port.rate, Bound::Number(rate) if (port.base..port.base + rate as usize).all(sets))
}

/// Instances with their wires, and what these join.
struct Joined {
    instances: Vec<Instance>,
    edges: Vec<Edge>,
    rings: Vec<Ring>,
    sinks: Vec<Sink>,
}

impl Joined {
    /// The clusters: modules that edges join.
    fn clusters(&self, blocks: &[Block]) -> Vec<Cluster> {
        let mut edges_of: Vec<Vec<usize>> = vec![Vec::new(); self.instances.len()];
        for (number, edge) in self.edges.iter().enumerate() {
            edges_of[edge.writer].push(number);
            edges_of[edge.reader].push(number);
        }
        let (mut clusters, mut taken) = (Vec::new(), vec![false; self.instances.len()]);
        for first in 0..self.instances.len() {
            if !taken[first] && !blocks[self.instances[first].block].is_events {
                clusters.push(self.cluster(first, &edges_of, &mut taken, blocks));
            }
        }
        clusters
    }

    fn cluster(&self, first: usize, edges_of: &[Vec<usize>], taken: &mut [bool], blocks: &[Block]) -> Cluster {
        let (mut cluster, mut place) = (Cluster { modules: vec![first], ..Cluster::default() }, 0);
        taken[first] = true;
        while place < cluster.modules.len() {
            for &edge in &edges_of[cluster.modules[place]] {
                cluster.edges.push(edge);
                for module in [self.edges[edge].writer, self.edges[edge].reader] {
                    if !std::mem::replace(&mut taken[module], true) {
                        cluster.modules.push(module);
                    }
                }
            }
            place += 1;
        }
        cluster.modules.sort_unstable();
        cluster.sinks = cluster.modules.iter().flat_map(|module| self.instances[*module].sinks.iter().map(|it| it.1)).collect();
        cluster.changes = cluster.modules.iter().any(|module| blocks[self.instances[*module].block].changes);
        cluster
    }
}

impl Lines<'_> {
    fn column_of(&self, signal: &str) -> Option<usize> {
        self.traces.iter().position(|it| it.0 == signal)
    }

    fn instance(&self, number: usize) -> Instance {
        let block = &self.blocks[number];
        let writes = |port: &Port| matches!(port.kind, Kind::Out | Kind::EventOut);
        let is_cleared = |it: &(usize, &Port)| writes(it.1) && !is_set(it.1, &block.processing);
        let wire = |it: (usize, &Port)| Wire { port: it.0, slot: it.1.base, rate: 0, other: 0 };
        Instance {
            block: number,
            body: block.processing.clone(),
            slots: block.slots.clone(),
            reads: Vec::new(),
            writes: Vec::new(),
            sends: Vec::new(),
            traced: Vec::new(),
            cleared: block.ports.iter().enumerate().filter(is_cleared).map(wire).collect(),
            inputs: Vec::new(),
            sinks: Vec::new(),
            signals: vec![usize::MAX; block.ports.len()],
            plain: false,
            form: Form::Walked,
            step: 0,
            next: 0,
        }
    }

    /// The instance and the port of a bind, and the port's block.
    fn place(&self, name: &str, port: &str) -> (usize, usize, &Block) {
        let instance = self.names[name];
        let block = self.instances[instance];
        (instance, self.ports[block][port], &self.blocks[block])
    }

    fn joined(&self) -> Joined {
        let instances = self.instances.iter().map(|number| self.instance(*number)).collect();
        let mut joined = Joined { instances, edges: Vec::new(), rings: Vec::new(), sinks: Vec::new() };
        let mut writers = HashMap::new();
        for &(name, port, signal) in &self.binds {
            let (instance, port, block) = self.place(name, port);
            let (slot, it) = (block.ports[port].base, &mut joined.instances[instance]);
            match block.ports[port].kind {
                Kind::Out => {
                    assert!(block.ports[port].delay == 0, "a delay of {name}");
                    writers.insert(signal, (instance, port));
                    it.traced.extend(self.column_of(signal).map(|other| Wire { port, slot, rate: 0, other }));
                }
                Kind::EventIn => {
                    assert!(block.ports[port].moves_one() && block.ports[port].delay == 0, "a rate or a delay of {name}");
                    it.inputs.push((slot, self.event_signals[signal]));
                }
                Kind::EventOut if !block.is_events => {
                    assert!(block.ports[port].moves_one(), "a rate of {name}");
                    it.sinks.push((slot, joined.sinks.len()));
                    let waiting = VecDeque::from(vec![0; block.ports[port].delay]);
                    joined.sinks.push(Sink { instance, signal: self.event_signals[signal], waiting });
                }
                _ => {}
            }
            it.signals[port] = self.event_signals.get(signal).copied().unwrap_or(usize::MAX);
        }
        self.join_edges(&mut joined, &writers);
        for it in &mut joined.instances {
            it.plain = it.cleared.is_empty() && it.inputs.is_empty() && it.traced.is_empty() && it.sinks.is_empty();
            it.form = Form::of(it, &self.blocks[it.block]);
        }
        joined
    }

    fn join_edges(&self, joined: &mut Joined, writers: &HashMap<&str, (usize, usize)>) {
        let mut rings = HashMap::new();
        for &(name, port, signal) in &self.binds {
            let (reader, into, block) = self.place(name, port);
            if block.ports[into].kind != Kind::In {
                continue;
            }
            let (writer, out) = writers[signal];
            let wire = |port: usize, slot: usize, other: usize| Wire { port, slot, rate: 0, other };
            let (edge, from) = (joined.edges.len(), self.blocks[self.instances[writer]].ports[out].base);
            let ring = *rings.entry(signal).or_insert_with(|| {
                joined.instances[writer].writes.push(wire(out, from, joined.rings.len()));
                joined.rings.push(Ring { samples: vec![0], end: 0 });
                joined.rings.len() - 1
            });
            let first = 0usize.wrapping_sub(block.ports[into].delay);
            joined.instances[reader].reads.push(Inlet { wire: wire(into, block.ports[into].base, ring), first, edge });
            joined.instances[writer].sends.push(wire(out, from, edge));
            joined.edges.push(Edge { writer, out, reader, into, ring });
        }
    }

    fn sheet(&self) -> Sheet {
        let column = |it: &(&str, &str)| {
            let event = self.event_signals.get(it.0);
            let first = event.map(|number| (0, self.starts[*number].1));
            let ahead = first.into_iter().collect();
            let after = self.formats[it.0].after;
            assert!(after <= MOST_DECIMALS, "{after} bits after the point in {}", it.0);
            Column { is_event: event.is_some(), after, ahead, next: 0, last: 0 }
        };
        let names: String = self.traces.iter().map(|it| format!(" {}", it.1)).collect();
        Sheet { columns: self.traces.iter().map(column).collect(), out: format!("%time{names}\n").into_bytes() }
    }

    /// The processes and events of all instances; event signals get the processes that are sensitive to them.
    fn events(&self, instances: &[Instance], signals: &mut [Signal]) -> Events {
        let mut events = Events::default();
        for (instance, it) in instances.iter().enumerate() {
            let (block, first_event) = (&self.blocks[it.block], events.wakes.len());
            events.wakes.resize(first_event + block.events, Vec::new());
            for process in &block.processes {
                for &(is_event, number) in &process.sensitive {
                    let wakes = if is_event {
                        &mut events.wakes[first_event + number]
                    } else {
                        &mut signals[it.signals[number]].wakes
                    };
                    wakes.push(events.processes.len());
                }
                events.ready.words.resize(events.processes.len() / 64 + 1, 0);
                if process.initialize {
                    events.ready.add(events.processes.len());
                }
                events.processes.push(Process { instance, body: process.body.clone(), first_event });
            }
        }
        events.times = vec![NEVER; events.wakes.len()];
        events
    }

    fn notes(&self) -> Notes {
        let mut names = vec![String::new(); self.instances.len()];
        self.names.iter().for_each(|(name, number)| names[*number] = name.to_string());
        let of_block = |ports: &HashMap<&str, usize>| {
            let mut names = vec![String::new(); ports.len()];
            ports.iter().for_each(|(name, number)| names[*number] = name.to_string());
            names
        };
        Notes { names, ports: self.ports.iter().map(of_block).collect(), out: Vec::new() }
    }

    pub fn engine(self) -> Engine {
        let (joined, notes) = (self.joined(), self.notes());
        let clusters = joined.clusters(&self.blocks);
        let signal = |it: &(&str, i64)| Signal { value: it.1, waiting: None, wakes: Vec::new(), column: self.column_of(it.0) };
        let mut signals: Vec<Signal> = self.starts.iter().map(signal).collect();
        let events = self.events(&joined.instances, &mut signals);
        let progress = Progress::of(joined.instances.len(), joined.edges.len(), joined.sinks.len());
        let sheet = self.sheet();
        let Joined { instances, edges, rings, sinks } = joined;
        let flow = Flow { instances, rings, sinks, signals, written: Vec::new(), asked: Asked::default(), sheet };
        Engine { blocks: self.blocks, flow, clusters, edges, progress, events, notes }
    }
}
