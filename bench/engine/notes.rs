//! The notes: a text of each plan, with the lines that the program's has. Bounds are those of the engine's own order of firings,
//! and 1 for a port of an event signal. There is no closing line: no turns are counted.

use crate::planning::Progress;
use crate::reading::Block;
use crate::running::{Cluster, Flow};
use crate::writing::{push_digits, push_time};
use std::io::Write;

/// So much text is written at once.
const MANY: usize = 65_536;

/// What notes call instances and their ports, and the text that is not yet written.
pub struct Notes {
    /// By instance.
    pub names: Vec<String>,
    /// By block, its ports.
    pub ports: Vec<Vec<String>>,
    pub out: Vec<u8>,
}

impl Notes {
    fn actor(&mut self, count: u64, step: u64) {
        self.out.extend_from_slice(b" count ");
        push_digits(&mut self.out, count);
        self.out.extend_from_slice(b" step ");
        push_time(&mut self.out, step);
        self.out.push(b'\n');
    }

    fn port(&mut self, what: &[u8], name: usize, block: usize, port: usize) {
        self.out.extend_from_slice(what);
        self.out.extend_from_slice(self.names[name].as_bytes());
        self.out.push(b'.');
        self.out.extend_from_slice(self.ports[block][port].as_bytes());
    }

    fn edge(&mut self, delay: usize, bound: usize) {
        self.out.extend_from_slice(b" delay ");
        push_digits(&mut self.out, delay as u64);
        self.out.extend_from_slice(b" bound ");
        push_digits(&mut self.out, bound as u64);
        self.out.push(b'\n');
    }

    fn head(&mut self, number: usize, cluster: &Cluster, firings: u64) {
        self.out.extend_from_slice(b"cluster ");
        push_digits(&mut self.out, number as u64 + 1);
        self.out.extend_from_slice(b" at ");
        push_time(&mut self.out, cluster.since);
        self.out.extend_from_slice(b" period ");
        push_time(&mut self.out, cluster.period);
        self.out.extend_from_slice(b" firings ");
        push_digits(&mut self.out, firings);
        self.out.push(b'\n');
    }

    /// The actors: modules, and ports of event signals.
    fn actors(&mut self, cluster: &Cluster, progress: &Progress, flow: &Flow) {
        for &module in &cluster.modules {
            self.out.extend_from_slice(b"actor ");
            self.out.extend_from_slice(self.names[module].as_bytes());
            self.actor(progress.count_of(module), flow.instances[module].step);
        }
        for &module in &cluster.modules {
            let it = &flow.instances[module];
            for port in it.event_ports() {
                self.port(b"actor ", module, it.block, port);
                self.actor(progress.count_of(module), it.step);
            }
        }
    }

    /// The plan of a cluster.
    pub fn plan(&mut self, number: usize, cluster: &Cluster, progress: &Progress, flow: &Flow, blocks: &[Block]) {
        let events = |module: &usize| flow.instances[*module].event_ports().count() as u64;
        let firings = cluster.modules.iter().map(|module| progress.count_of(*module) * (1 + events(module))).sum();
        self.head(number, cluster, firings);
        self.actors(cluster, progress, flow);
        for &module in &cluster.modules {
            let it = &flow.instances[module];
            for inlet in &it.reads {
                self.port(b"edge ", module, it.block, inlet.wire.port);
                self.edge(blocks[it.block].ports[inlet.wire.port].delay, progress.most_on(inlet.edge));
            }
            for port in it.event_ports() {
                self.port(b"edge ", module, it.block, port);
                self.edge(blocks[it.block].ports[port].delay, 1);
            }
        }
        self.flush(MANY);
    }

    /// Writes what is gathered, where it is this much.
    pub fn flush(&mut self, least: usize) {
        if least <= self.out.len() {
            std::io::stderr().write_all(&self.out).unwrap();
            self.out.clear();
        }
    }
}
