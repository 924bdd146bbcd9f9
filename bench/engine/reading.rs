//! The lines of a text, read without a check: what can't be read stops the program.

use crate::bodies::{looped, Act, Bound, Turns};
use crate::expressions::{Scope, Thing, Tokens};
use crate::numbers::{time_of, Format, PLAIN};
use std::collections::HashMap;
use std::rc::Rc;

#[derive(Clone, Copy, PartialEq)]
pub enum Kind {
    In,
    Out,
    EventIn,
    EventOut,
}

/// A port of a block.
pub struct Port {
    pub kind: Kind,
    pub format: Format,
    pub rate: Bound,
    pub delay: usize,
    /// Its first slot, after the attributes were read.
    pub base: usize,
}

impl Port {
    /// Whether it moves one sample at each firing.
    pub fn moves_one(&self) -> bool {
        matches!(self.rate, Bound::Number(1))
    }
}

/// A process of a block.
pub struct Process {
    /// What wakes it: events (true) and ports, by their numbers.
    pub sensitive: Vec<(bool, usize)>,
    pub initialize: bool,
    pub body: Rc<[Act]>,
}

/// How deep loops may be nested.
const DEPTH: usize = 8;

/// A block of modules or of processes.
#[derive(Default)]
pub struct Block {
    pub is_events: bool,
    pub ports: Vec<Port>,
    /// What the slots of an instance hold first, and their formats.
    pub slots: Vec<i64>,
    pub formats: Vec<Format>,
    /// By slot, the greatest value of a rate variable.
    greatest: HashMap<usize, usize>,
    /// The slots of the loop variables, after those of the ports.
    pub loops: usize,
    pub events: usize,
    /// A timestep, of a port or of the whole module.
    pub step: Option<(Option<usize>, u64)>,
    pub changes: bool,
    pub processing: Rc<[Act]>,
    pub change: Vec<Act>,
    pub processes: Vec<Process>,
}

impl Block {
    fn grow(&mut self, count: usize, format: Format) -> usize {
        let base = self.slots.len();
        self.slots.resize(base + count, 0);
        self.formats.resize(base + count, format);
        base
    }

    /// Each port gets its slots before the first body is read.
    fn place_ports(&mut self) {
        if self.loops != 0 {
            return;
        }
        for port in 0..self.ports.len() {
            let room = match self.ports[port].rate {
                Bound::Number(number) => number as usize,
                Bound::Slot(place) => self.greatest[&place],
            };
            self.ports[port].base = self.grow(room, self.ports[port].format);
        }
        self.loops = self.grow(DEPTH, PLAIN);
    }
}

type Words<'a> = Vec<&'a str>;

fn words_of(row: &str) -> Words<'_> {
    row.split('#').next().unwrap_or("").split_whitespace().collect()
}

/// The rows that are left, and the types that were read.
struct Reader<'a> {
    rows: Vec<Words<'a>>,
    place: usize,
    types: HashMap<&'a str, Format>,
}

impl<'a> Reader<'a> {
    fn row(&mut self) -> Words<'a> {
        self.place += 1;
        std::mem::take(&mut self.rows[self.place - 1])
    }

    fn assignment(&self, row: &[&'a str], block: &Block, scope: &Scope<'a>) -> Act {
        let mut tokens = Tokens::of(row);
        let thing = scope.things[tokens.next()];
        let (base, format) = match thing {
            Thing::Variable(place) => (place, block.formats[place]),
            Thing::Port(port) => (block.ports[port].base, block.ports[port].format),
            _ => panic!("{row:?}"),
        };
        let to = scope.slot(block, base, &mut tokens);
        assert!(tokens.take("="), "{row:?}");
        let (value, after) = scope.expression(block, &mut tokens);
        match thing {
            Thing::Port(port) if block.is_events => Act::Write(port, value, format.cast(after)),
            _ if to.times == 0 => Act::Set(to.base as usize, value, format.cast(after)),
            _ => Act::SetAt(to, value, format.cast(after)),
        }
    }

    /// The statements up to `end` or `else`, and that word.
    fn acts(&mut self, block: &Block, scope: &mut Scope<'a>) -> (Vec<Act>, &'a str) {
        let mut list = Vec::new();
        loop {
            let row = self.row();
            if matches!(row[0], "end" | "else") {
                return (list, row[0]);
            }
            list.push(self.act(&row, block, scope));
        }
    }

    fn act(&mut self, row: &[&'a str], block: &Block, scope: &mut Scope<'a>) -> Act {
        match row[0] {
            "if" => {
                let test = scope.expression(block, &mut Tokens::of(&row[1..])).0;
                let (yes, word) = self.acts(block, scope);
                let no = if word == "else" { self.acts(block, scope).0 } else { Vec::new() };
                Act::If(test, yes, no)
            }
            "for" => {
                assert!(scope.loops.len() < DEPTH, "{row:?}");
                let by = block.loops + scope.loops.len();
                let turns = Turns { by, first: scope.bound(row[2]), end: scope.bound(row[3]) };
                scope.loops.push(row[1]);
                let body = self.acts(block, scope).0;
                scope.loops.pop();
                looped(turns, body, &block.formats)
            }
            "notify" => match scope.things[row[1]] {
                Thing::Event(event) => Act::Notify(event, row.get(3).map_or(0, |word| time_of(word))),
                _ => panic!("{row:?}"),
            },
            "rate" => match (scope.things[row[1]], scope.expression(block, &mut Tokens::of(&row[3..]))) {
                (Thing::Rate(place), (value, after)) => Act::SetRate(place, value, after),
                _ => panic!("{row:?}"),
            },
            _ => self.assignment(row, block, scope),
        }
    }

    fn attributes(&mut self, block: &mut Block, scope: &Scope<'a>) {
        let port = |word: &str| match scope.things[word] {
            Thing::Port(port) => port,
            _ => panic!("{word} is no port"),
        };
        loop {
            let row = self.row();
            match row[0] {
                "end" => return,
                "timestep" if row.len() == 2 => block.step = Some((None, time_of(row[1]))),
                "timestep" => block.step = Some((Some(port(row[1])), time_of(row[2]))),
                "rate" => block.ports[port(row[1])].rate = scope.bound(row[2]),
                "delay" => block.ports[port(row[1])].delay = row[2].parse().unwrap(),
                "does_attribute_changes" => block.changes = true,
                "accept_attribute_changes" => {}
                _ => panic!("{row:?}"),
            }
        }
    }

    fn process(&mut self, block: &Block, scope: &mut Scope<'a>) -> Process {
        let (mut sensitive, mut initialize) = (Vec::new(), true);
        loop {
            let row = &self.rows[self.place];
            match row[0] {
                "sensitive" => sensitive.extend(row[1..].iter().map(|word| match scope.things[word] {
                    Thing::Event(event) => (true, event),
                    Thing::Port(port) => (false, port),
                    _ => panic!("{row:?}"),
                })),
                "dont_initialize" => initialize = false,
                _ => return Process { sensitive, initialize, body: self.acts(block, scope).0.into() },
            }
            self.place += 1;
        }
    }

    fn declare(&mut self, row: &[&'a str], block: &mut Block, scope: &mut Scope<'a>) {
        let thing = match row[0] {
            "in" => self.port(Kind::In, row, block),
            "out" => self.port(Kind::Out, row, block),
            "de_in" => self.port(Kind::EventIn, row, block),
            "de_out" => self.port(Kind::EventOut, row, block),
            "var" | "array" => {
                let format = self.types[row[2]];
                let (size, starts) = if row[0] == "var" { (1, &row[3..]) } else { (row[3].parse().unwrap(), &row[4..]) };
                let base = block.grow(size, format);
                starts.iter().enumerate().for_each(|(k, word)| block.slots[base + k] = format.literal(word));
                Thing::Variable(base)
            }
            "rate" => {
                let place = block.grow(1, PLAIN);
                block.slots[place] = row[4].parse().unwrap();
                block.greatest.insert(place, row[3].parse().unwrap());
                Thing::Rate(place)
            }
            "event" => {
                block.events += 1;
                Thing::Event(block.events - 1)
            }
            _ => panic!("{row:?}"),
        };
        scope.things.insert(row[1], thing);
    }

    fn port(&self, kind: Kind, row: &[&'a str], block: &mut Block) -> Thing {
        block.ports.push(Port { kind, format: self.types[row[2]], rate: Bound::Number(1), delay: 0, base: 0 });
        Thing::Port(block.ports.len() - 1)
    }

    /// A block, and its ports by their names.
    fn block(&mut self, is_events: bool) -> (Block, HashMap<&'a str, usize>) {
        let (mut block, mut scope) = (Block { is_events, ..Block::default() }, Scope::default());
        loop {
            let row = self.row();
            if matches!(row[0], "processing" | "change_attributes" | "process" | "end") {
                block.place_ports();
            }
            match row[0] {
                "end" => break,
                "set_attributes" => self.attributes(&mut block, &scope),
                "processing" => block.processing = self.acts(&block, &mut scope).0.into(),
                "change_attributes" => block.change = self.acts(&block, &mut scope).0,
                "process" => {
                    let process = self.process(&block, &mut scope);
                    block.processes.push(process);
                }
                _ => self.declare(&row, &mut block, &mut scope),
            }
        }
        let port = |(name, thing): (&&'a str, &Thing)| if let Thing::Port(port) = thing { Some((*name, *port)) } else { None };
        (block, scope.things.iter().filter_map(port).collect())
    }
}

/// What a text says. Blocks, instances and event signals are told by their numbers.
#[derive(Default)]
pub struct Lines<'a> {
    pub blocks: Vec<Block>,
    /// By block, its ports.
    pub ports: Vec<HashMap<&'a str, usize>>,
    /// By instance, its block.
    pub instances: Vec<usize>,
    pub names: HashMap<&'a str, usize>,
    pub formats: HashMap<&'a str, Format>,
    pub event_signals: HashMap<&'a str, usize>,
    /// By event signal, its name and first value.
    pub starts: Vec<(&'a str, i64)>,
    /// An instance, its port, and a signal.
    pub binds: Vec<(&'a str, &'a str, &'a str)>,
    /// A signal, and the name of its column.
    pub traces: Vec<(&'a str, &'a str)>,
}

pub fn read(text: &str) -> Lines<'_> {
    let rows = text.lines().map(words_of).filter(|row| !row.is_empty()).collect();
    let mut reader = Reader { rows, place: 0, types: HashMap::new() };
    let (mut lines, mut numbers) = (Lines::default(), HashMap::new());
    while reader.place < reader.rows.len() {
        let row = reader.row();
        match row[0] {
            "type" => {
                let (bits, before): (u32, u32) = (row[3].parse().unwrap(), row[4].parse().unwrap());
                reader.types.insert(row[1], Format { signed: row[2] == "fixed", bits, after: bits - before });
            }
            "tdf" | "de" => {
                let (block, ports) = reader.block(row[0] == "de");
                numbers.insert(row[1], lines.blocks.len());
                lines.blocks.push(block);
                lines.ports.push(ports);
            }
            "instance" => {
                lines.names.insert(row[1], lines.instances.len());
                lines.instances.push(numbers[row[2]]);
            }
            "language" | "top" | "end" => {}
            _ => lines.joint(&row, &reader.types),
        }
    }
    lines
}

impl<'a> Lines<'a> {
    /// A line about a signal.
    fn joint(&mut self, row: &[&'a str], types: &HashMap<&'a str, Format>) {
        match row[0] {
            "signal" => {
                self.formats.insert(row[1], types[row[2]]);
            }
            "de_signal" => {
                let format = types[row[2]];
                self.formats.insert(row[1], format);
                self.event_signals.insert(row[1], self.starts.len());
                self.starts.push((row[1], row.get(3).map_or(0, |word| format.literal(word))));
            }
            "bind" => {
                let (name, port) = row[1].split_once('.').unwrap();
                self.binds.push((name, port, row[2]));
            }
            "trace" => self.traces.push((row[1], row[2])),
            _ => panic!("{row:?}"),
        }
    }
}
