//! Expressions of a text, read into trees.

use crate::bodies::{Bound, Moved, Node};
use crate::numbers::literal;
use crate::reading::Block;
use std::collections::HashMap;

/// What a name stands for in a block: a port by its number, a variable or a rate by its slot, an event by its number.
#[derive(Clone, Copy)]
pub enum Thing {
    Port(usize),
    Variable(usize),
    Rate(usize),
    Event(usize),
}

/// The names of a block, and its loop variables, the outermost first.
#[derive(Default)]
pub struct Scope<'a> {
    pub things: HashMap<&'a str, Thing>,
    pub loops: Vec<&'a str>,
}

/// The tokens of a line, and the next one's place.
pub struct Tokens<'a> {
    list: Vec<&'a str>,
    place: usize,
}

/// How many bytes the first token of a word has.
fn length(word: &[u8]) -> usize {
    let is_of_name = |c: u8| c.is_ascii_alphanumeric() || c == b'_';
    match *word {
        [c, ..] if is_of_name(c) => word.iter().position(|c| !is_of_name(*c) && *c != b'.').unwrap_or(word.len()),
        [b'<' | b'>' | b'=' | b'!', b'=', ..] | [b'<', b'<', ..] | [b'>', b'>', ..] => 2,
        _ => 1,
    }
}

impl<'a> Tokens<'a> {
    pub fn of(words: &[&'a str]) -> Tokens<'a> {
        let mut list = Vec::new();
        for word in words {
            let mut rest = *word;
            while !rest.is_empty() {
                let (token, others) = rest.split_at(length(rest.as_bytes()));
                list.push(token);
                rest = others;
            }
        }
        Tokens { list, place: 0 }
    }

    fn peek(&self) -> &'a str {
        self.list.get(self.place).copied().unwrap_or("")
    }

    pub fn next(&mut self) -> &'a str {
        self.place += 1;
        self.list[self.place - 1]
    }

    /// The number after the next token.
    fn count(&mut self) -> u32 {
        self.next();
        self.next().parse().expect("a number")
    }

    pub fn take(&mut self, word: &str) -> bool {
        let is_next = self.peek() == word;
        self.place += usize::from(is_next);
        is_next
    }
}

/// An expression, and its bits after the point.
type Part = (Node, u32);

fn pair(a: Node, b: Node) -> Box<(Node, Node)> {
    Box::new((a, b))
}

/// Both with as many bits after the point.
fn aligned(a: Part, b: Part) -> (Box<(Node, Node)>, u32) {
    let after = a.1.max(b.1);
    (pair(a.0.raised(after - a.1), b.0.raised(after - b.1)), after)
}

impl<'a> Scope<'a> {
    /// A slot, moved by an index where one follows.
    pub fn slot(&self, block: &Block, base: usize, tokens: &mut Tokens<'a>) -> Moved {
        let (mut moved, mut sign) = (Moved { base: base as i64, times: 0, by: 0 }, 1);
        if !tokens.take("[") {
            return moved;
        }
        while !tokens.take("]") {
            match tokens.next() {
                "+" => sign = 1,
                "-" => sign = -1,
                word => match self.loops.iter().position(|name| *name == word) {
                    Some(depth) => (moved.by, moved.times) = (block.loops + depth, sign),
                    None => moved.base += sign * word.parse::<i64>().expect("an index with one loop variable"),
                },
            }
        }
        moved
    }

    fn read(&self, block: &Block, base: usize, tokens: &mut Tokens<'a>) -> Node {
        let moved = self.slot(block, base, tokens);
        if moved.times == 0 { Node::Slot(moved.base as usize) } else { Node::At(moved) }
    }

    fn primary(&self, block: &Block, tokens: &mut Tokens<'a>) -> Part {
        match tokens.next() {
            "(" => {
                let inner = self.any(block, tokens);
                assert!(tokens.take(")"), "a bracket is open");
                inner
            }
            "-" => {
                let (node, after) = self.primary(block, tokens);
                (Node::Negative(Box::new(node)), after)
            }
            "not" => (Node::Not(Box::new(self.primary(block, tokens).0)), 0),
            word if word.as_bytes()[0].is_ascii_digit() => {
                let (number, after) = literal(word);
                (Node::Constant(number), after)
            }
            word => match self.things[word] {
                Thing::Variable(place) => (self.read(block, place, tokens), block.formats[place].after),
                Thing::Port(port) => (self.read(block, block.ports[port].base, tokens), block.ports[port].format.after),
                Thing::Rate(place) => (Node::Slot(place), 0),
                Thing::Event(_) => panic!("the event {word} in an expression"),
            },
        }
    }

    fn product(&self, block: &Block, tokens: &mut Tokens<'a>) -> Part {
        let mut left = self.primary(block, tokens);
        while tokens.take("*") {
            let right = self.primary(block, tokens);
            left = (Node::Product(pair(left.0, right.0)), left.1 + right.1);
        }
        left
    }

    fn sum(&self, block: &Block, tokens: &mut Tokens<'a>) -> Part {
        let mut left = self.product(block, tokens);
        loop {
            let form = match tokens.peek() {
                "+" => Node::Sum,
                "-" => Node::Difference,
                _ => return left,
            };
            tokens.next();
            let (both, after) = aligned(left, self.product(block, tokens));
            left = (form(both), after);
        }
    }

    fn shifted(&self, block: &Block, tokens: &mut Tokens<'a>) -> Part {
        let mut left = self.sum(block, tokens);
        loop {
            left = match tokens.peek() {
                ">>" => (left.0, left.1 + tokens.count()),
                "<<" => (left.0.raised(tokens.count()), left.1),
                _ => return left,
            };
        }
    }

    fn relation(&self, block: &Block, tokens: &mut Tokens<'a>) -> Part {
        let left = self.shifted(block, tokens);
        let word = tokens.peek();
        let form = match word {
            "<" | ">" => Node::Less,
            "<=" | ">=" => Node::AtMost,
            "==" => Node::Equal,
            "!=" => Node::Different,
            _ => return left,
        };
        tokens.next();
        let right = self.shifted(block, tokens);
        let both = if word.starts_with('>') { aligned(right, left) } else { aligned(left, right) };
        (form(both.0), 0)
    }

    fn all(&self, block: &Block, tokens: &mut Tokens<'a>) -> Part {
        let mut left = self.relation(block, tokens);
        while tokens.take("and") {
            left = (Node::And(pair(left.0, self.relation(block, tokens).0)), 0);
        }
        left
    }

    fn any(&self, block: &Block, tokens: &mut Tokens<'a>) -> Part {
        let mut left = self.all(block, tokens);
        while tokens.take("or") {
            left = (Node::Or(pair(left.0, self.all(block, tokens).0)), 0);
        }
        left
    }

    /// All tokens that are left.
    pub fn expression(&self, block: &Block, tokens: &mut Tokens<'a>) -> Part {
        let part = self.any(block, tokens);
        assert!(tokens.place == tokens.list.len(), "{:?}", tokens.list);
        part
    }

    pub fn bound(&self, word: &str) -> Bound {
        word.parse().map(Bound::Number).unwrap_or_else(|_| match self.things[word] {
            Thing::Rate(place) => Bound::Slot(place),
            _ => panic!("{word} is no number and no rate"),
        })
    }
}
