//! Bodies without a walk, in a program that was built with `--cfg unchecked`: those of assignments of sums of two slots or numbers.

use crate::bodies::{Act, Node};
use crate::numbers::{at, at_mut, Cast};
use crate::reading::Block;
use crate::running::{Instance, Ring};

/// An assignment of the sum of two slots. A number has a slot of its own.
pub struct Sum {
    to: usize,
    of: (usize, usize),
    cast: Cast,
}

/// How a body of a module runs.
pub enum Form {
    Walked,
    Sums(Vec<Sum>),
    /// From a ring straight to a ring, one sample a firing: with a number added, and cut.
    Passed(i64, Cast),
}

impl Form {
    /// The form of the body of an instance whose wires are there; its slots get the numbers of the body.
    pub fn of(it: &mut Instance, block: &Block) -> Form {
        if !cfg!(unchecked) || it.body.is_empty() {
            return Form::Walked;
        }
        if let Some((number, cast)) = passed(it, block) {
            return Form::Passed(number, cast);
        }
        let body = it.body.clone();
        let sums = body.iter().map(|act| match act {
            Act::Set(to, value, cast) => Some(Sum { to: *to, of: parts(value, &mut it.slots)?, cast: *cast }),
            _ => None,
        });
        sums.collect::<Option<Vec<Sum>>>().map_or(Form::Walked, Form::Sums)
    }
}

/// The slots of the parts of a sum.
fn parts(value: &Node, slots: &mut Vec<i64>) -> Option<(usize, usize)> {
    match value {
        Node::Sum(pair) => Some((place(&pair.0, slots)?, place(&pair.1, slots)?)),
        _ => Some((place(value, slots)?, place(&Node::Constant(0), slots)?)),
    }
}

fn place(node: &Node, slots: &mut Vec<i64>) -> Option<usize> {
    match node {
        Node::Slot(slot) => Some(*slot),
        Node::Constant(number) => {
            slots.push(*number);
            Some(slots.len() - 1)
        }
        _ => None,
    }
}

/// What a firing adds to its sample, where it does nothing else.
fn passed(it: &Instance, block: &Block) -> Option<(i64, Cast)> {
    let ([inlet], [wire], [Act::Set(to, Node::Sum(pair), cast)]) = (it.reads.as_slice(), it.writes.as_slice(), &*it.body) else {
        return None;
    };
    let simple = [inlet.wire.port, wire.port].iter().all(|port| block.ports[*port].moves_one());
    match **pair {
        (Node::Slot(of), Node::Constant(number)) if simple && it.plain && of == inlet.wire.slot && *to == wire.slot => {
            Some((number, *cast))
        }
        _ => None,
    }
}

#[inline(always)]
pub fn run_sums(sums: &[Sum], slots: &mut [i64]) {
    for sum in sums {
        *at_mut(slots, sum.to) = sum.cast.of(*at(slots, sum.of.0) + *at(slots, sum.of.1));
    }
}

#[inline(always)]
pub fn pass(it: &mut Instance, rings: &mut [Ring], number: i64, cast: Cast) {
    let inlet = at_mut(&mut it.reads, 0);
    let sample = at(rings, inlet.wire.other).get(inlet.first);
    inlet.first = inlet.first.wrapping_add(1);
    at_mut(rings, at(&it.writes, 0).other).push(cast.of(sample + number));
}
