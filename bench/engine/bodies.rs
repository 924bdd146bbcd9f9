//! Bodies as trees that are walked at each run, over the slots of an instance: its variables, samples, rates and loop variables.

use crate::numbers::{at, at_mut, Cast, Format};

/// A slot that a loop variable moves.
#[derive(Clone, Copy, PartialEq)]
pub struct Moved {
    pub base: i64,
    /// 1 or -1, or 0 where nothing moves it.
    pub times: i64,
    /// The slot of the loop variable.
    pub by: usize,
}

impl Moved {
    #[inline(always)]
    fn place(self, slots: &[i64]) -> usize {
        (self.base + self.times * *at(slots, self.by)) as usize
    }
}

pub type Pair = Box<(Node, Node)>;

/// An expression. The parts of a sum, a difference and a comparison have as many bits after the point.
pub enum Node {
    Constant(i64),
    Slot(usize),
    At(Moved),
    /// With more bits after the point.
    Raised(Box<Node>, u32),
    Sum(Pair),
    Difference(Pair),
    Product(Pair),
    Negative(Box<Node>),
    Less(Pair),
    AtMost(Pair),
    Equal(Pair),
    Different(Pair),
    And(Pair),
    Or(Pair),
    Not(Box<Node>),
}

impl Node {
    pub fn raised(self, by: u32) -> Node {
        match self {
            it if by == 0 => it,
            Node::Constant(number) => Node::Constant(number << by),
            it => Node::Raised(Box::new(it), by),
        }
    }

    /// A slot that a loop variable moves up.
    fn row(&self, by: usize) -> Option<Moved> {
        match self {
            Node::At(moved) if moved.by == by && moved.times == 1 => Some(*moved),
            _ => None,
        }
    }
}

/// An end of a loop, or a rate: a number or a slot.
#[derive(Clone, Copy)]
pub enum Bound {
    Number(i64),
    Slot(usize),
}

impl Bound {
    #[inline(always)]
    pub fn of(self, slots: &[i64]) -> i64 {
        match self {
            Bound::Number(number) => number,
            Bound::Slot(place) => *at(slots, place),
        }
    }
}

/// A loop: its variable's slot, its first turn, and the end of its turns.
#[derive(Clone, Copy)]
pub struct Turns {
    pub by: usize,
    pub first: Bound,
    pub end: Bound,
}

impl Turns {
    #[inline(always)]
    fn of(self, slots: &[i64]) -> (i64, i64) {
        let first = self.first.of(slots);
        (first, self.end.of(slots).max(first))
    }
}

pub enum Act {
    Set(usize, Node, Cast),
    SetAt(Moved, Node, Cast),
    /// A port of a process, by its number.
    Write(usize, Node, Cast),
    SetRate(usize, Node, u32),
    If(Node, Vec<Act>, Vec<Act>),
    For(Turns, Vec<Act>),
    /// A loop that copies a row of one format.
    Copy(Turns, Moved, Moved),
    /// A loop that adds a row to a slot, and one that adds products of two rows, each of which is cut first.
    Total(Turns, usize, Moved, Cast),
    Products(Turns, usize, Moved, Moved, Cast),
    /// An event of the block, and the time after which it comes.
    Notify(usize, u64),
}

/// What a body of a process asks for: ports with their values, and events with the times after which they come.
#[derive(Default)]
pub struct Asked {
    pub writes: Vec<(usize, i64)>,
    pub notices: Vec<(usize, u64)>,
}

/// A loop of one assignment in its own form, where it has one.
pub fn looped(turns: Turns, body: Vec<Act>, formats: &[Format]) -> Act {
    let special = match body.as_slice() {
        [Act::SetAt(to, Node::At(of), _)] if to.by == turns.by && of.by == turns.by && to.times == of.times => {
            let before_it_is_set = (to.base - of.base) * to.times <= 0;
            let same_format = formats[to.base as usize] == formats[of.base as usize];
            (before_it_is_set && same_format).then_some(Act::Copy(turns, *to, *of))
        }
        [Act::Set(sum, Node::Sum(parts), cast)] if cast.only_cuts() => sum_of_rows(turns, *sum, parts, *cast),
        _ => None,
    };
    special.unwrap_or(Act::For(turns, body))
}

/// Sums of a row, or of products that have `cast.down` bits more after the point than the sum: only the end of the loop wraps
/// the sum, which comes to the same as at each turn.
fn sum_of_rows(turns: Turns, sum: usize, parts: &(Node, Node), cast: Cast) -> Option<Act> {
    let lift = match &parts.0 {
        Node::Slot(place) if *place == sum => 0,
        Node::Raised(node, by) if matches!(**node, Node::Slot(place) if place == sum) => *by,
        _ => return None,
    };
    if lift != cast.down {
        return None;
    }
    match &parts.1 {
        Node::Product(rows) => Some(Act::Products(turns, sum, rows.0.row(turns.by)?, rows.1.row(turns.by)?, cast)),
        row if lift == 0 => Some(Act::Total(turns, sum, row.row(turns.by)?, cast)),
        _ => None,
    }
}

/// A part of an expression: without a call where it has no parts.
#[inline(always)]
fn part(node: &Node, slots: &[i64]) -> i64 {
    match node {
        Node::Constant(number) => *number,
        Node::Slot(place) => *at(slots, *place),
        _ => eval(node, slots),
    }
}

fn eval(node: &Node, slots: &[i64]) -> i64 {
    let value = |node: &Node| part(node, slots);
    match node {
        Node::Constant(number) => *number,
        Node::Slot(place) => *at(slots, *place),
        Node::At(moved) => *at(slots, moved.place(slots)),
        Node::Raised(node, by) => value(node) << by,
        Node::Sum(it) => value(&it.0) + value(&it.1),
        Node::Difference(it) => value(&it.0) - value(&it.1),
        Node::Product(it) => value(&it.0) * value(&it.1),
        Node::Negative(node) => -value(node),
        Node::Less(it) => i64::from(value(&it.0) < value(&it.1)),
        Node::AtMost(it) => i64::from(value(&it.0) <= value(&it.1)),
        Node::Equal(it) => i64::from(value(&it.0) == value(&it.1)),
        Node::Different(it) => i64::from(value(&it.0) != value(&it.1)),
        Node::And(it) => i64::from(eval(&it.0, slots) != 0 && eval(&it.1, slots) != 0),
        Node::Or(it) => i64::from(eval(&it.0, slots) != 0 || eval(&it.1, slots) != 0),
        Node::Not(node) => i64::from(eval(node, slots) == 0),
    }
}

/// The slots of a row that a loop goes through.
fn row(moved: Moved, turns: (i64, i64), slots: &[i64]) -> &[i64] {
    &slots[(moved.base + turns.0) as usize..(moved.base + turns.1) as usize]
}

fn copy(to: Moved, of: Moved, turns: (i64, i64), slots: &mut [i64]) {
    let (low, high) = if to.times == 1 { turns } else { (1 - turns.1, 1 - turns.0) };
    slots.copy_within((of.base + low) as usize..(of.base + high) as usize, (to.base + low) as usize);
}

fn products(rows: [&[i64]; 2], cut: u32) -> i64 {
    rows[0].iter().zip(rows[1]).map(|(a, b)| a * b >> cut).sum()
}

/// Runs a body; assignments, which are most, without a call.
pub fn run(acts: &[Act], slots: &mut [i64], asked: &mut Asked) {
    for act in acts {
        match act {
            Act::Set(place, value, cast) => *at_mut(slots, *place) = cast.of(part(value, slots)),
            _ => run_other(act, slots, asked),
        }
    }
}

#[inline(never)]
fn run_other(act: &Act, slots: &mut [i64], asked: &mut Asked) {
    match act {
        Act::Set(place, value, cast) => *at_mut(slots, *place) = cast.of(part(value, slots)),
        Act::SetAt(moved, value, cast) => *at_mut(slots, moved.place(slots)) = cast.of(part(value, slots)),
        Act::Write(port, value, cast) => asked.writes.push((*port, cast.of(part(value, slots)))),
        Act::SetRate(place, value, after) => *at_mut(slots, *place) = part(value, slots) >> after,
        Act::If(test, yes, no) => run(if eval(test, slots) != 0 { yes } else { no }, slots, asked),
        Act::For(turns, body) => {
            let (first, end) = turns.of(slots);
            for turn in first..end {
                *at_mut(slots, turns.by) = turn;
                run(body, slots, asked);
            }
        }
        Act::Copy(turns, to, of) => copy(*to, *of, turns.of(slots), slots),
        Act::Total(turns, sum, of, cast) => {
            let total: i64 = row(*of, turns.of(slots), slots).iter().sum();
            *at_mut(slots, *sum) = cast.wrapped(*at(slots, *sum) + total);
        }
        Act::Products(turns, sum, a, b, cast) => {
            let both = turns.of(slots);
            let total = products([row(*a, both, slots), row(*b, both, slots)], cast.down);
            *at_mut(slots, *sum) = cast.wrapped(*at(slots, *sum) + total);
        }
        Act::Notify(event, after) => asked.notices.push((*event, *after)),
    }
}
