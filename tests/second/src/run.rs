//! What both directions share: the machine, entering a term (12, 13), and may-yield.

use crate::limits::HEIGHT;
use crate::program::{Program, Term};
use crate::refusal::{Number, Refusal};
use crate::value::{Heap, Kind, NodeId, UNIT};

/// The value of a variable that a backward run has not met yet.
pub(crate) const UNMET: NodeId = NodeId::MAX;

/// Said by a run that stopped; the refusal itself waits in the machine, so that the usual answer stays small.
pub(crate) struct Stopped;

pub(crate) type Run<T> = Result<T, Stopped>;

/// The variables of one called body: variable n stands in the stack at `base + n`.
#[derive(Clone, Copy)]
pub(crate) struct Frame {
    pub base: u32,
    pub ancillae: u32,
}

pub(crate) struct Machine<'a> {
    pub program: &'a Program,
    pub heap: &'a mut Heap,
    pub stack: Vec<NodeId>,
    fuel: u32,
    refusal: Refusal,
    unmet: u32,
    /// Terms that are higher are not noted; 0 notes none.
    depth: u32,
    seen: Vec<Seen>,
}

/// A term that was entered. Its value is what it gave forward, none where the run stopped in it, and what it was given backward.
#[derive(Clone, Copy, Debug)]
pub struct Seen {
    pub entry: u16,
    pub height: u32,
    pub backward: bool,
    pub value: Option<NodeId>,
}

/// A value and the steps that it took, and how often an ancilla term read a variable that the backward run had not met.
pub struct Outcome {
    pub value: NodeId,
    pub steps: u32,
    pub unmet: u32,
}

#[derive(Clone, Copy, PartialEq, Eq, Debug)]
pub enum Direction {
    Forward,
    Backward,
}

/// A function of a checked program, with arguments of its types: the value of the dynamic parameter, or backward
/// that of the result.
pub struct Start<'a> {
    pub program: &'a Program,
    pub function: u16,
    pub ancillae: &'a [NodeId],
    pub value: NodeId,
}

pub fn run(start: &Start, direction: Direction, fuel: u16, heap: &mut Heap) -> Result<Outcome, Refusal> {
    watched(start, direction, fuel, heap, 0).0
}

/// A run with the terms that it entered, in their order, up to a height.
pub fn watched(
    start: &Start,
    direction: Direction,
    fuel: u16,
    heap: &mut Heap,
    depth: u32,
) -> (Result<Outcome, Refusal>, Vec<Seen>) {
    let body = start.program.functions[start.function as usize].body;
    let frame = Frame { base: 0, ancillae: start.ancillae.len() as u32 };
    let stack = start.ancillae.to_vec();
    let refusal = Number::Fuel.plain();
    let (program, seen) = (start.program, Vec::new());
    let mut machine = Machine { program, heap, stack, fuel: fuel as u32, refusal, unmet: 0, depth, seen };
    let run = match direction {
        Direction::Forward => {
            machine.stack.push(start.value);
            machine.forward(body, frame, 1)
        }
        Direction::Backward => {
            machine.stack.push(UNMET);
            machine.backward(body, start.value, frame, 1).map(|()| machine.leave())
        }
    };
    let outcome = match run {
        Ok(value) => Ok(Outcome { value, steps: fuel as u32 - machine.fuel, unmet: machine.unmet }),
        Err(Stopped) => Err(machine.refusal),
    };
    (outcome, machine.seen)
}

impl Machine<'_> {
    /// Section 4: at a term, 12 is tested first, then 13.
    #[inline]
    pub fn enter(&mut self, entry: u16, height: u32) -> Run<()> {
        if self.fuel == 0 {
            return Err(self.stop(Number::Fuel, entry));
        }
        self.fuel -= 1;
        if height > HEIGHT {
            return Err(self.stop(Number::Height, entry));
        }
        Ok(())
    }

    /// Notes a term that is entered; where it was noted, if it was.
    #[inline]
    pub fn note(&mut self, entry: u16, height: u32, given: Option<NodeId>) -> Option<usize> {
        if height > self.depth {
            return None;
        }
        self.seen.push(Seen { entry, height, backward: given.is_some(), value: given });
        Some(self.seen.len() - 1)
    }

    /// Notes the value that a term gave.
    #[inline]
    pub fn gave(&mut self, noted: Option<usize>, value: NodeId) {
        if let Some(seen) = noted.and_then(|at| self.seen.get_mut(at)) {
            seen.value = Some(value);
        }
    }

    #[cold]
    pub fn stop(&mut self, number: Number, entry: u16) -> Stopped {
        self.refusal = number.at(entry as u32);
        Stopped
    }

    #[inline]
    pub fn slot(&mut self, frame: Frame, variable: u8) -> &mut NodeId {
        &mut self.stack[frame.base as usize + variable as usize]
    }

    /// The value of a variable in a term run forward. In a backward run that may be an ancilla term in a let's bound term, and the
    /// variable one that the let's body uses, but not in the branch that was taken: it is a unit then (02, F-2).
    #[inline]
    pub fn read(&mut self, frame: Frame, variable: u8) -> NodeId {
        match *self.slot(frame, variable) {
            UNMET => self.read_unmet(),
            known => known,
        }
    }

    #[cold]
    fn read_unmet(&mut self) -> NodeId {
        self.unmet += 1;
        UNIT
    }

    /// Takes the newest variable off the stack; a unit variable never met is unit (section 2).
    pub fn leave(&mut self) -> NodeId {
        match self.stack.pop() {
            Some(UNMET) | None => UNIT,
            Some(value) => value,
        }
    }

    /// May-yield (section 3). It takes no step and no height.
    pub fn may_yield(&self, entry: u16, value: NodeId, frame: Frame) -> bool {
        let node = self.heap.node(value);
        match self.program.terms[entry as usize] {
            Term::Variable(x) if (x as u32) < frame.ancillae => {
                self.heap.equal(self.stack[frame.base as usize + x as usize], value)
            }
            Term::Variable(_) | Term::Call(..) | Term::Unroll(..) => true,
            Term::Unit => node.kind == Kind::Unit,
            Term::Inl(_, part) => node.kind == Kind::Inl && self.may_yield(part, node.first, frame),
            Term::Inr(_, part) => node.kind == Kind::Inr && self.may_yield(part, node.first, frame),
            Term::Roll(_, part) => node.kind == Kind::Roll && self.may_yield(part, node.first, frame),
            Term::Pair(left, right) => {
                node.kind == Kind::Pair
                    && self.may_yield(left, node.first, frame)
                    && self.may_yield(right, node.second, frame)
            }
            Term::Let(_, body) | Term::LetPair(_, body) => self.may_yield(body, value, frame),
            Term::Case(_, left, right) => {
                self.may_yield(left, value, frame) || self.may_yield(right, value, frame)
            }
        }
    }
}
