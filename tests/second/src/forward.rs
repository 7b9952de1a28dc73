//! Forward evaluation: Fig. 6, parts in the written order, steps and height as section 2 counts them.

use crate::limits::PARAMETERS;
use crate::program::{Arguments, Term};
use crate::refusal::Number;
use crate::run::{Frame, Machine, Run};
use crate::value::{Kind, NodeId, UNIT};

impl Machine<'_> {
    pub fn forward(&mut self, entry: u16, frame: Frame, height: u32) -> Run<NodeId> {
        self.enter(entry, height)?;
        let noted = self.note(entry, height, None);
        let value = self.forward_term(entry, frame, height)?;
        self.gave(noted, value);
        Ok(value)
    }

    #[inline]
    fn forward_term(&mut self, entry: u16, frame: Frame, height: u32) -> Run<NodeId> {
        match self.program.terms[entry as usize] {
            Term::Variable(variable) => Ok(self.read(frame, variable)),
            Term::Unit => Ok(UNIT),
            Term::Inl(_, part) => self.forward_wrapped(entry, Kind::Inl, part, frame, height),
            Term::Inr(_, part) => self.forward_wrapped(entry, Kind::Inr, part, frame, height),
            Term::Roll(_, part) => self.forward_wrapped(entry, Kind::Roll, part, frame, height),
            Term::Unroll(_, part) => {
                let rolled = self.forward(part, frame, height + 1)?;
                Ok(self.heap.node(rolled).first)
            }
            Term::Pair(left, right) => {
                let first = self.forward(left, frame, height + 1)?;
                let second = self.forward(right, frame, height + 1)?;
                let value = self.heap.pair(first, second);
                self.made(entry, value)
            }
            Term::Let(bound, body) => {
                let value = self.forward(bound, frame, height + 1)?;
                self.stack.push(value);
                let result = self.forward(body, frame, height + 1)?;
                self.stack.pop();
                Ok(result)
            }
            Term::LetPair(bound, body) => {
                let pair = self.forward(bound, frame, height + 1)?;
                let node = self.heap.node(pair);
                self.stack.push(node.first);
                self.stack.push(node.second);
                let result = self.forward(body, frame, height + 1)?;
                self.stack.truncate(self.stack.len() - 2);
                Ok(result)
            }
            Term::Case(scrutinee, left, right) => {
                self.forward_case(entry, scrutinee, [left, right], frame, height)
            }
            Term::Call(function, arguments) => self.forward_call(function, arguments, frame, height),
        }
    }

    fn forward_wrapped(&mut self, entry: u16, kind: Kind, part: u16, frame: Frame, height: u32) -> Run<NodeId> {
        let part = self.forward(part, frame, height + 1)?;
        let value = self.heap.wrap(kind, part);
        self.made(entry, value)
    }

    /// 14 is met when a constructor's value is made, after its parts.
    fn made(&mut self, entry: u16, value: NodeId) -> Run<NodeId> {
        if self.heap.fits(value) {
            Ok(value)
        } else {
            Err(self.stop(Number::Size, entry))
        }
    }

    /// First match: a right branch's value is refused if the left branch may yield it, but not where an ancilla chooses (02, F-3).
    fn forward_case(
        &mut self,
        entry: u16,
        scrutinee: u16,
        [left, right]: [u16; 2],
        frame: Frame,
        height: u32,
    ) -> Run<NodeId> {
        let decided = self.forward(scrutinee, frame, height + 1)?;
        let node = self.heap.node(decided);
        let right_taken = node.kind == Kind::Inr;
        self.stack.push(node.first);
        let branch = if right_taken { right } else { left };
        let value = self.forward(branch, frame, height + 1)?;
        self.stack.pop();
        let by_first_match = right_taken && !self.program.by_ancilla[entry as usize];
        if by_first_match && self.may_yield(left, value, frame) {
            return Err(self.stop(Number::FirstMatch, entry));
        }
        Ok(value)
    }

    fn forward_call(&mut self, function: u16, arguments: Arguments, frame: Frame, height: u32) -> Run<NodeId> {
        let program = self.program;
        let terms = program.arguments(arguments);
        let values = self.forward_all(terms, frame, height)?;
        let called = self.push_frame(&values[..terms.len()], terms.len() - 1);
        let result = self.forward(program.functions[function as usize].body, called, height + 1)?;
        self.stack.truncate(called.base as usize);
        Ok(result)
    }

    /// Argument terms in order. Their values wait outside of the stack, where later arguments bind variables.
    pub fn forward_all(&mut self, terms: &[u16], frame: Frame, height: u32) -> Run<[NodeId; PARAMETERS]> {
        let mut values = [UNIT; PARAMETERS];
        for (value, &term) in values.iter_mut().zip(terms) {
            *value = self.forward(term, frame, height + 1)?;
        }
        Ok(values)
    }

    pub fn push_frame(&mut self, values: &[NodeId], ancillae: usize) -> Frame {
        let base = self.stack.len() as u32;
        self.stack.extend_from_slice(values);
        Frame { base, ancillae: ancillae as u32 }
    }
}
