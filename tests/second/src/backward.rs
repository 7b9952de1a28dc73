//! Backward evaluation, in section 2's order. Each term is given the value that it must have had.

use crate::program::{Arguments, Term};
use crate::refusal::Number;
use crate::run::{Frame, Machine, Run, UNMET};
use crate::value::{Kind, NodeId};

impl Machine<'_> {
    pub fn backward(&mut self, entry: u16, value: NodeId, frame: Frame, height: u32) -> Run<()> {
        self.enter(entry, height)?;
        self.note(entry, height, Some(value));
        if !self.heap.fits(value) {
            return Err(self.stop(Number::Size, entry));
        }
        match self.program.terms[entry as usize] {
            Term::Variable(variable) => self.meet(entry, variable, value, frame),
            Term::Unit => Ok(()),
            Term::Inl(_, part) => self.backward_injection(entry, Kind::Inl, part, value, frame, height),
            Term::Inr(_, part) => self.backward_injection(entry, Kind::Inr, part, value, frame, height),
            Term::Pair(left, right) => {
                let node = self.heap.node(value);
                self.backward(left, node.first, frame, height + 1)?;
                self.backward(right, node.second, frame, height + 1)
            }
            Term::Roll(_, part) => self.backward(part, self.heap.node(value).first, frame, height + 1),
            Term::Unroll(_, part) => {
                let rolled = self.heap.wrap(Kind::Roll, value);
                self.backward(part, rolled, frame, height + 1)
            }
            Term::Let(bound, body) => {
                self.stack.push(UNMET);
                self.backward(body, value, frame, height + 1)?;
                let bound_value = self.leave();
                self.backward(bound, bound_value, frame, height + 1)
            }
            Term::LetPair(bound, body) => {
                self.stack.extend_from_slice(&[UNMET, UNMET]);
                self.backward(body, value, frame, height + 1)?;
                let second = self.leave();
                let first = self.leave();
                let pair = self.heap.pair(first, second);
                self.backward(bound, pair, frame, height + 1)
            }
            Term::Case(scrutinee, left, right) => {
                self.backward_case(entry, scrutinee, [left, right], value, frame, height)
            }
            Term::Call(function, arguments) => self.backward_call(function, arguments, value, frame, height),
        }
    }

    /// A variable met again must have the same value; an ancilla has its own from the start.
    fn meet(&mut self, entry: u16, variable: u8, value: NodeId, frame: Frame) -> Run<()> {
        let slot = self.slot(frame, variable);
        if *slot == UNMET {
            *slot = value;
            return Ok(());
        }
        let known = *slot;
        if self.heap.equal(known, value) {
            Ok(())
        } else {
            Err(self.stop(Number::NoInput, entry))
        }
    }

    fn backward_injection(
        &mut self,
        entry: u16,
        kind: Kind,
        part: u16,
        value: NodeId,
        frame: Frame,
        height: u32,
    ) -> Run<()> {
        let node = self.heap.node(value);
        if node.kind != kind {
            return Err(self.stop(Number::NoInput, entry));
        }
        self.backward(part, node.first, frame, height + 1)
    }

    /// Section 3: the left branch is taken exactly if it may yield the value, but where an ancilla chooses (02, F-3).
    fn backward_case(
        &mut self,
        entry: u16,
        scrutinee: u16,
        [left, right]: [u16; 2],
        value: NodeId,
        frame: Frame,
        height: u32,
    ) -> Run<()> {
        if self.program.by_ancilla[entry as usize] {
            return self.backward_choice(scrutinee, [left, right], value, frame, height);
        }
        let (branch, kind) =
            if self.may_yield(left, value, frame) { (left, Kind::Inl) } else { (right, Kind::Inr) };
        self.stack.push(UNMET);
        self.backward(branch, value, frame, height + 1)?;
        let bound = self.leave();
        let decided = self.heap.wrap(kind, bound);
        self.backward(scrutinee, decided, frame, height + 1)
    }

    /// 02, F-3: a case that chooses by an ancilla runs its scrutinee forward, which needs nothing of what is still to be met. The branch
    /// variable has its value then, so that each use of it is compared, and the scrutinee is not run back.
    fn backward_choice(
        &mut self,
        scrutinee: u16,
        [left, right]: [u16; 2],
        value: NodeId,
        frame: Frame,
        height: u32,
    ) -> Run<()> {
        let decided = self.forward(scrutinee, frame, height + 1)?;
        let node = self.heap.node(decided);
        let branch = if node.kind == Kind::Inr { right } else { left };
        self.stack.push(node.first);
        self.backward(branch, value, frame, height + 1)?;
        self.leave();
        Ok(())
    }

    /// Ancilla terms run forward, the body backward, then the dynamic term backward.
    fn backward_call(
        &mut self,
        function: u16,
        arguments: Arguments,
        value: NodeId,
        frame: Frame,
        height: u32,
    ) -> Run<()> {
        let program = self.program;
        let Some((&dynamic, ancilla_terms)) = program.arguments(arguments).split_last() else { return Ok(()) };
        let values = self.forward_all(ancilla_terms, frame, height)?;
        let called = self.push_frame(&values[..ancilla_terms.len()], ancilla_terms.len());
        self.stack.push(UNMET);
        self.backward(program.functions[function as usize].body, value, called, height + 1)?;
        let argument = self.leave();
        self.stack.truncate(called.base as usize);
        self.backward(dynamic, argument, frame, height + 1)
    }
}
