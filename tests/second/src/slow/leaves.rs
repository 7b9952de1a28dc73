//! Nested cases over a left branch of many leaves, each an ancilla that is nearly the value. Backward every case asks every
//! leaf, forward every case that takes its right branch; each leaf that is asked compares two long values.
//!
//! A case that chooses by an ancilla asks no leaf (02, F-3). So the outermost case alone decides on an ancilla, whose part is the next
//! one's to decide on, and so on inwards: under each of those stands a dynamic variable.

use super::call_of;
use super::chain::Chain;
use crate::calls::{Direction, RunCall};
use crate::draft::*;

#[derive(Clone, PartialEq, Eq, Debug)]
pub struct Leaves {
    pub direction: Direction,
    /// Cases, each the left branch of the one around it.
    pub nested: usize,
    pub leaves: usize,
    pub leaf: Leaf,
    pub chain: Chain,
    pub turns: usize,
    /// The tail of the value, and of the ancillae that the leaves name in turn.
    pub tail: u32,
    pub rivals: Vec<u32>,
    pub rebuilt: Rebuilt,
}

/// What a leaf of the left branch is.
#[derive(Clone, Copy, PartialEq, Eq, Debug)]
pub enum Leaf {
    /// An ancilla, as long as the value.
    Whole,
    /// An ancilla beside a bit that is not the value's.
    Paired,
    /// So many turns around an ancilla.
    Within(usize),
}

/// What is built anew between two passes of the cases.
#[derive(Clone, Copy, PartialEq, Eq, Debug)]
pub enum Rebuilt {
    Nothing,
    /// The outermost node of the value and of the ancillae.
    Outermost,
    /// The value whole.
    Value,
}

/// The cases of function 0 are passed by function 1, which builds anew what is to be; each further function passes the one
/// before it so many times.
const CASES: usize = 0;
const PASS: usize = 1;
const COPY: usize = 2;
const PASSES: usize = 4;

const LEFT: [u8; 2] = [1, 0];
const RIGHT: [u8; 2] = [2, 0];

impl Leaves {
    /// Its call with the given fuel, and passes enough to spend it.
    pub fn call(&self, fuel: u16) -> RunCall {
        call_of(self.draft(fuel), self.direction, fuel, self.ancilla_bytes(), self.value_bytes())
    }

    pub fn value_bytes(&self) -> Vec<u8> {
        let chain = self.chain.bytes(self.turns, self.tail);
        match self.leaf {
            Leaf::Paired => [&[3], &chain[..], &RIGHT].concat(),
            Leaf::Whole | Leaf::Within(_) => chain,
        }
    }

    pub fn ancilla_bytes(&self) -> Vec<u8> {
        let turns = self.turns - if let Leaf::Within(turns) = self.leaf { turns } else { 0 };
        let mut bytes: Vec<u8> = self.rivals.iter().flat_map(|&tail| self.chain.bytes(turns, tail)).collect();
        bytes.extend(LEFT);
        bytes.resize(bytes.len() + self.decided_in_turn(), LEFT[0]);
        bytes.push(LEFT[1]);
        bytes
    }

    fn draft(&self, fuel: u16) -> Draft {
        let mut functions = vec![self.cases(), self.pass()];
        if self.rebuilt == Rebuilt::Value {
            functions.push(self.chain.copying(COPY));
        }
        let (mut passed, mut passes) = (PASS, 1);
        while passes * self.steps_of_a_pass() < fuel as usize {
            functions.push(self.passing(passed));
            (passed, passes) = (functions.len() - 1, passes * PASSES);
        }
        if passed != functions.len() - 1 {
            functions.push(self.passing(passed));
        }
        Draft { functions }
    }

    /// The number of the ancilla that is a bit: paired leaves have it beside them, and the cases between leaves decide on it.
    fn bit(&self) -> usize {
        self.rivals.len()
    }

    /// The number of the ancilla on which the nested cases decide; the ancillae before it are the leaves' own.
    fn decider(&self) -> usize {
        self.rivals.len() + 1
    }

    /// How many cases decide on the decider and then on the part that is left of it; it has a side for one of them at the least.
    fn decided_in_turn(&self) -> usize {
        (self.nested - 1).max(1)
    }

    fn decider_type(&self) -> Type {
        (0..self.decided_in_turn()).fold(unit_type(), |left, _| sum(&left, &unit_type()))
    }

    /// At the least: two for each case, the call with its ancillae, and the value on its way.
    fn steps_of_a_pass(&self) -> usize {
        2 * self.nested + self.decider() + 5
    }

    fn value_type(&self) -> Type {
        let chain = self.chain.ty();
        match self.leaf {
            Leaf::Paired => product(&chain, &boolean()),
            Leaf::Whole | Leaf::Within(_) => chain,
        }
    }

    fn function(&self, dynamic: Type, body: Term) -> Function {
        let mut parameters = vec![self.chain.ty(); self.rivals.len()];
        parameters.extend([boolean(), self.decider_type(), dynamic]);
        Function { parameters, result: self.value_type(), body }
    }

    /// The dynamic parameter is unit or a value, which is handed on. The innermost case decides on it; the cases around it
    /// take their left branch, and their right branch is there to use the parameter as well.
    fn cases(&self) -> Function {
        let given = self.decider() + 1;
        let handed_on = |left: Term, in_scope: usize| case(variable(given), left, variable(in_scope));
        let around = given + 1;
        let innermost = handed_on(self.tree(0, self.leaves), around + self.nested - 1);
        let body = (1..self.nested).rev().fold(innermost, |left, in_scope| {
            let decided = if in_scope == 1 { self.decider() } else { around + in_scope - 2 };
            case(variable(decided), left, handed_on(self.leaf(0), around + in_scope))
        });
        self.function(sum(&unit_type(), &self.value_type()), body)
    }

    /// A case tree over the leaves from `first` on, as low as can be.
    fn tree(&self, first: usize, count: usize) -> Term {
        if count == 1 {
            return self.leaf(first);
        }
        let half = count / 2;
        case(variable(self.bit()), self.tree(first, half), self.tree(first + half, count - half))
    }

    pub fn leaf(&self, number: usize) -> Term {
        let rival = variable(number % self.rivals.len());
        match self.leaf {
            Leaf::Whole => rival,
            Leaf::Paired => pair(rival, variable(self.bit())),
            Leaf::Within(turns) => self.chain.around(turns, rival),
        }
    }

    /// A value through the cases.
    fn pass(&self) -> Function {
        let ty = self.value_type();
        let again = |term: Term| match self.rebuilt {
            Rebuilt::Nothing => term,
            Rebuilt::Outermost => roll(&self.chain.ty(), unroll(&self.chain.ty(), term)),
            Rebuilt::Value => call(COPY, vec![term]),
        };
        let given = self.decider() + 1;
        let value = match self.leaf {
            Leaf::Paired => let_pair(variable(given), pair(again(variable(given + 1)), variable(given + 2))),
            Leaf::Whole | Leaf::Within(_) => again(variable(given)),
        };
        let ancilla = |number: usize| match self.rebuilt {
            Rebuilt::Outermost if number < self.rivals.len() => again(variable(number)),
            _ => variable(number),
        };
        let mut terms: Vec<Term> = (0..given).map(ancilla).collect();
        terms.push(inr(&sum(&unit_type(), &ty), value));
        self.function(ty, call(CASES, terms))
    }

    /// A function of the same parameters passed several times.
    fn passing(&self, passed: usize) -> Function {
        let given = self.decider() + 1;
        let body = (0..PASSES)
            .fold(variable(given), |value, _| call(passed, (0..given).map(variable).chain([value]).collect()));
        self.function(self.value_type(), body)
    }
}
