//! Typing (6 to 8): Fig. 3 and 4 as section 3 reads them, functions in order, terms in written order.
//!
//! A test that needs no typed part is made on entering the term; a test that needs parts 1 to k is made right after
//! part k.

use crate::choosing::cases_by_ancilla;
use crate::entries::read_entries;
use crate::limits::VARIABLES;
use crate::namings::Namings;
use crate::program::{Function, Program, Term};
use crate::refusal::{Number, Refusal};
use crate::types::{Shape, TypeId, Types};
use crate::uses::Uses;

/// A program that the check accepts, with what the calls need of its types.
pub struct Checked {
    pub program: Program,
    pub types: Types,
    pub signatures: Vec<Signature>,
}

#[derive(Clone)]
pub struct Signature {
    pub parameters: Vec<TypeId>,
    pub result: TypeId,
}

impl Signature {
    pub fn dynamic(&self) -> TypeId {
        *self.parameters.last().expect("a function has a parameter")
    }

    pub fn ancillae(&self) -> &[TypeId] {
        &self.parameters[..self.parameters.len() - 1]
    }
}

/// Field reading, entries and typing, in section 4's order.
pub fn check(bytes: &[u8]) -> Result<Checked, Refusal> {
    let mut program = Program::read(bytes)?;
    let mut types = Types::default();
    let trees = read_entries(&program, &mut types)?;
    let signatures: Vec<Signature> = program.functions.iter().map(|f| signature(f, &trees)).collect();
    let unit = types.intern(Shape::Unit);
    let mut typing = Typing {
        program: &program,
        types: &mut types,
        trees: &trees,
        signatures: &signatures,
        unit,
        scope: Vec::with_capacity(VARIABLES),
        namings: Namings::default(),
    };
    for (function, signature) in program.functions.iter().zip(&signatures) {
        typing.function(function, signature)?;
    }
    program.by_ancilla = cases_by_ancilla(&program);
    Ok(Checked { program, types, signatures })
}

fn signature(function: &Function, trees: &[TypeId]) -> Signature {
    let tree = |&ty: &u16| trees[ty as usize];
    Signature { parameters: function.parameters.iter().map(tree).collect(), result: tree(&function.result) }
}

#[derive(Clone, Copy)]
struct Binding {
    ty: TypeId,
    dynamic: bool,
}

/// A term's type, and the dynamic variables that it uses.
type Typed = Result<(TypeId, Uses), Refusal>;

struct Typing<'a> {
    program: &'a Program,
    types: &'a mut Types,
    trees: &'a [TypeId],
    signatures: &'a [Signature],
    unit: TypeId,
    scope: Vec<Binding>,
    namings: Namings,
}

impl Typing<'_> {
    fn function(&mut self, function: &Function, signature: &Signature) -> Result<(), Refusal> {
        let dynamic = signature.ancillae().len();
        self.scope.clear();
        for (number, &ty) in signature.parameters.iter().enumerate() {
            self.scope.push(Binding { ty, dynamic: number == dynamic });
        }
        let (ty, uses) = self.term(function.body)?;
        require(ty == signature.result, Number::Mismatch, function.offset)?;
        require(self.may_leave(dynamic, uses), Number::Use, function.offset)
    }

    fn term(&mut self, entry: u16) -> Typed {
        let offset = self.program.term_offsets[entry as usize];
        match self.program.terms[entry as usize] {
            Term::Variable(variable) => self.variable(variable, offset),
            Term::Unit => Ok((self.unit, Uses::default())),
            Term::Inl(named, part) => {
                let (left, _) = self.sum(self.tree(named)).ok_or(Number::Mismatch.at(offset))?;
                self.constructed(part, left, self.tree(named), offset)
            }
            Term::Inr(named, part) => {
                let (_, right) = self.sum(self.tree(named)).ok_or(Number::Mismatch.at(offset))?;
                self.constructed(part, right, self.tree(named), offset)
            }
            Term::Pair(left, right) => self.pair(left, right, offset),
            Term::Let(bound, body) => self.let_one(entry, bound, body, offset),
            Term::LetPair(bound, body) => self.let_pair(entry, bound, body, offset),
            Term::Case(scrutinee, left, right) => self.case(scrutinee, [left, right], offset),
            Term::Call(function, arguments) => {
                let terms = self.program.arguments(arguments);
                self.call(function, terms, offset)
            }
            Term::Roll(named, part) => {
                let recursive = self.tree(named);
                let unfolded = self.types.unfold(recursive).ok_or(Number::Mismatch.at(offset))?;
                self.constructed(part, unfolded, recursive, offset)
            }
            Term::Unroll(named, part) => {
                let recursive = self.tree(named);
                let unfolded = self.types.unfold(recursive).ok_or(Number::Mismatch.at(offset))?;
                require(self.types.within_limit(unfolded), Number::Mismatch, offset)?;
                self.constructed(part, recursive, unfolded, offset)
            }
        }
    }

    /// 8 at once where no let could help a naming (02, F-2). A naming is no use.
    fn variable(&mut self, variable: u8, offset: u32) -> Typed {
        let number = variable as usize;
        let Binding { ty, dynamic } = *self.scope.get(number).ok_or(Number::Scope.at(offset))?;
        if dynamic && self.namings.is_use(number) {
            return Ok((ty, Uses::only(number)));
        }
        require(!dynamic || self.namings.waits(number, offset), Number::Use, offset)?;
        Ok((ty, Uses::default()))
    }

    /// A term of one part whose type must be `expected`, and then has type `result`.
    fn constructed(&mut self, part: u16, expected: TypeId, result: TypeId, offset: u32) -> Typed {
        let (ty, uses) = self.term(part)?;
        require(ty == expected, Number::Mismatch, offset)?;
        Ok((result, uses))
    }

    fn pair(&mut self, left: u16, right: u16, offset: u32) -> Typed {
        let (first, first_uses) = self.term(left)?;
        let (second, second_uses) = self.term(right)?;
        let product = self.types.intern(Shape::Product(first, second));
        require(self.types.within_limit(product), Number::Mismatch, offset)?;
        Ok((product, first_uses.with(second_uses)))
    }

    fn let_one(&mut self, entry: u16, bound: u16, body: u16, offset: u32) -> Typed {
        self.room_for(1, offset)?;
        let (ty, bound_uses) = self.bound(entry, bound)?;
        let (result, body_uses) = self.let_body(entry, &[ty], body, offset)?;
        Ok((result, bound_uses.with(body_uses)))
    }

    fn let_pair(&mut self, entry: u16, bound: u16, body: u16, offset: u32) -> Typed {
        self.room_for(2, offset)?;
        let (ty, bound_uses) = self.bound(entry, bound)?;
        let Shape::Product(first, second) = self.types.shape(ty) else {
            return Err(Number::Mismatch.at(offset));
        };
        let (result, body_uses) = self.let_body(entry, &[first, second], body, offset)?;
        Ok((result, bound_uses.with(body_uses)))
    }

    /// The bound term of a let or let pair, in which its body may help namings (02, F-2).
    fn bound(&mut self, entry: u16, bound: u16) -> Typed {
        self.namings.enter_bound(entry, self.scope.len());
        let typed = self.term(bound)?;
        self.namings.leave_bound();
        Ok(typed)
    }

    /// The body of a let or let pair. The point after it has several places for 8, of which the lowest stands: the let itself, whose
    /// variable is unused, and each naming that waited for this body in vain (02, F-2).
    fn let_body(&mut self, entry: u16, bound: &[TypeId], body: u16, offset: u32) -> Typed {
        let (ty, uses, left) = self.binder(bound, body)?;
        let unused = (!left).then_some(offset);
        match self.namings.settle(entry, uses).into_iter().chain(unused).min() {
            Some(place) => Err(Number::Use.at(place)),
            None => Ok((ty, uses)),
        }
    }

    /// T-SUM as section 3 reads it: the branches' own uses are compared, whatever the scrutinee uses.
    fn case(&mut self, scrutinee: u16, branches: [u16; 2], offset: u32) -> Typed {
        self.room_for(1, offset)?;
        let (ty, scrutinee_uses) = self.term(scrutinee)?;
        let (left, right) = self.sum(ty).ok_or(Number::Mismatch.at(offset))?;
        let (left_type, left_uses, left_used) = self.binder(&[left], branches[0])?;
        require(left_used, Number::Use, offset)?;
        let (right_type, right_uses, right_used) = self.binder(&[right], branches[1])?;
        require(left_type == right_type, Number::Mismatch, offset)?;
        let agree = self.without_units(left_uses) == self.without_units(right_uses);
        require(right_used && agree, Number::Use, offset)?;
        Ok((left_type, scrutinee_uses.with(left_uses).with(right_uses)))
    }

    /// Of the dynamic variables from outside, an ancilla argument names some at most: only the last argument uses any.
    fn call(&mut self, function: u16, terms: &[u16], offset: u32) -> Typed {
        let signature = &self.signatures[function as usize];
        require(terms.len() == signature.parameters.len(), Number::Mismatch, offset)?;
        let (&dynamic, ancillae) = terms.split_last().expect("a function has a parameter");
        for (&term, &parameter) in ancillae.iter().zip(signature.ancillae()) {
            self.namings.enter_argument(self.scope.len());
            let (ty, _) = self.term(term)?;
            self.namings.leave_argument();
            require(ty == parameter, Number::Mismatch, offset)?;
        }
        let (ty, uses) = self.term(dynamic)?;
        require(ty == signature.dynamic(), Number::Mismatch, offset)?;
        Ok((signature.result, uses))
    }

    /// Types a body with new dynamic variables. Answers its type, its uses of older variables, and whether each new
    /// variable may be left as it is.
    fn binder(&mut self, bound: &[TypeId], body: u16) -> Result<(TypeId, Uses, bool), Refusal> {
        let outer = self.scope.len();
        self.scope.extend(bound.iter().map(|&ty| Binding { ty, dynamic: true }));
        let (ty, uses) = self.term(body)?;
        let mut new = outer..self.scope.len();
        let older = new.clone().fold(uses, Uses::without);
        let left = new.all(|variable| self.may_leave(variable, uses));
        self.scope.truncate(outer);
        Ok((ty, older, left))
    }

    /// T-UNIT-ELM, narrowed: a dynamic variable is used, or its type is exactly unit.
    fn may_leave(&self, variable: usize, uses: Uses) -> bool {
        uses.has(variable) || self.scope[variable].ty == self.unit
    }

    fn without_units(&self, uses: Uses) -> Uses {
        let units = self.scope.iter().enumerate().filter(|(_, binding)| binding.ty == self.unit);
        units.fold(uses, |uses, (variable, _)| uses.without(variable))
    }

    fn room_for(&self, variables: usize, offset: u32) -> Result<(), Refusal> {
        require(self.scope.len() + variables <= VARIABLES, Number::Scope, offset)
    }

    fn sum(&self, ty: TypeId) -> Option<(TypeId, TypeId)> {
        match self.types.shape(ty) {
            Shape::Sum(left, right) => Some((left, right)),
            _ => None,
        }
    }

    fn tree(&self, named: u16) -> TypeId {
        self.trees[named as usize]
    }
}

fn require(kept: bool, number: Number, offset: u32) -> Result<(), Refusal> {
    if kept {
        Ok(())
    } else {
        Err(number.at(offset))
    }
}
