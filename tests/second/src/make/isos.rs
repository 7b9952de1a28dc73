//! Functions that are reversible by construction, so that runs go deep both ways: a plan says how a type is rebuilt,
//! a recursive type by a function that maps over it.

use super::types::{random_type, smallest_term};
use crate::draft::*;
use crate::rng::Rng;
use crate::samples;

/// How the value of one variable is rebuilt.
enum Plan {
    Same,
    Product {
        swapped: bool,
        left: Box<Plan>,
        right: Box<Plan>,
    },
    Sum {
        swapped: bool,
        left: Box<Plan>,
        right: Box<Plan>,
    },
    /// The unit part of a product is left out; it comes back since a unit variable never met is unit.
    WithoutUnit(Box<Plan>),
    /// (x, x).
    Twice,
    /// Beside an ancilla parameter, or a constant.
    BesideAncilla(usize),
    BesideConstant(Type),
    /// Under an injection into a sum with another type.
    Injected {
        left: bool,
        other: Type,
    },
    /// By a function that maps over the type, or this very function at its recursive position.
    Mapped(usize),
    Recur(usize),
}

pub struct IsoWriter<'a> {
    rng: &'a mut Rng,
    ancillae: Vec<Type>,
    functions: Vec<Option<Function>>,
}

/// What a recursive function puts for its type's own variable.
struct Recursion<'a> {
    result: &'a Type,
}

pub fn reversible_program(rng: &mut Rng) -> Draft {
    let ancillae: Vec<Type> = (0..rng.below(3)).map(|_| random_type(rng)).collect();
    let mut writer = IsoWriter { rng, ancillae, functions: Vec::new() };
    for _ in 0..writer.rng.between(1, 2) {
        let ty = if writer.rng.chance(60) { recursive_type(writer.rng) } else { random_type(writer.rng) };
        writer.chain(&ty);
    }
    Draft { functions: writer.functions.into_iter().flatten().collect() }
}

fn recursive_type(rng: &mut Rng) -> Type {
    match rng.below(5) {
        0 => nat(),
        1 => list(&unit_type()),
        2 => list(&random_type(rng)),
        3 => recursive(&sum(&boolean(), &product(&bound(0), &bound(0)))),
        _ => recursive(&sum(&product(&boolean(), &unit_type()), &product(&bound(0), &nat()))),
    }
}

impl IsoWriter<'_> {
    /// A function that rebuilds its argument once or a few times, each time bound by a let.
    fn chain(&mut self, ty: &Type) {
        let number = self.reserve();
        let dynamic = self.ancillae.len();
        let mut links = Vec::new();
        let mut current = ty.clone();
        for link in 0..self.rng.between(1, 2) {
            let plan = self.plan(&current, 2);
            let result = self.result(&plan, &current);
            links.push(self.build(&plan, dynamic + link, dynamic + link + 1, &current, None));
            current = result;
        }
        let body = links.pop().unwrap_or_else(|| variable(dynamic));
        let body = links.into_iter().rev().fold(body, |body, bound| let_one(bound, body));
        self.define(number, ty, current, body);
    }

    fn reserve(&mut self) -> usize {
        self.functions.push(None);
        self.functions.len() - 1
    }

    fn define(&mut self, number: usize, ty: &Type, result: Type, body: Term) {
        let parameters = self.ancillae.iter().chain([ty]).cloned().collect();
        self.functions[number] = Some(Function { parameters, result, body });
    }

    fn plan(&mut self, ty: &Type, depth: usize) -> Plan {
        let choice = self.rng.below(14);
        match &**ty {
            _ if depth == 0 => Plan::Same,
            TypeTree::Recursive(_) if choice < 9 => self.mapped(ty, depth),
            TypeTree::Product(left, right) if choice < 10 => {
                if **left == TypeTree::Unit && self.rng.chance(60) {
                    return Plan::WithoutUnit(Box::new(self.plan(right, depth - 1)));
                }
                let (left, right) = (self.plan(left, depth - 1), self.plan(right, depth - 1));
                Plan::Product { swapped: choice < 6, left: Box::new(left), right: Box::new(right) }
            }
            TypeTree::Sum(left, right) if choice < 10 => {
                let (left, right) = (self.plan(left, depth - 1), self.plan(right, depth - 1));
                Plan::Sum { swapped: choice < 6, left: Box::new(left), right: Box::new(right) }
            }
            _ => match choice {
                10 => Plan::Twice,
                11 if !self.ancillae.is_empty() => Plan::BesideAncilla(self.rng.below(self.ancillae.len())),
                12 => Plan::BesideConstant(random_type(self.rng)),
                13 => Plan::Injected { left: self.rng.chance(50), other: random_type(self.rng) },
                _ => Plan::Same,
            },
        }
    }

    /// A new function that maps over a recursive type.
    fn mapped(&mut self, ty: &Type, depth: usize) -> Plan {
        let TypeTree::Recursive(inner) = &**ty else { return Plan::Same };
        if recurs_inside(inner) {
            return Plan::Same;
        }
        let number = self.reserve();
        let plan = self.open_plan(inner, depth, number);
        let result = recursive(&self.result(&plan, inner));
        let dynamic = self.ancillae.len();
        let recursion = Recursion { result: &result };
        let rebuilt = self.build(&plan, dynamic + 1, dynamic + 2, inner, Some(&recursion));
        let body = let_one(unroll(ty, variable(dynamic)), roll(&result, rebuilt));
        self.define(number, ty, result, body);
        Plan::Mapped(number)
    }

    /// A plan under the recursive entry: its variable is rebuilt by the function itself.
    fn open_plan(&mut self, ty: &Type, depth: usize, itself: usize) -> Plan {
        let swapped = self.rng.chance(40);
        match &**ty {
            TypeTree::Bound(_) => Plan::Recur(itself),
            TypeTree::Product(left, right) => {
                let (left, right) = (self.open_plan(left, depth, itself), self.open_plan(right, depth, itself));
                Plan::Product { swapped, left: Box::new(left), right: Box::new(right) }
            }
            TypeTree::Sum(left, right) => {
                let (left, right) = (self.open_plan(left, depth, itself), self.open_plan(right, depth, itself));
                Plan::Sum { swapped, left: Box::new(left), right: Box::new(right) }
            }
            TypeTree::Recursive(_) if self.rng.chance(30) => self.plan(ty, depth - 1),
            _ => Plan::Same,
        }
    }

    fn result(&self, plan: &Plan, ty: &Type) -> Type {
        match (plan, &**ty) {
            (Plan::Product { swapped, left, right }, TypeTree::Product(a, b)) => {
                let (a, b) = (self.result(left, a), self.result(right, b));
                if *swapped {
                    product(&b, &a)
                } else {
                    product(&a, &b)
                }
            }
            (Plan::Sum { swapped, left, right }, TypeTree::Sum(a, b)) => {
                let (a, b) = (self.result(left, a), self.result(right, b));
                if *swapped {
                    sum(&b, &a)
                } else {
                    sum(&a, &b)
                }
            }
            (Plan::WithoutUnit(plan), TypeTree::Product(_, right)) => self.result(plan, right),
            (Plan::Twice, _) => product(ty, ty),
            (Plan::BesideAncilla(number), _) => product(ty, &self.ancillae[*number]),
            (Plan::BesideConstant(other), _) => product(ty, other),
            (Plan::Injected { left: true, other }, _) => sum(ty, other),
            (Plan::Injected { other, .. }, _) => sum(other, ty),
            (Plan::Mapped(number), _) => {
                self.functions[*number].as_ref().map_or_else(|| ty.clone(), |function| function.result.clone())
            }
            _ => ty.clone(),
        }
    }

    /// The term that rebuilds a variable; `scope` variables are bound where it stands.
    fn build(&self, plan: &Plan, number: usize, scope: usize, ty: &Type, recursion: Option<&Recursion>) -> Term {
        let ancillae = || (0..self.ancillae.len()).map(variable);
        match (plan, &**ty) {
            (Plan::Product { swapped, left, right }, TypeTree::Product(a, b)) => {
                let first = self.build(left, scope, scope + 2, a, recursion);
                let second = self.build(right, scope + 1, scope + 2, b, recursion);
                let_pair(variable(number), if *swapped { pair(second, first) } else { pair(first, second) })
            }
            (Plan::Sum { swapped, left, right }, TypeTree::Sum(a, b)) => {
                let result = closed(&self.result(plan, ty), recursion);
                let first = self.build(left, scope, scope + 1, a, recursion);
                let second = self.build(right, scope, scope + 1, b, recursion);
                if *swapped {
                    case(variable(number), inr(&result, first), inl(&result, second))
                } else {
                    case(variable(number), inl(&result, first), inr(&result, second))
                }
            }
            (Plan::WithoutUnit(plan), TypeTree::Product(_, right)) => {
                let_pair(variable(number), self.build(plan, scope + 1, scope + 2, right, recursion))
            }
            (Plan::Twice, _) => pair(variable(number), variable(number)),
            (Plan::BesideAncilla(ancilla), _) => pair(variable(number), variable(*ancilla)),
            (Plan::BesideConstant(other), _) => pair(variable(number), smallest_term(other)),
            (Plan::Injected { left: true, other }, _) => inl(&sum(ty, other), variable(number)),
            (Plan::Injected { other, .. }, _) => inr(&sum(other, ty), variable(number)),
            (Plan::Mapped(function) | Plan::Recur(function), _) => {
                call(*function, ancillae().chain([variable(number)]).collect())
            }
            _ => variable(number),
        }
    }
}

/// Whether a recursive entry further inside names the variable of the one outside. One function cannot map over both.
fn recurs_inside(ty: &Type) -> bool {
    match &**ty {
        TypeTree::Unit | TypeTree::Bound(_) => false,
        TypeTree::Recursive(_) => has_bound(ty, 0),
        TypeTree::Product(a, b) | TypeTree::Sum(a, b) => recurs_inside(a) || recurs_inside(b),
    }
}

fn has_bound(ty: &Type, depth: u8) -> bool {
    match &**ty {
        TypeTree::Unit => false,
        TypeTree::Bound(skipped) => *skipped >= depth,
        TypeTree::Recursive(inner) => has_bound(inner, depth + 1),
        TypeTree::Product(a, b) | TypeTree::Sum(a, b) => has_bound(a, depth) || has_bound(b, depth),
    }
}

fn closed(ty: &Type, recursion: Option<&Recursion>) -> Type {
    match recursion {
        Some(recursion) => substitute(ty, 0, recursion.result),
        None => ty.clone(),
    }
}

/// Section 6's functions and list functions over a random element type, in one program.
pub fn list_program(rng: &mut Rng) -> Draft {
    let element = if rng.chance(50) { boolean() } else { random_type(rng) };
    let keep = Function { parameters: vec![element.clone()], result: element.clone(), body: variable(0) };
    let per_element = if element == boolean() { samples::not() } else { keep };
    Draft {
        functions: vec![
            samples::plus(0),
            samples::dup(&nat()),
            per_element,
            samples::map(3, &element, 2),
            samples::snoc(4, &element),
            samples::reverse(5, &element, 4),
        ],
    }
}
