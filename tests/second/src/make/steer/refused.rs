//! Programs that F-2's rule turns down, of one kind each (02, F-2).

use super::super::types::{random_type, smallest_term};
use crate::draft::*;
use crate::refusal::Number;
use crate::rng::Rng;
use crate::samples::steering::{beside, tagged, unsteered};

/// A kind of refused program: what it is refused with, and the kind of field at the place.
pub struct Refused {
    pub name: &'static str,
    pub number: Number,
    pub place: &'static str,
    make: fn(&Record, &mut Rng) -> Term,
}

/// The types of main's record, a pair of k, by which calls are steered, and n.
struct Record {
    key: Type,
    value: Type,
}

/// The functions of each program: main, and what it calls with k for an ancilla.
const BESIDE: usize = 1;
const BESIDE_TWO: usize = 2;
const BESIDE_KEYS: usize = 3;
const TAGGED: usize = 4;
const KEY: usize = 5;

/// Main's variables: an ancilla of k's type, the record, its parts, and what the body binds first.
const ANCILLA: usize = 0;
const RECORD: usize = 1;
const K: usize = 2;
const N: usize = 3;
const NEW: usize = 4;

const VARIABLE: &str = "variable";

macro_rules! refused {
    ($make:ident, $number:ident, $place:expr) => {
        Refused { name: stringify!($make), number: Number::$number, place: $place, make: $make }
    };
}

pub const REFUSED: [Refused; 26] = [
    refused!(beside_a_use, Use, VARIABLE),
    refused!(used_by_the_branches, Use, VARIABLE),
    refused!(used_by_the_dynamic_term, Use, VARIABLE),
    refused!(named_in_the_body, Use, VARIABLE),
    refused!(number_bound_again, Use, VARIABLE),
    refused!(bound_in_the_argument, Use, VARIABLE),
    refused!(let_in_the_argument, Use, VARIABLE),
    refused!(let_in_the_argument_and_around_it, Use, VARIABLE),
    refused!(not_in_scope, Scope, VARIABLE),
    refused!(used_outside_the_let, Use, VARIABLE),
    refused!(used_outside_both_lets, Use, VARIABLE),
    refused!(used_by_the_bound_term, Use, VARIABLE),
    refused!(named_by_the_body, Use, VARIABLE),
    refused!(let_in_a_scrutinee, Use, VARIABLE),
    refused!(unit_left_out_by_the_body, Use, VARIABLE),
    refused!(unit_without_a_let, Use, VARIABLE),
    refused!(types_differ_in_the_body, Mismatch, "roll"),
    refused!(types_differ_in_the_outer_body, Mismatch, "roll"),
    refused!(no_pair_is_bound, Mismatch, "let pair"),
    refused!(no_scope_in_the_body, Scope, VARIABLE),
    refused!(unused_in_the_body, Use, "let"),
    refused!(branches_differ_in_the_body, Use, "case"),
    refused!(let_itself_and_a_naming, Use, VARIABLE),
    refused!(two_arguments, Use, VARIABLE),
    refused!(bound_term_and_body, Use, VARIABLE),
    refused!(named_by_one_branch, Use, "case"),
];

impl Refused {
    /// What is refused comes before main's result, which is not of its type.
    pub fn draft(&self, rng: &mut Rng) -> Draft {
        let key = if self.name.starts_with("unit") { unit_type() } else { key_type(rng) };
        let record = Record { key, value: random_type(rng) };
        let body = let_pair(variable(RECORD), (self.make)(&record, rng));
        let Record { key, value } = record;
        let main = Function { parameters: vec![key.clone(), product(&key, &value)], result: unit_type(), body };
        let (one, keys) = (std::slice::from_ref(&key), product(&key, &key));
        let functions = vec![
            main,
            beside(one, &value),
            beside(&[key.clone(), key.clone()], &value),
            beside(&[keys], &value),
            tagged(one, &value),
            unsteered(one, &key),
        ];
        Draft { functions }
    }
}

/// Any but unit, which may go unused.
fn key_type(rng: &mut Rng) -> Type {
    loop {
        let ty = random_type(rng);
        if *ty != TypeTree::Unit {
            return ty;
        }
    }
}

/// n converted under k: the pair of both.
fn steered() -> Term {
    call(BESIDE, vec![variable(K), variable(N)])
}

/// A let of what k steers, whose body does not use k.
fn helpless(rng: &mut Rng, bound: Term) -> Term {
    if rng.chance(50) {
        let_one(bound, variable(NEW))
    } else {
        let_pair(bound, pair(variable(NEW + 1), variable(NEW)))
    }
}

/// With a use of k, before it or behind it.
fn with_k(rng: &mut Rng, term: Term) -> Term {
    if rng.chance(50) {
        pair(variable(K), term)
    } else {
        pair(term, variable(K))
    }
}

fn beside_a_use(_: &Record, rng: &mut Rng) -> Term {
    with_k(rng, steered())
}

/// The scrutinee names k, and each branch uses it.
fn decided(record: &Record, scrutinee: Term) -> Term {
    let beside_k = |ty: &Type| product(ty, &record.key);
    let result = sum(&beside_k(&product(&record.value, &record.key)), &beside_k(&unit_type()));
    let branch = || pair(variable(NEW), variable(K));
    case(scrutinee, inl(&result, branch()), inr(&result, branch()))
}

fn used_by_the_branches(record: &Record, _: &mut Rng) -> Term {
    decided(record, call(TAGGED, vec![variable(K), variable(N)]))
}

fn used_by_the_dynamic_term(_: &Record, _: &mut Rng) -> Term {
    pair(call(KEY, vec![variable(K), variable(K)]), variable(N))
}

/// The let's bound term uses k, and does not hold the argument.
fn named_in_the_body(_: &Record, _: &mut Rng) -> Term {
    let_one(variable(K), pair(variable(NEW), steered()))
}

/// The inner variable has the number that the outer body uses, which is another variable. 8 does not wait for that body.
fn number_bound_again(_: &Record, rng: &mut Rng) -> Term {
    let named = call(BESIDE, vec![variable(NEW), variable(N)]);
    let body = if rng.chance(50) { variable(NEW) } else { roll(&nat(), variable(NEW)) };
    let_one(let_one(variable(K), pair(named, variable(NEW))), body)
}

fn bound_in_the_argument(_: &Record, _: &mut Rng) -> Term {
    let inner = let_one(variable(ANCILLA), call(KEY, vec![variable(NEW), variable(NEW)]));
    let_one(call(BESIDE, vec![inner, variable(N)]), pair(variable(K), variable(NEW)))
}

/// Inside the argument, k is named by the let's body as well.
fn with_let_in_the_argument() -> Term {
    let inner = let_one(call(KEY, vec![variable(K), variable(ANCILLA)]), pair(variable(K), variable(NEW)));
    call(BESIDE_KEYS, vec![inner, variable(N)])
}

fn let_in_the_argument(_: &Record, rng: &mut Rng) -> Term {
    with_k(rng, with_let_in_the_argument())
}

fn let_in_the_argument_and_around_it(_: &Record, rng: &mut Rng) -> Term {
    let around = helpless(rng, with_let_in_the_argument());
    with_k(rng, around)
}

fn not_in_scope(_: &Record, rng: &mut Rng) -> Term {
    let named = variable(rng.between(NEW, NEW + 2));
    let_one(call(BESIDE, vec![named, variable(N)]), pair(variable(K), variable(NEW)))
}

fn used_outside_the_let(_: &Record, rng: &mut Rng) -> Term {
    let around = helpless(rng, steered());
    with_k(rng, around)
}

fn used_outside_both_lets(_: &Record, rng: &mut Rng) -> Term {
    let inner = helpless(rng, steered());
    let outer = helpless(rng, inner);
    with_k(rng, outer)
}

fn used_by_the_bound_term(_: &Record, rng: &mut Rng) -> Term {
    let bound = with_k(rng, steered());
    helpless(rng, bound)
}

/// The body names k in its turn, in an argument that is refused first.
fn named_by_the_body(_: &Record, rng: &mut Rng) -> Term {
    let again =
        let_one(call(BESIDE, vec![variable(K), variable(NEW)]), pair(variable(NEW + 2), variable(NEW + 1)));
    with_k(rng, let_pair(steered(), again))
}

fn let_in_a_scrutinee(record: &Record, _: &mut Rng) -> Term {
    decided(record, let_one(call(TAGGED, vec![variable(K), variable(N)]), variable(NEW)))
}

fn unit_left_out_by_the_body(_: &Record, rng: &mut Rng) -> Term {
    let around = helpless(rng, steered());
    if rng.chance(50) {
        around
    } else {
        with_k(rng, around)
    }
}

fn unit_without_a_let(_: &Record, _: &mut Rng) -> Term {
    steered()
}

fn types_differ_in_the_body(_: &Record, rng: &mut Rng) -> Term {
    with_k(rng, let_one(steered(), roll(&nat(), variable(NEW))))
}

fn types_differ_in_the_outer_body(_: &Record, rng: &mut Rng) -> Term {
    let inner = helpless(rng, steered());
    with_k(rng, let_one(inner, roll(&nat(), variable(NEW))))
}

fn no_pair_is_bound(_: &Record, rng: &mut Rng) -> Term {
    with_k(rng, let_pair(call(TAGGED, vec![variable(K), variable(N)]), variable(NEW)))
}

fn no_scope_in_the_body(_: &Record, rng: &mut Rng) -> Term {
    with_k(rng, let_one(steered(), pair(variable(NEW), variable(NEW + 1))))
}

fn unused_in_the_body(_: &Record, rng: &mut Rng) -> Term {
    with_k(rng, let_one(steered(), let_one(variable(NEW), Term::Unit)))
}

fn branches_differ_in_the_body(record: &Record, rng: &mut Rng) -> Term {
    let other = smallest_term(&product(&record.value, &record.key));
    let body = case(inl(&boolean(), Term::Unit), variable(NEW), other);
    with_k(rng, let_one(steered(), body))
}

fn let_itself_and_a_naming(_: &Record, rng: &mut Rng) -> Term {
    with_k(rng, let_one(steered(), Term::Unit))
}

fn two_arguments(_: &Record, rng: &mut Rng) -> Term {
    let around = helpless(rng, call(BESIDE_TWO, vec![variable(K), variable(K), variable(N)]));
    with_k(rng, around)
}

/// One naming in the bound term and one in the body of the inner let: both wait for the outer one.
fn bound_term_and_body(_: &Record, rng: &mut Rng) -> Term {
    let again = call(BESIDE, vec![variable(K), variable(NEW)]);
    let around = helpless(rng, let_pair(steered(), pair(again, variable(NEW + 1))));
    with_k(rng, around)
}

/// The outer let helps the naming; but it is no use, and the other branch has one.
fn named_by_one_branch(_: &Record, rng: &mut Rng) -> Term {
    let (used, named) = (pair(variable(N), variable(K)), steered());
    let (left, right) = if rng.chance(50) { (used, named) } else { (named, used) };
    let bound = case(inl(&boolean(), Term::Unit), left, right);
    let_one(bound, pair(variable(K), variable(NEW)))
}
