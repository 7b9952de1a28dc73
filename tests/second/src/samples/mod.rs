//! Programs that tests and measurements name: section 6's functions and some common list functions; the longest journal.

pub mod choosing;
pub mod steering;

use crate::draft::*;
use crate::journal::{Conversion, Journal};
use crate::limits::{ANCILLA_BYTES, CONVERSIONS, VALUE_BYTES};

/// Bytes of Nat n (section 6).
pub fn nat_bytes(n: usize) -> Vec<u8> {
    let mut bytes = [4, 2].repeat(n);
    bytes.extend([4, 1, 0]);
    bytes
}

/// Bytes of a list, its elements' bytes given.
pub fn list_bytes(elements: &[Vec<u8>]) -> Vec<u8> {
    let mut bytes = Vec::new();
    for element in elements {
        bytes.extend([4, 2, 3]);
        bytes.extend_from_slice(element);
    }
    bytes.extend([4, 1, 0]);
    bytes
}

/// The longest journal that there is: as many conversions as may stand, each with ancillae at their limit, and a held value at its own.
pub fn longest_journal() -> Vec<u8> {
    let value = |length: usize| [vec![4; length - 1], vec![0]].concat();
    let entry = Conversion { function: u16::MAX, steps: u32::MAX, ancillae: value(ANCILLA_BYTES) };
    let journal = Journal { held: value(VALUE_BYTES), conversions: vec![entry; CONVERSIONS] };
    journal.write(journal.length()).expect("a buffer of the fields' length")
}

/// n + 1 for a Nat term.
pub fn successor(term: Term) -> Term {
    roll(&nat(), inr(&unfold(&nat()), term))
}

pub fn zero() -> Term {
    roll(&nat(), inl(&unfold(&nat()), Term::Unit))
}

/// Section 6: ancilla a and dynamic n; case unroll n of inl u gives a; inr m gives roll inr (plus a m).
pub fn plus(itself: usize) -> Function {
    let recursion = successor(call(itself, vec![variable(0), variable(2)]));
    Function {
        parameters: vec![nat(), nat()],
        result: nat(),
        body: case(unroll(&nat(), variable(1)), variable(0), recursion),
    }
}

/// Section 6: n gives (n, n).
pub fn dup(ty: &Type) -> Function {
    Function { parameters: vec![ty.clone()], result: product(ty, ty), body: pair(variable(0), variable(0)) }
}

/// Section 6, P10: inl unit in both branches.
pub fn same_in_both_branches() -> Function {
    let given = inl(&boolean(), Term::Unit);
    Function { parameters: vec![boolean()], result: boolean(), body: case(variable(0), given.clone(), given) }
}

/// Section 6, P11: unit alone, and the sum is not used.
pub fn unused_sum() -> Function {
    Function { parameters: vec![boolean()], result: unit_type(), body: Term::Unit }
}

/// Section 6, P12: of a pair (s, q) the left branch gives q, the right one q flipped.
pub fn flipped_by_part() -> Function {
    let flipped = case(variable(2), inr(&boolean(), variable(4)), inl(&boolean(), variable(4)));
    Function {
        parameters: vec![product(&boolean(), &boolean())],
        result: boolean(),
        body: let_pair(variable(0), case(variable(1), variable(2), flipped)),
    }
}

/// 1+1 with its injections exchanged.
pub fn not() -> Function {
    let exchanged = case(variable(0), inr(&boolean(), variable(1)), inl(&boolean(), variable(1)));
    Function { parameters: vec![boolean()], result: boolean(), body: exchanged }
}

pub fn nil(element: &Type) -> Term {
    let ty = list(element);
    roll(&ty, inl(&unfold(&ty), Term::Unit))
}

pub fn cons(element: &Type, head: Term, tail: Term) -> Term {
    let ty = list(element);
    roll(&ty, inr(&unfold(&ty), pair(head, tail)))
}

/// Case of a list variable; `empty` binds one variable, `full` the pair and then its two parts.
fn match_list(element: &Type, scrutinee: usize, in_scope: usize, empty: Term, full: Term) -> Term {
    let scrutinee = unroll(&list(element), variable(scrutinee));
    case(scrutinee, empty, let_pair(variable(in_scope), full))
}

/// A function of one element, applied to each element of a list.
pub fn map(itself: usize, element: &Type, function: usize) -> Function {
    let head = call(function, vec![variable(2)]);
    let full = cons(element, head, call(itself, vec![variable(3)]));
    Function {
        parameters: vec![list(element)],
        result: list(element),
        body: match_list(element, 0, 1, nil(element), full),
    }
}

/// (element, list) gives the list with the element behind it.
pub fn snoc(itself: usize, element: &Type) -> Function {
    let empty = cons(element, variable(1), nil(element));
    let full = cons(element, variable(4), call(itself, vec![pair(variable(1), variable(5))]));
    Function {
        parameters: vec![product(element, &list(element))],
        result: list(element),
        body: let_pair(variable(0), match_list(element, 2, 3, empty, full)),
    }
}

/// List reverse by `snoc`: quadratic in steps.
pub fn reverse(itself: usize, element: &Type, snoc: usize) -> Function {
    let full = call(snoc, vec![pair(variable(2), call(itself, vec![variable(3)]))]);
    Function {
        parameters: vec![list(element)],
        result: list(element),
        body: match_list(element, 0, 1, nil(element), full),
    }
}

/// Functions 0 plus, 1 dup of Nat, 2 not, 3 map not, 4 snoc, 5 reverse, over lists of 1+1.
pub fn library() -> Draft {
    let element = boolean();
    Draft {
        functions: vec![
            plus(0),
            dup(&nat()),
            not(),
            map(3, &element, 2),
            snoc(4, &element),
            reverse(5, &element, 4),
        ],
    }
}

/// A function whose result has its dynamic parameter's type, and the functions that call it 2, 4, 8 times and so on, the last one
/// `doublings` times doubled. Ancillae are handed on.
pub fn doubled(function: Function, doublings: usize) -> Draft {
    let (parameters, result) = (function.parameters.clone(), function.result.clone());
    let ancillae = parameters.len() - 1;
    let mut functions = vec![function];
    for number in 0..doublings {
        let again = |term: Term| call(number, (0..ancillae).map(variable).chain([term]).collect());
        let body = again(again(variable(ancillae)));
        functions.push(Function { parameters: parameters.clone(), result: result.clone(), body });
    }
    Draft { functions }
}

/// So many lets, each bound to the variable before it.
pub fn lets(count: usize) -> Function {
    let body = (0..count).rev().fold(variable(count), |body, bound| let_one(variable(bound), body));
    Function { parameters: vec![boolean()], result: boolean(), body }
}

/// A Nat handed on, successor by successor, by calls with so many ancillae.
pub fn beside_ancillae(itself: usize, ancillae: usize) -> Function {
    let zero = roll(&nat(), inl(&unfold(&nat()), variable(ancillae + 1)));
    let arguments = (0..ancillae).chain([ancillae + 1]).map(variable).collect();
    let mut parameters = vec![boolean(); ancillae];
    parameters.push(nat());
    Function {
        parameters,
        result: nat(),
        body: case(unroll(&nat(), variable(ancillae)), zero, successor(call(itself, arguments))),
    }
}

/// A tuple of booleans turned round. So many let pairs take it apart and leave twice as many variables and one in scope;
/// backward all of its parts are met before the first is left.
pub fn turned(let_pairs: usize) -> Function {
    // Let pair k binds variable 2 k + 1, a part, and 2 k + 2, what is left of the tuple.
    let part = |k: usize| variable(2 * k + 1);
    let parts = (1..let_pairs).fold(part(0), |behind, k| pair(part(k), behind));
    let around = pair(variable(2 * let_pairs), parts);
    let ty = (0..let_pairs).fold(boolean(), |ty, _| product(&boolean(), &ty));
    Function {
        parameters: vec![ty.clone()],
        result: ty,
        body: (0..let_pairs).rev().fold(around, |body, k| let_pair(variable(2 * k), body)),
    }
}

/// Bytes of a tuple that `turned` takes.
pub fn tuple_bytes(let_pairs: usize) -> Vec<u8> {
    let part = |k: usize| [1 + (k % 3 / 2) as u8, 0];
    let mut bytes: Vec<u8> = (0..let_pairs).flat_map(|k| [&[3], &part(k)[..]].concat()).collect();
    bytes.extend(part(let_pairs));
    bytes
}
