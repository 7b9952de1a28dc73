//! Each limit of section 1, 2 and 5, exactly and one past it.

mod common;

use common::{check, held, journal_of, refused, value, Runs};
use second::assemble::Assembler;
use second::calls::{answer, Answer, Call, Direction, RunCall};
use second::draft::*;
use second::refusal::Number;
use second::samples::{nat_bytes, not};

fn program_of(functions: Vec<Function>) -> Vec<u8> {
    Draft { functions }.bytes()
}

fn one(parameter: &Type, result: &Type, body: Term) -> Function {
    Function { parameters: vec![parameter.clone()], result: result.clone(), body }
}

#[test]
fn the_empty_program_is_accepted() {
    assert_eq!(check(&[]), Answer::Accepted);
}

#[test]
fn types_256() {
    let types = |count: usize| [1, 0, 1, 0].repeat(count);
    assert_eq!(check(&types(256)), Answer::Accepted);
    assert_eq!(check(&types(257)), refused(Number::Count, 1024));
    // A malformed 257th type is 2, for in one field 2 goes before 3.
    assert_eq!(check(&[&types(256)[..], &[1, 0, 1, 9]].concat()), refused(Number::Field, 1024));
}

/// inl of 511 lets, each bound to the next: 512 units, 511 lets, one inl.
fn terms_1024(extra: bool) -> Assembler {
    let mut a = Assembler::default();
    let unit = a.unit_type();
    let boolean = a.sum(unit, unit);
    let mut term = a.unit();
    for _ in 0..511 {
        let body = a.unit();
        term = a.let_one(term, body);
    }
    let term = a.inl(boolean, term);
    if extra {
        a.unit();
    }
    a.function(boolean, &[unit], term);
    a
}

#[test]
fn terms_1024_are_read_typed_and_run() {
    let program = terms_1024(false).bytes();
    assert_eq!(check(&program), Answer::Accepted);
    let runs = Runs::with_fuel(&program, 1024);
    assert_eq!(runs.forward(0, &[], &[0]), value(&[1, 0], 1024));
    assert_eq!(runs.backward(0, &[], &[1, 0]), value(&[0], 1024));
    assert_eq!(runs.backward(0, &[], &[2, 0]), refused(Number::NoInput, 1023));
    // Types take 4 + 8 bytes, 512 units 2,048, 511 lets 4,088, inl 8.
    assert_eq!(check(&terms_1024(true).bytes()), refused(Number::Count, 6156));
}

#[test]
fn functions_64() {
    let functions = |count: usize| {
        let mut a = Assembler::default();
        let unit = a.unit_type();
        for _ in 0..count {
            let body = a.variable(0);
            a.function(unit, &[unit], body);
        }
        a.bytes()
    };
    let program = functions(64);
    assert_eq!(check(&program), Answer::Accepted);
    assert_eq!(Runs::of(&program).forward(63, &[], &[0]), value(&[0], 1));
    assert_eq!(Runs::of(&program).forward(64, &[], &[0]), refused(Number::NoFunction, 0));
    // One type of 4 bytes, 65 terms of 5, 64 functions of 10.
    assert_eq!(check(&functions(65)), refused(Number::Count, 4 + 65 * 5 + 64 * 10));
}

#[test]
fn parameters_1_to_8() {
    let parameters = |count: usize| {
        program_of(vec![Function {
            parameters: vec![unit_type(); count],
            result: unit_type(),
            body: Term::Variable(count.saturating_sub(1) as u8),
        }])
    };
    assert_eq!(check(&parameters(0)), refused(Number::Count, 9));
    assert_eq!(check(&parameters(1)), Answer::Accepted);
    assert_eq!(check(&parameters(8)), Answer::Accepted);
    assert_eq!(check(&parameters(9)), refused(Number::Count, 9));
    assert_eq!(Runs::of(&parameters(8)).forward(0, &[0; 7], &[0]), value(&[0], 1));
    assert_eq!(Runs::of(&parameters(8)).forward(0, &[0; 6], &[0]), refused(Number::ValueBytes, 0));
}

#[test]
fn program_bytes_32768() {
    assert_eq!(check(&[0; 32_768]), refused(Number::Field, 0));
    assert_eq!(check(&[0; 32_769]), refused(Number::Count, 0));
}

/// Binders in scope of one parameter, the variable bound last as the innermost term.
fn nested(binders: usize, binder: fn(Term) -> Term, bound_each: usize) -> Vec<u8> {
    let innermost = variable(binders * bound_each);
    let body = (0..binders).fold(innermost, |body, _| binder(body));
    program_of(vec![one(&unit_type(), &unit_type(), body)])
}

#[test]
fn variables_32() {
    let lets = |binders| nested(binders, |body| let_one(Term::Unit, body), 1);
    assert_eq!(Runs::of(&lets(31)).forward(0, &[], &[0]), value(&[0], 63));
    // Units 4 bytes each, the variable 5, lets 8; the outermost let is the last term, the one over 32 the first let.
    assert_eq!(check(&lets(32)), refused(Number::Scope, 4 + 32 * 4 + 5));
    let cases = |binders| nested(binders, |body| case(inl(&boolean(), Term::Unit), Term::Unit, body), 1);
    assert_eq!(check(&cases(31)), Answer::Accepted);
    assert!(matches!(check(&cases(32)), Answer::Refused(refusal) if refusal.number == Number::Scope));
    let pairs = |binders| nested(binders, |body| let_pair(pair(Term::Unit, Term::Unit), body), 2);
    assert_eq!(check(&pairs(15)), Answer::Accepted);
    // 31 are in scope, and a let pair binds two.
    assert!(matches!(check(&pairs(16)), Answer::Refused(refusal) if refusal.number == Number::Scope));
}

/// A type of 2^(n+1) - 1 nodes.
fn doubled(doublings: usize) -> Type {
    (0..doublings).fold(unit_type(), |ty, _| product(&ty, &ty))
}

#[test]
fn type_nodes_1024() {
    let identity = |ty: &Type| program_of(vec![one(ty, ty, variable(0))]);
    assert_eq!(check(&identity(&recursive(&doubled(9)))), Answer::Accepted);
    // Ten doubled entries: 4 + 9 × 8 bytes; then two recursive entries of 6, and a variable of 5.
    assert_eq!(check(&identity(&recursive(&recursive(&doubled(9))))), refused(Number::TypeEntry, 93));
}

#[test]
fn type_nodes_1024_of_a_pair() {
    let pairing = |right: &Type, result: &Type| {
        let parameters = vec![doubled(8), right.clone(), unit_type()];
        program_of(vec![Function { parameters, result: result.clone(), body: pair(variable(0), variable(1)) }])
    };
    let right = recursive(&doubled(8));
    assert_eq!(check(&pairing(&right, &product(&doubled(8), &right))), Answer::Accepted);
    // The pair stands behind two variables of 5 bytes and the types: 68 for the doubled, 6 for each recursive.
    let larger = recursive(&right);
    let answer = check(&pairing(&larger, &unit_type()));
    assert!(matches!(answer, Answer::Refused(refusal) if refusal.number == Number::Mismatch));
}

/// Recursive over m nodes, one of them its variable, unfolds to 2 m nodes.
#[test]
fn type_nodes_1024_of_an_unfolding() {
    let over = |bulk: &Type| recursive(&product(&bound(0), bulk));
    let unrolling = |ty: &Type, result: &Type| program_of(vec![one(ty, result, unroll(ty, variable(0)))]);
    // m is 2 + 510.
    let bulk = product(
        &doubled(7),
        &recursive(&product(
            &doubled(6),
            &product(
                &doubled(5),
                &product(
                    &doubled(4),
                    &product(&doubled(3), &product(&doubled(2), &product(&doubled(1), &unit_type()))),
                ),
            ),
        )),
    );
    assert_eq!(count(&bulk), 510);
    let exact = over(&bulk);
    assert_eq!(count(&unfold(&exact)), 1024);
    assert_eq!(check(&unrolling(&exact, &unfold(&exact))), Answer::Accepted);
    let past = over(&recursive(&bulk));
    let answer = check(&unrolling(&past, &unit_type()));
    assert!(matches!(answer, Answer::Refused(refusal) if refusal.number == Number::Mismatch));
}

fn count(ty: &Type) -> usize {
    match &**ty {
        TypeTree::Unit | TypeTree::Bound(_) => 1,
        TypeTree::Recursive(inner) => 1 + count(inner),
        TypeTree::Product(a, b) | TypeTree::Sum(a, b) => 1 + count(a) + count(b),
    }
}

/// Entries may double 255 times; nothing names them.
#[test]
fn exponentially_large_types_are_counted_and_compared_at_once() {
    let mut a = Assembler::default();
    let unit = a.unit_type();
    let mut ty = unit;
    for _ in 0..255 {
        ty = a.product(ty, ty);
    }
    assert_eq!(check(&a.bytes()), Answer::Accepted);
    let body = a.variable(0);
    a.function(ty, &[unit], body);
    assert_eq!(check(&a.bytes()), refused(Number::TypeEntry, 4 + 255 * 8 + 5));
}

#[test]
fn value_bytes_1024() {
    let opened = unfold(&nat());
    let program = program_of(vec![
        one(&opened, &opened, variable(0)),
        one(&opened, &nat(), roll(&nat(), variable(0))),
        one(&nat(), &opened, unroll(&nat(), variable(0))),
    ]);
    let runs = Runs::of(&program);
    let longest = [&[2], &nat_bytes(510)[..]].concat();
    assert_eq!(longest.len(), 1024);
    assert_eq!(runs.forward(0, &[], &longest), value(&longest, 1));
    assert_eq!(runs.backward(0, &[], &longest), value(&longest, 1));
    let longer = [&[1], &longest[..]].concat();
    assert_eq!(runs.forward(0, &[], &longer), refused(Number::ValueBytes, 0));
    // Made in a run: 1,025 bytes at the roll; backward at the part of the unroll, terms 1 to 4 in this order.
    assert_eq!(runs.forward(1, &[], &longest), refused(Number::Size, 2));
    assert_eq!(runs.backward(2, &[], &longest), refused(Number::Size, 3));
}

#[test]
fn ancilla_bytes_1024() {
    let parameters = vec![unit_type(), boolean(), nat(), unit_type()];
    let program = program_of(vec![Function { parameters, result: nat(), body: variable(2) }]);
    let runs = Runs::of(&program);
    let ancillae = |n: usize| [&[0, 1, 0], &nat_bytes(n)[..]].concat();
    assert_eq!(ancillae(509).len(), 1024);
    assert_eq!(runs.forward(0, &ancillae(509), &[0]), value(&nat_bytes(509), 1));
    assert_eq!(runs.forward(0, &ancillae(510), &[0]), refused(Number::ValueBytes, 0));
}

/// f x = f x: term 0 is the variable, term 1 the call.
#[test]
fn height_1024() {
    let program = program_of(vec![one(&unit_type(), &unit_type(), call(0, vec![variable(0)]))]);
    let forward = |fuel| Runs::with_fuel(&program, fuel).forward(0, &[], &[0]);
    // Two steps a level; the call at 1,024 is step 2,047 and its argument the first term too high.
    assert_eq!(forward(2046), refused(Number::Fuel, 1));
    assert_eq!(forward(2047), refused(Number::Fuel, 0));
    assert_eq!(forward(2048), refused(Number::Height, 0));
    // Backward the body comes first: a step a level, and the call itself is too high.
    let backward = |fuel| Runs::with_fuel(&program, fuel).backward(0, &[], &[0]);
    assert_eq!(backward(1024), refused(Number::Fuel, 1));
    assert_eq!(backward(1025), refused(Number::Height, 1));
}

#[test]
fn workspace_is_32768_and_32_for_each_step() {
    let program = program_of(vec![not()]);
    let run = |fuel: u16, workspace: usize| {
        answer(&Call::Run(RunCall {
            direction: Direction::Forward,
            workspace,
            output: 2,
            fuel,
            function: 0,
            program: program.clone(),
            ancillae: vec![],
            value: vec![1, 0],
        }))
    };
    assert_eq!(run(4, 32_768 + 128), value(&[2, 0], 4));
    assert_eq!(run(4, 32_768 + 127), refused(Number::Workspace, 0));
    assert_eq!(run(65_535, 2_129_888), value(&[2, 0], 4));
    assert_eq!(run(65_535, 2_129_887), refused(Number::Workspace, 0));
    let check = |workspace| answer(&Call::Check { workspace, program: program.clone() });
    assert_eq!(check(32_768), Answer::Accepted);
    assert_eq!(check(32_767), refused(Number::Workspace, 0));
}

#[test]
fn conversions_64() {
    let program = program_of(vec![not()]);
    let runs = Runs::with_fuel(&program, 4);
    let mut journal = journal_of(runs.open(&[1, 0], 5 + 64 * 9));
    let opened = journal.clone();
    for standing in 1..=64 {
        journal = journal_of(runs.convert(0, &[], &journal));
        assert_eq!(journal[3], 1 + standing as u8 % 2);
    }
    let longer = [&journal[..], &[0; 9]].concat();
    assert_eq!(runs.convert(0, &[], &longer), refused(Number::JournalFull, 0));
    let entry = [0x22, 0, 6, 0, 0, 0, 0, 0, 4];
    let past = [&journal[..], &entry].concat();
    assert_eq!(runs.rollback(&past), refused(Number::Journal, 0));
    assert_eq!(runs.convert(0, &[], &past), refused(Number::Journal, 0));
    for standing in (0..64).rev() {
        let answer = runs.rollback(&journal);
        journal = journal_of(answer.clone());
        assert_eq!(answer, held(2, 4, &journal));
        assert_eq!(journal[5 + standing * 9..], vec![0; (64 - standing) * 9]);
    }
    assert_eq!(journal, opened);
    assert_eq!(runs.rollback(&journal), refused(Number::NothingStanding, 0));
}
