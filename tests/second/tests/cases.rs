//! Section 6's cases with all their figures.

mod common;

use common::{check, held, journal_of, refused, value, Runs};
use second::assemble::Assembler;
use second::calls::Answer;
use second::refusal::Number;
use second::samples::nat_bytes;

const PLUS: u16 = 0;
const DUP: u16 = 1;
/// Plus under one call, and under two.
const UNDER_CALL: u16 = 2;
const UNDER_TWO_CALLS: u16 = 3;

/// Term entries of plus that refusals name.
const PLUS_DEEPEST: u32 = 0;
const PLUS_LEFT: u32 = 2;
const PLUS_ANCILLA: u32 = 3;
const PLUS_INR: u32 = 6;
const PLUS_CASE: u32 = 8;
const DUP_SECOND: u32 = 10;
const DUP_PAIR: u32 = 11;

/// Section 6's types and functions, entry by entry.
fn program() -> Vec<u8> {
    let mut a = Assembler::default();
    let unit = a.unit_type();
    let bound = a.bound(0);
    let inner = a.sum(unit, bound);
    let nat = a.recursive(inner);
    let opened = a.sum(unit, nat);
    let n = a.variable(1);
    let scrutinee = a.unroll(nat, n);
    let left = a.variable(0);
    let (ancilla, m) = (a.variable(0), a.variable(2));
    let recursion = a.call(PLUS, &[ancilla, m]);
    let successor = a.inr(opened, recursion);
    let right = a.roll(nat, successor);
    let plus = a.case(scrutinee, left, right);
    let (first, second) = (a.variable(0), a.variable(0));
    let dup = a.pair(first, second);
    let twice = a.product(nat, nat);
    let once_called = forwarding_call(&mut a, PLUS);
    let twice_called = forwarding_call(&mut a, UNDER_CALL);
    a.function(nat, &[nat, nat], plus);
    a.function(twice, &[nat], dup);
    a.function(nat, &[nat, nat], once_called);
    a.function(nat, &[nat, nat], twice_called);
    a.bytes()
}

fn forwarding_call(a: &mut Assembler, function: u16) -> u16 {
    let (ancilla, dynamic) = (a.variable(0), a.variable(1));
    a.call(function, &[ancilla, dynamic])
}

fn pair_bytes(first: usize, second: usize) -> Vec<u8> {
    [&[3], &nat_bytes(first)[..], &nat_bytes(second)].concat()
}

#[test]
fn nat_takes_three_bytes_and_two_for_each_successor() {
    assert_eq!(nat_bytes(0), [4, 1, 0]);
    assert_eq!(nat_bytes(2), [4, 2, 4, 2, 4, 1, 0]);
    assert_eq!(nat_bytes(254).len(), 3 + 2 * 254);
}

#[test]
fn p1_plus_2_of_0() {
    assert_eq!(Runs::of(&program()).forward(PLUS, &nat_bytes(2), &nat_bytes(0)), value(&nat_bytes(2), 4));
}

#[test]
fn p2_plus_2_of_3() {
    let program = program();
    let runs = |fuel| Runs::with_fuel(&program, fuel).forward(PLUS, &nat_bytes(2), &nat_bytes(3));
    assert_eq!(runs(28), value(&nat_bytes(5), 28));
    // The 28th term entered is the left branch of the innermost case.
    assert_eq!(runs(27), refused(Number::Fuel, PLUS_LEFT));
    assert_eq!(runs(0), refused(Number::Fuel, PLUS_CASE));
}

#[test]
fn p3_plus_2_backward_of_5() {
    let program = program();
    let runs = |fuel| Runs::with_fuel(&program, fuel).backward(PLUS, &nat_bytes(2), &nat_bytes(5));
    assert_eq!(runs(28), value(&nat_bytes(3), 28));
    // Backward, the last term entered is the outermost case's scrutinee: unroll, then its variable.
    assert_eq!(runs(27), refused(Number::Fuel, PLUS_DEEPEST));
}

#[test]
fn p4_plus_2_backward_of_1() {
    let answer = Runs::of(&program()).backward(PLUS, &nat_bytes(2), &nat_bytes(1));
    assert_eq!(answer, refused(Number::NoInput, PLUS_INR));
}

#[test]
fn p5_plus_0_of_255_has_height_1023_and_2044_steps() {
    let program = program();
    let (zero, most) = (nat_bytes(0), nat_bytes(255));
    let exact = Runs::with_fuel(&program, 2044);
    assert_eq!(exact.forward(PLUS, &zero, &most), value(&most, 2044));
    assert_eq!(exact.backward(PLUS, &zero, &most), value(&most, 2044));
    let short = Runs::with_fuel(&program, 2043);
    assert_eq!(short.forward(PLUS, &zero, &most), refused(Number::Fuel, PLUS_LEFT));
    // One call above it comes to 1,024, two calls pass it at the deepest term. A call's arguments are two steps more.
    let runs = Runs::of(&program);
    assert_eq!(runs.forward(UNDER_CALL, &zero, &most), value(&most, 2047));
    assert_eq!(runs.forward(UNDER_TWO_CALLS, &zero, &most), refused(Number::Height, PLUS_DEEPEST));
    assert_eq!(runs.backward(UNDER_CALL, &zero, &most), value(&most, 2047));
}

#[test]
fn p6_plus_0_of_256_passes_the_height() {
    let program = program();
    let runs = |fuel| Runs::with_fuel(&program, fuel).forward(PLUS, &nat_bytes(0), &nat_bytes(256));
    // Four terms a level: the 256th call stands at 1,024, so that its first argument is too high. Before it 255 levels
    // of eight steps were entered, and six of the next one.
    assert_eq!(runs(65_535), refused(Number::Height, PLUS_ANCILLA));
    assert_eq!(runs(2047), refused(Number::Height, PLUS_ANCILLA));
    assert_eq!(runs(2046), refused(Number::Fuel, PLUS_ANCILLA));
}

#[test]
fn p7_dup_254_has_1023_bytes() {
    let twice = pair_bytes(254, 254);
    assert_eq!(twice.len(), 1023);
    assert_eq!(Runs::of(&program()).forward(DUP, &[], &nat_bytes(254)), value(&twice, 3));
}

#[test]
fn p8_dup_255_is_too_long() {
    assert_eq!(Runs::of(&program()).forward(DUP, &[], &nat_bytes(255)), refused(Number::Size, DUP_PAIR));
}

#[test]
fn p9_dup_backward_compares_the_second_use() {
    let program = program();
    let runs = Runs::of(&program);
    assert_eq!(runs.backward(DUP, &[], &pair_bytes(3, 4)), refused(Number::NoInput, DUP_SECOND));
    assert_eq!(runs.backward(DUP, &[], &pair_bytes(3, 3)), value(&nat_bytes(3), 3));
}

#[test]
fn p10_both_branches_give_inl_unit() {
    let mut a = Assembler::default();
    let unit = a.unit_type();
    let boolean = a.sum(unit, unit);
    let scrutinee = a.variable(0);
    let (one, other) = (a.unit(), a.unit());
    let (left, right) = (a.inl(boolean, one), a.inl(boolean, other));
    let case = a.case(scrutinee, left, right);
    a.function(boolean, &[boolean], case);
    let program = a.bytes();
    let runs = Runs::of(&program);
    assert_eq!(runs.forward(0, &[], &[1, 0]), value(&[1, 0], 4));
    assert_eq!(runs.forward(0, &[], &[2, 0]), refused(Number::FirstMatch, case as u32));
    assert_eq!(runs.backward(0, &[], &[1, 0]), value(&[1, 0], 4));
}

#[test]
fn p11_an_unused_sum_is_not_passed_as_unit() {
    let mut a = Assembler::default();
    let unit = a.unit_type();
    let boolean = a.sum(unit, unit);
    let body = a.unit();
    a.function(unit, &[boolean], body);
    // The fields before the function have 4, 8 and 4 bytes.
    assert_eq!(check(&a.bytes()), refused(Number::Use, 16));
}

#[test]
fn p12_first_match_is_tested_before_dynamic_values_are_put_in() {
    let mut a = Assembler::default();
    let unit = a.unit_type();
    let boolean = a.sum(unit, unit);
    let parameter = a.product(boolean, boolean);
    let bound = a.variable(0);
    let scrutinee = a.variable(1);
    let left = a.variable(2);
    let q = a.variable(2);
    let (u, v) = (a.variable(4), a.variable(4));
    let (flipped_left, flipped_right) = (a.inr(boolean, u), a.inl(boolean, v));
    let right = a.case(q, flipped_left, flipped_right);
    let case = a.case(scrutinee, left, right);
    let body = a.let_pair(bound, case);
    a.function(boolean, &[parameter], body);
    let program = a.bytes();
    let runs = Runs::of(&program);
    assert_eq!(runs.forward(0, &[], &[3, 1, 0, 1, 0]), value(&[1, 0], 5));
    assert_eq!(runs.forward(0, &[], &[3, 1, 0, 2, 0]), value(&[2, 0], 5));
    assert_eq!(runs.forward(0, &[], &[3, 2, 0, 1, 0]), refused(Number::FirstMatch, case as u32));
    assert_eq!(runs.forward(0, &[], &[3, 2, 0, 2, 0]), refused(Number::FirstMatch, case as u32));
    assert_eq!(runs.backward(0, &[], &[2, 0]), value(&[3, 1, 0, 2, 0], 5));
}

#[test]
fn p13_open_convert_and_roll_back() {
    let program = program();
    let runs = Runs::with_fuel(&program, 28);
    let first = [&[0x21, 0x00, 0x09], &nat_bytes(3)[..]].concat();
    assert_eq!(first.len(), 12);
    let padded = |fields: &[u8]| [fields, &vec![0; 40 - fields.len()]].concat();
    assert_eq!(runs.open(&nat_bytes(3), 40), Answer::Opened { journal: padded(&first) });
    let entry = [0x22, 0x00, 0x0d, 0x00, 0x00, 0x00, 0x00, 0x00, 0x1c];
    let converted = [&[0x21, 0x00, 0x0d], &nat_bytes(5)[..], &entry, &nat_bytes(2)].concat();
    assert_eq!(converted.len(), 32);
    let journal = journal_of(runs.convert(PLUS, &nat_bytes(2), &padded(&first)));
    assert_eq!(journal, padded(&converted));
    assert_eq!(runs.rollback(&journal), held(9, 28, &padded(&first)));
    // Exactly 32 bytes are enough to convert and to roll back, 31 are not.
    assert_eq!(runs.convert(PLUS, &nat_bytes(2), &padded(&first)[..32]), held(13, 28, &converted));
    assert_eq!(runs.convert(PLUS, &nat_bytes(2), &padded(&first)[..31]), refused(Number::JournalFull, 0));
    assert_eq!(runs.rollback(&converted), held(9, 28, &padded(&first)[..32]));
    assert_eq!(Runs::with_fuel(&program, 27).rollback(&journal), refused(Number::Fuel, PLUS_DEEPEST));
}
