//! Mistakes and refusals are told at their places. In each text a `~` stands before the place that is meant.

use tulakkez::command::answer::Status;
use tulakkez::command::Converter;
use tulakkez::engine::check;
use tulakkez_tests::marked::{converter, marked, refused, run_refused};

/// The text has this mistake at its mark; the engine is not asked.
fn mistake(text: &str, what: &str) {
    let (text, place) = marked(text);
    let Err(answer) = converter(&text) else { panic!("no mistake in {text}") };
    assert_eq!(answer.status, Status::NotAsked);
    assert!(answer.err.starts_with(&format!("t.fun:{place}: error: {what}")), "{}\n{text}\n{place}", answer.err);
}

#[test]
fn what_cannot_be_read_is_told_at_its_place() {
    mistake("fun f (n : Nat) : Nat =~ ", "the text ends where a term is wanted");
    mistake("fun f (n : Nat) : Nat = (n~", "the text ends where ')' is wanted");
    mistake("fun f (n : Nat) ~= n", "'=' stands where ':' and the result's type is wanted");
    mistake("fun ~F (n : Nat) : Nat = n", "'F' stands where a function's name is wanted");
    mistake("fun f (~N : Nat) : Nat = n", "'N' stands where a parameter's name is wanted");
    mistake("fun f (n : Nat) : Nat = (n~\n\n", "the text ends where ')' is wanted");
    mistake("type Maybe ~a = Nothing | Just a", "'a' stands where '=' is wanted");
    mistake("type N = Z | S ~n", "'n' stands where a type is wanted");
    mistake("~let x = 1", "'let' stands where the next declaration is wanted");
    mistake("fun f (n : Nat) : Nat = n ~}", "'}' has no meaning here");
    mistake("fun f (n : Nat) : ~2 = n", "'2' stands where a type is wanted");
    mistake("fun f (n : Nat) : Nat = n ~= n", "'=' stands where the next declaration is wanted");
    mistake("fun f (n : Nat) : Nat = case n of ~+ => n", "'+' stands where a pattern is wanted");
    mistake("fun f (n : Nat) : Nat = ~999999999", "this number is too large");
}

#[test]
fn a_text_nested_too_deep_is_told() {
    let deep = "(".repeat(10_000);
    let thread = std::thread::Builder::new().stack_size(256 << 20);
    let test = move || {
        let Err(answer) = converter(&format!("fun f (n : 1) : 1 = {deep}")) else { panic!() };
        assert!(answer.err.contains("the text is nested too deep"));
    };
    thread.spawn(test).expect("a thread").join().expect("the test");
}

#[test]
fn more_than_one_mistake_is_told() {
    let text = "fun f (n : Nat) : Nat = (\nfun g (n : Nat) = n\nfun h (n : Nat) : Nat = n";
    let Err(answer) = converter(text) else { panic!() };
    assert_eq!(answer.err.matches(": error: ").count(), 2, "{}", answer.err);
}

#[test]
fn names_that_there_are_not() {
    mistake("fun f (n : ~Nit) : Nat = n", "no type is named Nit");
    mistake("fun f (n : Nat) : Nat = ~m", "no variable is named m here");
    mistake("fun f (n : Nat) : Nat = ~g n", "no function is named g");
    mistake("fun f (n : Nat) : Nat = ~n n", "n is a variable, and takes no arguments");
    mistake("fun f (n : Nat) : Nat = ~f", "f is a function, not a value");
    mistake("fun f (n : Nat) : Nat = ~Suck n", "no type has an alternative Suck");
    mistake("fun f (n : Nat) : Nat = case n of ~Nil => n", "no type has an alternative Nil");
}

#[test]
fn names_declared_twice() {
    mistake("type ~Nat = 1", "the type Nat is declared twice");
    mistake("type Other = ~Zero | One", "Zero is an alternative of Nat already");
    mistake("type Other = One | ~One", "One is an alternative of Other already");
    mistake("fun f (n : 1) : 1 = n\nfun ~f (n : 1) : 1 = n", "the function f is declared twice");
    mistake("fun f (n : 1) (~n : 1) : 1 = n", "n names two parameters");
    mistake("fun f (p : (Nat, Nat)) : Nat = let (x, ~x) = p in x", "x is bound twice in this pattern");
}

#[test]
fn types_inside_themselves() {
    mistake("type L = (1, ~L)", "L would stand inside itself");
    mistake("type A = X B\ntype ~B = Y A", "A and B name each other");
}

#[test]
fn constructors_that_do_not_fit() {
    mistake("fun f (n : Nat) : Nat = ~Succ n n", "Succ has one part, and 2 are given here");
    mistake(
        "fun f (n : Nat) : Nat = case n of ~Succ => n | Zero => n",
        "Succ has one part, and none is given here",
    );
    mistake("fun f (n : Nat) : (Nat, 1) = ~inl n", "inl needs its whole sum type, and (Nat, 1) stands here");
    mistake(
        "fun f (n : Nat) : Nat = let x = ~inl n in n",
        "inl needs its whole sum type, which cannot be told here",
    );
    mistake("fun f (b : Bool) : Bool = ~roll b", "roll needs its recursive type, and Bool stands here");
    mistake("fun f (b : Bool) : Bool = ~unroll b", "unroll needs its recursive type, and Bool stands here");
    mistake("fun f (b : Bool) : Bool = (~b : Nat)", "this is Bool, and not Nat as is written");
}

#[test]
fn patterns_that_do_not_fit() {
    mistake(
        "fun f (b : Bool) : Bool = case b of ~Zero => b | Succ m => b",
        "Zero is an alternative of Nat, and Bool is matched here",
    );
    mistake("fun f (b : Bool) : Bool = let ~(x, y) = b in x", "this pattern is a tuple, and Bool is matched here");
    mistake(
        "fun f (b : Bool) : Bool = case b of ~3 => b | x => x",
        "this pattern is a number, and Bool is matched here",
    );
    mistake("fun f (b : Bool) : Bool = let ~() = b in b", "this pattern is (), and Bool is matched here");
    mistake("fun f (e : Lights) : Lights = ~case e of Red => Green | Green => Red", "no arm takes Yellow");
    mistake("fun f (n : Nat) : Nat = ~case n of 0 => 0 | Succ (Succ m) => m", "no arm takes Succ Zero");
    mistake("fun f (p : (Nat, Bool)) : Nat = ~case p of (n, True) => n", "no arm takes (_, False)");
    mistake(
        "fun f (e : Lights) : Lights = case e of Red => Green | x => x | ~Green => Red",
        "this arm is never taken",
    );
}

#[test]
fn too_many_entries() {
    let nine: String = (0..9).map(|number| format!("(p{number} : 1) ")).collect();
    refused(&format!("fun ~f {nine}: 1 = p8"), 3, "9 parameters are too many");
    refused("fun ~f : 1 = ()", 3, "a function has at least one parameter");
    refused("fun f (n : Nat) : Nat = let x = n in ~600", 3, "from here on there are over 1,024 terms");
    let many: String = (0..65)
        .map(|number| format!("fun {}f{number} (n : 1) : 1 = n\n", if number == 64 { "~" } else { "" }))
        .collect();
    refused(&many, 3, "from here on there are over 64 functions");
    let bytes: String = (0..9)
        .map(|number| format!("fun f{number} (n : Nat) : Nat = {}600\n", if number == 3 { "~" } else { "" }))
        .collect();
    refused(&bytes, 3, "the program has");
}

#[test]
fn a_type_that_is_too_large() {
    let mut text = "type T0 = 1 + 1\n".to_string();
    for number in 0..9 {
        text += &format!("type T{} = (T{number}, T{number})\n", number + 1);
    }
    refused(&format!("{text}fun ~f (x : T9) : T9 = x"), 5, "a named type is not closed, or has over 1,024 nodes");
}

#[test]
fn types_that_differ() {
    refused("fun f (n : Nat) : Bool = ~n", 6, "this is Nat, and Bool is wanted");
    refused("fun f (b : Bool) : Nat = Succ ~b", 6, "this is Bool, and Nat is wanted");
    refused("fun f (n : Nat) : Nat = ~f n n", 6, "f takes 1 arguments, and 2 are given");
    refused(
        "fun g (k : Nat) (b : Bool) : Bool = b\nfun f (n : Nat) : Bool = g 0 ~n",
        6,
        "this is Nat, and Bool is wanted",
    );
    refused(
        "fun f (n : Nat) : Nat = case n of 0 => 0 | Succ m => ~(m, 1)",
        6,
        "this is (Nat, Nat), and Nat is wanted",
    );
    refused("fun f (n : Nat) : Nat = ~inl [Nat] ()", 6, "inl needs a sum type, and Nat is none");
    refused("fun f (n : Nat) : Nat = roll [Nat] ~n", 6, "this is Nat, and 1 + Nat is wanted: unroll it");
    refused("fun f (b : Bool) : 1 + Nat = unroll [Nat] ~b", 6, "this is Bool, and Nat is wanted");
    refused("fun f (b : Bool) : Bool + 1 = inr [Bool + 1] ~b", 6, "this is Bool, and 1 is wanted");
}

#[test]
fn too_many_variables() {
    let mut text = "fun f (n : Nat) : Nat = ".to_string();
    for number in 1..33 {
        let before = if number == 1 { "n".to_string() } else { format!("x{}", number - 1) };
        text += &format!("{}let x{number} = {before} in\n", if number == 32 { "~" } else { "" });
    }
    refused(&(text + "x32"), 7, "over 32 variables are in scope in f");
}

#[test]
fn variables_that_are_not_used_as_they_ought_to_be() {
    refused("fun ~f (n : Nat) : Nat = 0", 8, "f does not use its dynamic parameter n");
    refused("fun f (n : Nat) : Nat = let ~x = n in 0", 8, "x is not used");
    refused("fun f (p : (Nat, Nat)) : Nat = let (x, ~y) = p in x", 8, "y is not used");
    refused("fun f (n : Nat) : Nat = case n of Zero => 0 | Succ ~m => 0", 8, "m is not used");
    refused("fun f (n : Nat) : Nat = case n of Zero => 0 | Succ ~_ => 0", 8, "what is matched here is not used");
    refused(
        "fun g (k : Nat) (n : Nat) : Nat = n\nfun f (n : Nat) : Nat = g ~n n",
        8,
        "a dynamic variable stands in an ancilla argument, and no let binds the call",
    );
    let sided = "fun f (p : (Bool, Nat)) : Nat = let (b, n) = p in case b of True => n | False => ~0";
    refused(sided, 8, "this arm does not use n, and another arm does");
    let unit = "fun f (p : (1, Bool, Nat)) : (1, Nat) = let (u, b, n) = p in case b of True => (u, n) | False => ~((), 0)";
    refused(unit, 8, "this arm does not use n, and another arm does");
}

#[test]
fn runs_that_stop_are_told_at_their_places() {
    let plus = "fun plus (k : Nat) (n : Nat) : Nat = case n of Zero => ~k | Succ m => Succ (plus k m)";
    run_refused(plus, &["run", "FILE", "plus", "2", "3", "--fuel", "27"], 12, "the fuel is spent, in plus");
    let plus = "fun plus (k : Nat) (n : Nat) : Nat = case n of Zero => k | Succ m => Succ (plus ~k m)";
    run_refused(plus, &["run", "FILE", "plus", "0", "256"], 13, "the height passes 1,024, in plus");
    run_refused(
        "fun dup (n : Nat) : (Nat, Nat) = ~(n, n)",
        &["run", "FILE", "dup", "255"],
        14,
        "this value is over 1,024 bytes",
    );
    let both = "fun both (b : Bool) : Bool = case b of True => ~True | False => True";
    let told = "an arm for a later alternative was taken, and its value is one that this arm may yield too";
    run_refused(both, &["run", "FILE", "both", "False"], 15, told);
    run_refused(
        "fun dup (n : Nat) : (Nat, Nat) = (n, ~n)",
        &["back", "FILE", "dup", "(3, 4)"],
        16,
        "no input leads to this value",
    );
}

/// 2 and 4 cannot be made by a text: they are told at the field.
#[test]
fn refused_bytes_are_told_at_their_field() {
    let told = |bytes: &[u8]| {
        let converter = Converter::of_bytes("p.cf", bytes.to_vec());
        converter.refused(check(bytes).expect_err("a refusal")).err
    };
    assert!(told(&[1, 0, 1, 9]).starts_with("p.cf: byte 0: error: refused 2: "), "{}", told(&[1, 0, 1, 9]));
    let unused = [1, 0, 1, 0, 2, 0, 1, 1];
    let expected = "p.cf: byte 4: error: refused 4: a reference is absent or not lower, or a term is not used just once\n  020001 01   term 0\n  ^^^^^^^^^\n";
    assert!(told(&unused).starts_with(expected), "{}", told(&unused));
}
