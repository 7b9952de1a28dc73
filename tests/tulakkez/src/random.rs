//! Random texts, well-typed as they are made: variants of several alternatives, and functions that take values apart by nested patterns and
//! put them together again. Some let the value steer a call (document 02, F-2), some let an ancilla choose between two arms that may both yield
//! anything (F-3). Every function is the identity on values, so that what a run answers is known.

use second::rng::Rng;

#[derive(Clone)]
pub struct Variant {
    pub name: String,
    /// Each with the types of its parts: the numbers of variants, or none for a number in ones.
    pub alternatives: Vec<(String, Vec<Option<usize>>)>,
}

pub struct Text {
    pub text: String,
    pub variants: Vec<Variant>,
    /// The variant of each function, by the function's number, and whether it has ancillae: a number and a way. Those that are only called
    /// stand behind them.
    pub functions: Vec<(usize, bool)>,
}

/// Values and patterns are not nested deeper.
const DEEPEST: usize = 3;

struct Maker<'a> {
    rng: &'a mut Rng,
    variants: Vec<Variant>,
    names: usize,
}

pub fn random_text(rng: &mut Rng) -> Text {
    let mut maker = Maker { rng, variants: Vec::new(), names: 0 };
    let count = maker.rng.between(1, 4);
    for number in 0..count {
        let variant = maker.variant(number);
        maker.variants.push(variant);
    }
    let mut text = "type Nat = Zero | Succ Nat  -- numbers in ones\ntype Way = First | Second\n".to_string();
    let mut declarations: Vec<String> = maker.variants.iter().map(declaration).collect();
    if maker.rng.chance(50) {
        declarations.reverse();
    }
    text += &declarations.concat();
    let mut functions = Vec::new();
    for number in 0..count {
        text += &maker.identity(functions.len(), number);
        functions.push((number, false));
        if maker.rng.chance(50) {
            text += &maker.wrapped(functions.len(), number);
            functions.push((number, true));
        }
    }
    text += &(0..count).map(watching).collect::<String>();
    text += "fun same (way : Way) (u : 1) : Way = case way of First => First | Second => Second\n";
    Text { text, variants: maker.variants, functions }
}

fn declaration(variant: &Variant) -> String {
    let alternative = |(name, parts): &(String, Vec<Option<usize>>)| {
        let parts = parts.iter().map(|part| format!(" {}", type_name(*part)));
        format!("{name}{}", parts.collect::<String>())
    };
    let alternatives: Vec<String> = variant.alternatives.iter().map(alternative).collect();
    format!("type {} =\n    {}\n", variant.name, alternatives.join("\n  | "))
}

/// A function that a value of a variant steers, and that leaves nothing of it.
fn watching(number: usize) -> String {
    format!("fun watch{number} (s : V{number}) (u : 1) : 1 = u\n")
}

fn type_name(part: Option<usize>) -> String {
    part.map_or("Nat".to_string(), |number| format!("V{number}"))
}

/// A pattern that is a term as well, and whether it needs parentheses as a part.
struct Shape(String, bool);

impl Shape {
    fn part(&self) -> String {
        if self.1 {
            format!("({})", self.0)
        } else {
            self.0.clone()
        }
    }
}

impl Maker<'_> {
    /// The first alternative names no variant from itself on, so that there are values.
    fn variant(&mut self, number: usize) -> Variant {
        let count = self.rng.between(1, 4);
        let alternatives = (0..count).map(|index| {
            let parts = self.rng.below(4);
            let parts = (0..parts).map(|_| match self.rng.below(if index == 0 { 2 } else { 3 }) {
                0 => None,
                1 if number > 0 => Some(self.rng.below(number)),
                1 => None,
                _ => Some(number),
            });
            (format!("C{number}{index}"), parts.collect())
        });
        Variant { name: format!("V{number}"), alternatives: alternatives.collect() }
    }

    fn name(&mut self) -> String {
        self.names += 1;
        format!("x{}", self.names)
    }

    /// Patterns that take all values of a type, each value one of them.
    fn cover(&mut self, ty: Option<usize>, depth: usize) -> Vec<Shape> {
        if depth == 0 || self.rng.chance(30) {
            return vec![Shape(self.name(), false)];
        }
        let alternatives = match ty {
            None => vec![("Zero".to_string(), vec![]), ("Succ".to_string(), vec![None])],
            Some(number) => self.variants[number].alternatives.clone(),
        };
        let mut shapes = Vec::new();
        for (name, parts) in alternatives {
            // One part at most is taken further apart, or the arms would multiply.
            let opened = self.rng.below(parts.len());
            let inner = match parts.get(opened) {
                Some(part) => self.cover(*part, depth - 1),
                None => vec![Shape(String::new(), false)],
            };
            for shape in inner {
                let texts = (0..parts.len()).map(|part| match part == opened {
                    true => format!(" {}", shape.part()),
                    false => format!(" {}", self.name()),
                });
                shapes.push(Shape(format!("{name}{}", texts.collect::<String>()), !parts.is_empty()));
            }
        }
        shapes
    }

    /// Function `function`, the identity on a variant by cases.
    fn identity(&mut self, function: usize, number: usize) -> String {
        let head = format!("fun f{function} (v : V{number}) : V{number} =\n");
        let mut arms: Vec<Shape> = self.cover(Some(number), DEEPEST);
        if arms.len() == 1 && self.rng.chance(50) {
            return format!("{head}  let {0} = v in {0}\n", arms[0].0);
        }
        // A name that takes what the arms before it leave: what it stands for is put together again.
        if arms.len() > 2 && self.rng.chance(30) {
            arms.truncate(arms.len() - 2);
            arms.push(Shape(self.name(), false));
        } else if self.rng.chance(30) {
            arms.reverse();
        }
        let arms: Vec<String> = arms.iter().map(|arm| format!("{0} => {0}", arm.0)).collect();
        format!("{head}  case v of\n    {}\n", arms.join("\n  | "))
    }

    /// Function `function`, the one before it under ancillae, through a tuple. The value may steer a call before it is used.
    fn wrapped(&mut self, function: usize, number: usize) -> String {
        let before = function - 1;
        let steered = match self.rng.below(3) {
            0 => String::new(),
            1 => format!("let e = watch{number} a b in "),
            _ => format!("let (e, ()) = (watch{number} (let g = a in f{before} g) b, ()) in "),
        };
        let chosen = self.chosen(&format!("f{before} a"));
        format!(
            "fun f{function} (k : Nat) (way : Way) (v : V{number}) : V{number} =\n  let (a, (), (b, ())) = (v, (), (), ()) in\n  {steered}let c = {chosen} in (let d = c in d)\n"
        )
    }

    /// This call, which gives back a, or a case that an ancilla chooses by: itself, by a call, or after it was turned round.
    fn chosen(&mut self, call: &str) -> String {
        let by = match self.rng.below(4) {
            0 => return call.to_string(),
            1 => "way",
            2 => "same way ()",
            _ => "(let w = way in case w of First => Second | Second => First)",
        };
        match self.rng.chance(50) {
            true => format!("(case {by} of First => a | Second => {call})"),
            false => format!("(case {by} of First => {call} | Second => a)"),
        }
    }
}

/// Bytes for the ancillae of a function that has them: a number of at most 3 and a way.
pub fn random_ancillae(rng: &mut Rng) -> Vec<u8> {
    let number = [&[4, 2].repeat(rng.below(4))[..], &[4, 1, 0]].concat();
    let way = if rng.chance(50) { [1, 0] } else { [2, 0] };
    [&number[..], &way].concat()
}

/// The text of a random value of a type, without parentheses around it.
pub fn random_value(rng: &mut Rng, variants: &[Variant], ty: Option<usize>, depth: usize) -> String {
    let Some(number) = ty else { return rng.below(4).to_string() };
    let alternatives = &variants[number].alternatives;
    let index = if depth == 0 { 0 } else { rng.below(alternatives.len()) };
    let (name, parts) = &alternatives[index];
    let parts = parts.iter().map(|part| {
        let text = random_value(rng, variants, *part, depth.saturating_sub(1));
        match text.contains(' ') {
            true => format!(" ({text})"),
            false => format!(" {text}"),
        }
    });
    format!("{name}{}", parts.collect::<String>())
}
