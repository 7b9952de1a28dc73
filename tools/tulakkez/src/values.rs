//! Values as text in a program's own types, and as bytes (document 01, section 1).

use crate::core::types::{Shape, TypeId, Types, View};
use crate::text::tree::{Expr, ExprKind, Side};
use crate::text::{parse_value, Mistake, Source};

const UNIT: u8 = 0;
const INL: u8 = 1;
const INR: u8 = 2;
const PAIR: u8 = 3;
const ROLL: u8 = 4;

/// What marks bytes in hexadecimal.
const HEXADECIMAL: &str = "0x";

/// The bytes of a value that is written as text, or in hexadecimal behind `0x`. The type that is wanted only puts rolls in before
/// tuples and injections; whether the value is of its type is for the engine to say.
pub fn read(types: &mut Types, text: &Source, want: Option<TypeId>) -> Result<Vec<u8>, Mistake> {
    if let Some(digits) = text.text.trim().strip_prefix(HEXADECIMAL) {
        let whole = crate::text::Span::new(0, text.text.len());
        return bytes_of(digits).ok_or_else(|| {
            Mistake::new(whole, "these are no bytes in hexadecimal")
                .help("two digits, 0 to 9 and a to f, for each byte")
        });
    }
    let value = parse_value(text)?;
    let mut bytes = Vec::new();
    Writer { types, bytes: &mut bytes }.value(&value, want)?;
    Ok(bytes)
}

pub fn bytes_of(digits: &str) -> Option<Vec<u8>> {
    if !digits.len().is_multiple_of(2) || !digits.bytes().all(|digit| digit.is_ascii_hexdigit()) {
        return None;
    }
    (0..digits.len()).step_by(2).map(|at| u8::from_str_radix(&digits[at..at + 2], 16).ok()).collect()
}

pub fn hexadecimal(bytes: &[u8]) -> String {
    bytes.iter().map(|byte| format!("{byte:02x}")).collect()
}

struct Writer<'a> {
    types: &'a mut Types,
    bytes: &'a mut Vec<u8>,
}

impl Writer<'_> {
    fn value(&mut self, value: &Expr, want: Option<TypeId>) -> Result<(), Mistake> {
        match &value.kind {
            ExprKind::Unit => self.bytes.push(UNIT),
            ExprKind::Number(number) => {
                self.bytes.extend([ROLL, INR].repeat(*number));
                self.bytes.extend([ROLL, INL, UNIT]);
            }
            ExprKind::Tuple(parts) => {
                let want = self.rolled(want, |view| matches!(view, View::Product(..)));
                self.tuple(parts, want)?;
            }
            ExprKind::Inject(side, _, part) => {
                let want = self.rolled(want, |view| matches!(view, View::Sum(..)));
                let want = match (want.map(|want| self.types.view(want)), side) {
                    (Some(View::Sum(left, _)), Side::Left) => Some(left),
                    (Some(View::Sum(_, right)), Side::Right) => Some(right),
                    _ => None,
                };
                self.bytes.push(if *side == Side::Left { INL } else { INR });
                self.value(part, want)?;
            }
            ExprKind::Roll(_, part) => {
                self.bytes.push(ROLL);
                let want = want.and_then(|want| self.unfolded(want));
                self.value(part, want)?;
            }
            ExprKind::Construct(name, parts) => self.construct(value, &name.text, parts)?,
            _ => return Err(no_value(value)),
        }
        Ok(())
    }

    /// What is wanted inside, once a roll has been put in where it is wanted outside.
    fn rolled(&mut self, want: Option<TypeId>, look: impl Fn(View) -> bool) -> Option<TypeId> {
        let want = want?;
        let Some(unfolded) = self.unfolded(want) else { return Some(want) };
        if look(self.types.view(unfolded)) {
            self.bytes.push(ROLL);
            return Some(unfolded);
        }
        Some(want)
    }

    fn unfolded(&mut self, ty: TypeId) -> Option<TypeId> {
        match self.types.view(ty) {
            View::Fold(unfolded) => Some(unfolded),
            _ => None,
        }
    }

    fn tuple(&mut self, parts: &[Expr], want: Option<TypeId>) -> Result<(), Mistake> {
        let (left, right) = match want.map(|want| self.types.view(want)) {
            Some(View::Product(left, right)) => (Some(left), Some(right)),
            _ => (None, None),
        };
        self.bytes.push(PAIR);
        self.value(&parts[0], left)?;
        match &parts[1..] {
            [last] => self.value(last, right),
            rest => self.tuple(rest, right),
        }
    }

    fn construct(&mut self, value: &Expr, name: &str, parts: &[Expr]) -> Result<(), Mistake> {
        let Some((variant, index)) = self.types.alternative(name) else {
            return Err(Mistake::new(value.span, format!("no type has an alternative {name}")));
        };
        let variant = self.types.variants[variant].clone();
        let wanted = &variant.alternatives[index].parts;
        if parts.len() != wanted.len() {
            let what = format!("{name} has {} parts, and {} are given here", wanted.len(), parts.len());
            return Err(Mistake::new(value.span, what).help("put a part that has parts itself in parentheses"));
        }
        if variant.recursive {
            self.bytes.push(ROLL);
        }
        self.bytes.extend([INR].repeat(index));
        if index + 1 < variant.alternatives.len() {
            self.bytes.push(INL);
        }
        if parts.is_empty() {
            self.bytes.push(UNIT);
        }
        for (number, part) in parts.iter().enumerate() {
            if number + 1 < parts.len() {
                self.bytes.push(PAIR);
            }
            self.value(part, wanted.get(number).copied())?;
        }
        Ok(())
    }
}

fn no_value(at: &Expr) -> Mistake {
    Mistake::new(at.span, "this is no value").help(
        "a value is a number, (), a tuple, an alternative with its parts, inl, inr or roll, or bytes behind 0x",
    )
}

/// The text of a value of a type; none if the bytes are not a value of it.
pub fn written(types: &mut Types, bytes: &[u8], ty: TypeId) -> Option<String> {
    let mut reader = Reader { types, rest: bytes };
    let text = reader.value(ty, false)?;
    reader.rest.is_empty().then_some(text)
}

/// The texts of values that stand one after another.
pub fn all_written(types: &mut Types, bytes: &[u8], all: &[TypeId]) -> Option<Vec<String>> {
    let mut reader = Reader { types, rest: bytes };
    let texts = all.iter().map(|&ty| reader.value(ty, true)).collect::<Option<Vec<_>>>()?;
    reader.rest.is_empty().then_some(texts)
}

/// Bytes as `read` takes them, in hexadecimal behind the mark.
pub fn marked(bytes: &[u8]) -> String {
    format!("{HEXADECIMAL}{}", hexadecimal(bytes))
}

/// The text of a value that is of no known type.
pub fn untyped(bytes: &[u8]) -> String {
    written_plainly(bytes).unwrap_or_else(|| marked(bytes))
}

/// The text of a value whose type is not known; none if the bytes are no value.
pub fn written_plainly(bytes: &[u8]) -> Option<String> {
    let mut rest = bytes;
    let text = plain(&mut rest)?;
    rest.is_empty().then_some(text)
}

fn plain(rest: &mut &[u8]) -> Option<String> {
    let (&kind, after) = rest.split_first()?;
    *rest = after;
    let text = match kind {
        UNIT => return Some("()".to_string()),
        INL => format!("inl {}", plain(rest)?),
        INR => format!("inr {}", plain(rest)?),
        ROLL => format!("roll {}", plain(rest)?),
        PAIR => {
            let mut parts = vec![plain(rest)?];
            while rest.first() == Some(&PAIR) {
                *rest = &rest[1..];
                parts.push(plain(rest)?);
            }
            parts.push(plain(rest)?);
            return Some(format!("({})", parts.join(", ")));
        }
        _ => return None,
    };
    Some(text)
}

struct Reader<'a> {
    types: &'a mut Types,
    rest: &'a [u8],
}

impl Reader<'_> {
    fn take(&mut self, byte: u8) -> Option<()> {
        let (&first, rest) = self.rest.split_first()?;
        self.rest = rest;
        (first == byte).then_some(())
    }

    fn value(&mut self, ty: TypeId, inside: bool) -> Option<String> {
        if self.types.is_nat(ty) && self.recursive(ty) {
            return self.number();
        }
        if let Shape::Variant(number) = self.types.shape(ty) {
            return self.alternative(number, inside);
        }
        match self.types.view(ty) {
            View::Unit => self.take(UNIT).map(|()| "()".to_string()),
            View::Product(left, right) => self.tuple(left, right),
            View::Sum(left, right) => {
                let is_left = *self.rest.first()? == INL;
                self.take(if is_left { INL } else { INR })?;
                let (word, ty) = if is_left { ("inl", left) } else { ("inr", right) };
                Some(format!("{word} {}", self.value(ty, true)?))
            }
            View::Fold(unfolded) => {
                self.take(ROLL)?;
                Some(format!("roll {}", self.value(unfolded, true)?))
            }
            View::Open => None,
        }
    }

    /// A variant of one alternative that holds a number is no number itself.
    fn recursive(&self, ty: TypeId) -> bool {
        match self.types.shape(ty) {
            Shape::Variant(number) => self.types.variants[number].recursive,
            _ => true,
        }
    }

    fn number(&mut self) -> Option<String> {
        let mut number = 0;
        while let Some(rest) = self.rest.strip_prefix(&[ROLL, INR]) {
            (number, self.rest) = (number + 1, rest);
        }
        self.rest = self.rest.strip_prefix(&[ROLL, INL, UNIT])?;
        Some(number.to_string())
    }

    /// Products lean to the right, so that a tuple goes on as long as the type is no variant of its own.
    fn tuple(&mut self, left: TypeId, mut right: TypeId) -> Option<String> {
        self.take(PAIR)?;
        let mut parts = vec![self.value(left, false)?];
        while let Shape::Product(first, rest) = self.types.shape(right) {
            self.take(PAIR)?;
            parts.push(self.value(first, false)?);
            right = rest;
        }
        parts.push(self.value(right, false)?);
        Some(format!("({})", parts.join(", ")))
    }

    fn alternative(&mut self, number: usize, inside: bool) -> Option<String> {
        let variant = self.types.variants[number].clone();
        if variant.recursive {
            self.take(ROLL)?;
        }
        let last = variant.alternatives.len() - 1;
        let mut index = 0;
        while index < last && self.rest.first() == Some(&INR) {
            self.take(INR)?;
            index += 1;
        }
        if index < last {
            self.take(INL)?;
        }
        let alternative = &variant.alternatives[index];
        if alternative.parts.is_empty() {
            self.take(UNIT)?;
            return Some(alternative.name.clone());
        }
        let mut text = alternative.name.clone();
        for (place, &part) in alternative.parts.iter().enumerate() {
            if place + 1 < alternative.parts.len() {
                self.take(PAIR)?;
            }
            text += &format!(" {}", self.value(part, true)?);
        }
        Some(if inside { format!("({text})") } else { text })
    }
}

#[cfg(test)]
mod tests {
    use super::*;

    #[test]
    fn values_without_types() {
        let mut types = Types::default();
        let bytes = |types: &mut Types, text: &str| read(types, &Source::new("v", text), None);
        assert_eq!(bytes(&mut types, "2"), Ok(vec![4, 2, 4, 2, 4, 1, 0]));
        assert_eq!(bytes(&mut types, "((), inl (), inr ())"), Ok(vec![3, 0, 3, 1, 0, 2, 0]));
        assert_eq!(bytes(&mut types, "0x0401"), Ok(vec![4, 1]));
        assert!(bytes(&mut types, "0x040").is_err());
        assert!(bytes(&mut types, "x").is_err());
        assert_eq!(written_plainly(&[3, 0, 3, 1, 0, 2, 0]).as_deref(), Some("((), inl (), inr ())"));
        assert_eq!(written_plainly(&[3, 0]), None);
    }

    #[test]
    fn a_number_is_written_as_one() {
        let mut types = Types::default();
        let nat = types.nat();
        assert_eq!(written(&mut types, &[4, 2, 4, 1, 0], nat).as_deref(), Some("1"));
        assert_eq!(written(&mut types, &[4, 2, 4, 1], nat), None);
    }
}
