//! The journal's bytes (section 5): its form (18) and writing it out.

use crate::limits::{ANCILLA_BYTES, CONVERSIONS};
use crate::value::{one_value, whole_values};

const HELD_TAG: u8 = 0x21;
const CONVERSION_TAG: u8 = 0x22;
const HEADER: usize = 3;
/// Function and steps, in front of the ancilla values.
const CONVERSION_HEAD: usize = 6;

#[derive(Clone, PartialEq, Eq, Debug)]
pub struct Journal {
    pub held: Vec<u8>,
    /// Standing conversions, oldest first.
    pub conversions: Vec<Conversion>,
}

#[derive(Clone, PartialEq, Eq, Debug)]
pub struct Conversion {
    pub function: u16,
    pub steps: u32,
    pub ancillae: Vec<u8>,
}

impl Journal {
    /// None if the bytes do not have the form.
    pub fn read(bytes: &[u8]) -> Option<Journal> {
        let (held, mut rest) = split_field(bytes, HELD_TAG)?;
        if !one_value(held) {
            return None;
        }
        let mut conversions = Vec::new();
        while rest.first().is_some_and(|&byte| byte != 0) {
            let (body, behind) = split_field(rest, CONVERSION_TAG)?;
            conversions.push(Conversion::read(body)?);
            rest = behind;
        }
        let form = conversions.len() <= CONVERSIONS && rest.iter().all(|&byte| byte == 0);
        form.then(|| Journal { held: held.to_vec(), conversions })
    }

    /// Bytes of the fields, without the zeros behind them.
    pub fn length(&self) -> usize {
        let conversions = self.conversions.iter().map(|c| HEADER + CONVERSION_HEAD + c.ancillae.len());
        HEADER + self.held.len() + conversions.sum::<usize>()
    }

    /// The fields, with zeros to the buffer's length; none if they do not fit.
    pub fn write(&self, length: usize) -> Option<Vec<u8>> {
        if self.length() > length {
            return None;
        }
        let mut bytes = field(HELD_TAG, &self.held);
        bytes.extend(self.entries());
        bytes.resize(length, 0);
        Some(bytes)
    }

    /// The fields of the conversions, oldest first.
    pub fn entries(&self) -> Vec<u8> {
        let fields: Vec<Vec<u8>> = self.conversions.iter().map(Conversion::field).collect();
        fields.concat()
    }
}

impl Conversion {
    fn read(body: &[u8]) -> Option<Conversion> {
        let (&[f, g, a, b, c, d], ancillae) = body.split_first_chunk::<CONVERSION_HEAD>()?;
        whole_values(ancillae)?;
        (ancillae.len() <= ANCILLA_BYTES).then(|| Conversion {
            function: u16::from_be_bytes([f, g]),
            steps: u32::from_be_bytes([a, b, c, d]),
            ancillae: ancillae.to_vec(),
        })
    }

    pub fn field(&self) -> Vec<u8> {
        let body = [&self.function.to_be_bytes()[..], &self.steps.to_be_bytes(), &self.ancillae].concat();
        field(CONVERSION_TAG, &body)
    }
}

fn split_field(bytes: &[u8], tag: u8) -> Option<(&[u8], &[u8])> {
    let &[first, high, low, ref rest @ ..] = bytes else { return None };
    let length = u16::from_be_bytes([high, low]) as usize;
    (first == tag && length <= rest.len()).then(|| rest.split_at(length))
}

fn field(tag: u8, body: &[u8]) -> Vec<u8> {
    let length = (body.len() as u16).to_be_bytes();
    let mut bytes = Vec::with_capacity(HEADER + body.len());
    bytes.push(tag);
    bytes.extend_from_slice(&length);
    bytes.extend_from_slice(body);
    bytes
}
