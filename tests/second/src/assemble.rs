//! Writes a program's bytes, entry by entry. Any bytes can be written: nothing is checked here.

#[derive(Clone, Default)]
pub struct Assembler {
    types: Vec<Vec<u8>>,
    terms: Vec<Vec<u8>>,
    functions: Vec<Vec<u8>>,
}

impl Assembler {
    pub fn unit_type(&mut self) -> u16 {
        self.type_entry(vec![0])
    }

    pub fn product(&mut self, left: u16, right: u16) -> u16 {
        self.type_entry(body(1, &[left, right]))
    }

    pub fn sum(&mut self, left: u16, right: u16) -> u16 {
        self.type_entry(body(2, &[left, right]))
    }

    pub fn recursive(&mut self, inner: u16) -> u16 {
        self.type_entry(body(3, &[inner]))
    }

    pub fn bound(&mut self, skipped: u8) -> u16 {
        self.type_entry(vec![4, skipped])
    }

    pub fn variable(&mut self, number: u8) -> u16 {
        self.term_entry(vec![0, number])
    }

    pub fn unit(&mut self) -> u16 {
        self.term_entry(vec![1])
    }

    pub fn inl(&mut self, sum: u16, part: u16) -> u16 {
        self.term_entry(body(2, &[sum, part]))
    }

    pub fn inr(&mut self, sum: u16, part: u16) -> u16 {
        self.term_entry(body(3, &[sum, part]))
    }

    pub fn pair(&mut self, left: u16, right: u16) -> u16 {
        self.term_entry(body(4, &[left, right]))
    }

    pub fn let_one(&mut self, bound: u16, inner: u16) -> u16 {
        self.term_entry(body(5, &[bound, inner]))
    }

    pub fn let_pair(&mut self, bound: u16, inner: u16) -> u16 {
        self.term_entry(body(6, &[bound, inner]))
    }

    pub fn case(&mut self, scrutinee: u16, left: u16, right: u16) -> u16 {
        self.term_entry(body(7, &[scrutinee, left, right]))
    }

    pub fn call(&mut self, function: u16, terms: &[u16]) -> u16 {
        self.term_entry(body(8, &[&[function], terms].concat()))
    }

    pub fn roll(&mut self, recursive: u16, part: u16) -> u16 {
        self.term_entry(body(9, &[recursive, part]))
    }

    pub fn unroll(&mut self, recursive: u16, part: u16) -> u16 {
        self.term_entry(body(10, &[recursive, part]))
    }

    pub fn function(&mut self, result: u16, parameters: &[u16], term: u16) -> u16 {
        let mut entry = result.to_be_bytes().to_vec();
        entry.push(parameters.len() as u8);
        entry.extend(references(parameters));
        entry.extend(term.to_be_bytes());
        self.functions.push(entry);
        (self.functions.len() - 1) as u16
    }

    pub fn type_entry(&mut self, entry: Vec<u8>) -> u16 {
        self.types.push(entry);
        (self.types.len() - 1) as u16
    }

    pub fn term_entry(&mut self, entry: Vec<u8>) -> u16 {
        self.terms.push(entry);
        (self.terms.len() - 1) as u16
    }

    /// How many terms there are.
    pub fn terms(&self) -> usize {
        self.terms.len()
    }

    /// How many types there are.
    pub fn types(&self) -> usize {
        self.types.len()
    }

    pub fn bytes(&self) -> Vec<u8> {
        let mut bytes = Vec::new();
        for (tag, entries) in [(1, &self.types), (2, &self.terms), (3, &self.functions)] {
            for entry in entries {
                bytes.push(tag);
                bytes.extend((entry.len() as u16).to_be_bytes());
                bytes.extend_from_slice(entry);
            }
        }
        bytes
    }
}

fn body(kind: u8, numbers: &[u16]) -> Vec<u8> {
    let mut body = vec![kind];
    body.extend(references(numbers));
    body
}

fn references(numbers: &[u16]) -> Vec<u8> {
    numbers.iter().flat_map(|number| number.to_be_bytes()).collect()
}
