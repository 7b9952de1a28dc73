//! Programs over large types (02, F-4): each family, small, with each end.

use super::check;
use crate::calls::Call;
use crate::large::{End, Family, Large, LEAST_NODES, LEAST_TERMS};

pub fn large() -> Vec<Call> {
    let mut calls = Vec::new();
    for family in Family::ALL {
        let small = |end| Large { family, terms: LEAST_TERMS, nodes: LEAST_NODES, end };
        calls.extend(End::ALL.map(|end| check(small(end).program().bytes)));
        calls.push(Call::Run(small(End::Equal).forward()));
    }
    calls
}
