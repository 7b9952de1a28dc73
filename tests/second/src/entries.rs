//! Entries: references (4) and named types (5), types then terms then functions (section 4).

use crate::program::{Program, Term, TypeEntry};
use crate::refusal::{Number, Refusal};
use crate::types::{Shape, TypeId, Types};

/// Holds every entry to its references, and answers each type entry's tree.
pub fn read_entries(program: &Program, types: &mut Types) -> Result<Vec<TypeId>, Refusal> {
    let trees = read_types(program, types)?;
    let mut used = vec![false; program.terms.len()];
    for (entry, &term) in program.terms.iter().enumerate() {
        let offset = program.term_offsets[entry];
        let named_type = term.named_type();
        let named = named_type.as_slice();
        let function_exists = match term {
            Term::Call(function, _) => (function as usize) < program.functions.len(),
            _ => true,
        };
        let references = function_exists
            && exist(named, trees.len())
            && program.all_parts(term, |part| (part as usize) < entry && take(&mut used, part));
        judge(references, named, &trees, types, offset)?;
    }
    for function in &program.functions {
        let named: Vec<u16> = [&[function.result], &function.parameters[..]].concat();
        let references =
            exist(&named, trees.len()) && (function.body as usize) < used.len() && take(&mut used, function.body);
        judge(references, &named, &trees, types, function.offset)?;
    }
    match used.iter().position(|&used| !used) {
        Some(unused) => Err(Number::Reference.at(program.term_offsets[unused])),
        None => Ok(trees),
    }
}

fn read_types(program: &Program, types: &mut Types) -> Result<Vec<TypeId>, Refusal> {
    let mut trees: Vec<TypeId> = Vec::with_capacity(program.types.len());
    for (entry, &offset) in program.types.iter().zip(&program.type_offsets) {
        let lower = |part: u16| trees.get(part as usize).copied().ok_or(Number::Reference.at(offset));
        let shape = match *entry {
            TypeEntry::Unit => Shape::Unit,
            TypeEntry::Bound(skipped) => Shape::Bound(skipped),
            TypeEntry::Recursive(body) => Shape::Recursive(lower(body)?),
            TypeEntry::Product(a, b) => Shape::Product(lower(a)?, lower(b)?),
            TypeEntry::Sum(a, b) => Shape::Sum(lower(a)?, lower(b)?),
        };
        trees.push(types.intern(shape));
    }
    Ok(trees)
}

fn exist(references: &[u16], count: usize) -> bool {
    references.iter().all(|&reference| (reference as usize) < count)
}

/// Marks a term as used; false if it was used before.
fn take(used: &mut [bool], term: u16) -> bool {
    !std::mem::replace(&mut used[term as usize], true)
}

/// All of one entry's 4 come before its 5.
fn judge(references: bool, named: &[u16], trees: &[TypeId], types: &Types, offset: u32) -> Result<(), Refusal> {
    if !references {
        return Err(Number::Reference.at(offset));
    }
    let fit = named.iter().map(|&ty| trees[ty as usize]).all(|ty| types.closed(ty) && types.within_limit(ty));
    if fit {
        Ok(())
    } else {
        Err(Number::TypeEntry.at(offset))
    }
}
