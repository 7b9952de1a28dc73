//! From the syntax tree to a core program. Constructors are put in where declared types make them plain; whether the program is well-typed
//! is for the engine to say.

mod declare;
mod matching;
mod patterns;
mod rebuild;
mod terms;

use crate::core::term::{Function, Parameter};
use crate::core::types::TypeId;
use crate::core::Program;
use crate::text::tree::{FunctionDeclaration, Text};
use crate::text::{parse_text, Mistake, Source};
use declare::{declare, Declared};
use std::collections::HashMap;
use terms::{Builder, Signature};

/// A text's program, or all mistakes that were found in it.
pub fn build(source: &Source) -> Result<Program, Vec<Mistake>> {
    let text = parse_text(source)?;
    let mut declared = declare(&text.types)?;
    let signatures = signatures(&text, &mut declared)?;
    let mut builder = Builder::new(declared, signatures);
    let mut functions = Vec::new();
    let mut mistakes = Vec::new();
    for (number, declaration) in text.functions.iter().enumerate() {
        match builder.function(number, declaration) {
            Ok(function) => functions.push(function),
            Err(mistake) => mistakes.push(mistake),
        }
    }
    if mistakes.is_empty() {
        Ok(Program { types: builder.into_types(), functions })
    } else {
        Err(mistakes)
    }
}

fn signatures(text: &Text, declared: &mut Declared) -> Result<Vec<Signature>, Vec<Mistake>> {
    let mut first = HashMap::new();
    let mut signatures = Vec::new();
    let mut mistakes = Vec::new();
    for declaration in &text.functions {
        let name = &declaration.name;
        if let Some(before) = first.insert(name.text.as_str(), name.span) {
            let mistake = Mistake::new(name.span, format!("the function {} is declared twice", name.text));
            mistakes.push(mistake.note(before, "here first"));
        }
        match signature(declaration, declared) {
            Ok(signature) => signatures.push(signature),
            Err(mistake) => mistakes.push(mistake),
        }
    }
    if mistakes.is_empty() {
        Ok(signatures)
    } else {
        Err(mistakes)
    }
}

fn signature(declaration: &FunctionDeclaration, declared: &mut Declared) -> Result<Signature, Mistake> {
    let parameter = |parameter: &crate::text::tree::Parameter| {
        declared.resolve(&parameter.ty).map(|ty| Parameter { name: parameter.name.text.clone(), ty })
    };
    let parameters = declaration.parameters.iter().map(parameter).collect::<Result<Vec<_>, _>>()?;
    for (number, parameter) in declaration.parameters.iter().enumerate() {
        let before = declaration.parameters[..number].iter().find(|other| other.name.text == parameter.name.text);
        if let Some(before) = before {
            let mistake =
                Mistake::new(parameter.name.span, format!("{} names two parameters", parameter.name.text));
            return Err(mistake.note(before.name.span, "here first"));
        }
    }
    let result: TypeId = declared.resolve(&declaration.result)?;
    Ok(Signature { name: declaration.name.text.clone(), parameters, result })
}

impl Builder<'_> {
    fn function(&mut self, number: usize, declaration: &FunctionDeclaration) -> Result<Function, Mistake> {
        let Signature { name, parameters, result } = self.signature(number).clone();
        let body = self.body(&parameters, result, declaration)?;
        Ok(Function { name, span: declaration.name.span, parameters, result, body })
    }
}
