//! journal: the held record and every standing conversion, for those at a desk.

use super::answer::{Answer, Json};
use super::load::{look, unreadable, Converter};
use super::options::Options;
use super::runs::{steps_text, value_text};
use super::targets::standing_text;
use crate::core::types::TypeId;
use crate::engine;
use crate::journal::{conversions, Conversion, FIELD_HEADER};
use crate::values;

pub fn journal(options: &Options) -> Result<Answer, Box<Answer>> {
    let name = &options.arguments[0];
    let contents = look(name)?.map_err(|why| unreadable(name, why))?;
    let mut converter = Converter::of_journal(name, &contents);
    let refused = |refusal| Box::new(converter.refused(refusal));
    let seen = engine::nurse(&contents.journal).map_err(refused)?;
    let entries = engine::workshop(&contents.journal).map_err(refused)?;
    let conversions = conversions(&entries);
    let (lines, list) = listed(&mut converter, &conversions, options.hex);
    let used = FIELD_HEADER + seen.held.len() + entries.len();
    let held = held_text(&mut converter, &seen.held, conversions.last(), options.hex);
    let standing = standing_text(seen.standing);
    let text = format!("{standing}, {used} of {} bytes used\n{lines}held {held}\n", contents.journal.len());
    let json = vec![
        ("held", Json::text(held)),
        ("hex", Json::bytes(&seen.held)),
        ("conversions", Json::List(list)),
        ("fields", Json::bytes(&entries)),
    ];
    Ok(Answer::accepted(text, json))
}

/// A line for each conversion, and the same for scripts.
fn listed(converter: &mut Converter, conversions: &[Conversion], hex: bool) -> (String, Vec<Json>) {
    let (mut lines, mut list) = (String::new(), Vec::new());
    for (number, conversion) in conversions.iter().enumerate() {
        let (name, ancillae) = conversion_text(converter, conversion, hex);
        let ancillae_text: String = ancillae.iter().map(|ancilla| format!(" {ancilla}")).collect();
        lines += &format!("{:>3}. {name}{ancillae_text}, {}\n", number + 1, steps_text(conversion.steps));
        list.push(Json::Object(vec![
            ("function", Json::text(name)),
            ("ancillae", Json::List(ancillae.into_iter().map(Json::Text).collect())),
            ("steps", Json::Number(conversion.steps.into())),
        ]));
    }
    (lines, list)
}

fn conversion_text(converter: &mut Converter, conversion: &Conversion, hex: bool) -> (String, Vec<String>) {
    let Conversion { function, ancillae, .. } = conversion;
    let raw = || if ancillae.is_empty() { Vec::new() } else { vec![values::marked(ancillae)] };
    let Some(declared) = converter.program.functions.get(usize::from(*function)).cloned() else {
        return (function.to_string(), raw());
    };
    let types: Vec<TypeId> = declared.ancillae().iter().map(|parameter| parameter.ty).collect();
    let texts = values::all_written(&mut converter.program.types, ancillae, &types).filter(|_| !hex);
    (declared.name, texts.unwrap_or_else(raw))
}

/// The held record in the newest conversion's result type. Before any conversion its type is not recorded: it is written in the type of a
/// dynamic parameter that has it, if all such types write it alike.
fn held_text(converter: &mut Converter, held: &[u8], newest: Option<&Conversion>, hex: bool) -> String {
    if hex {
        return values::marked(held);
    }
    let newest = newest.map(|newest| usize::from(newest.function));
    let result =
        newest.and_then(|function| converter.program.functions.get(function)).map(|function| function.result);
    if result.is_some() {
        return value_text(converter, held, result, false);
    }
    let types: Vec<TypeId> =
        converter.program.functions.iter().filter_map(|f| f.dynamic()).map(|parameter| parameter.ty).collect();
    let mut texts = types.iter().filter_map(|&ty| values::written(&mut converter.program.types, held, ty));
    match texts.next() {
        Some(text) if texts.all(|other| other == text) => text,
        _ => values::untyped(held),
    }
}
