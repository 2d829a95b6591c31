//! `sheet draw`

use super::sort;
use crate::arguments::Arguments;
use crate::ask::{ask, decoded, schema};
use crate::failure::Failure;
use crate::output::{self, Target};
use sheet::{draw_mapping, draw_schema, Call, Mapping, Question, Role};
use std::path::Path;

/// An accepted schema or mapping as Graphviz text.
pub fn run(arguments: &Arguments, words: &[String]) -> Result<(), Failure> {
    let text = match sort("draw", &["schema", "mapping"], words)? {
        ("schema", rest) => {
            let (question, _) = ask("draw", Call::CheckSchema, rest, arguments)?;
            draw_schema(schema(&question, Role::S)?)
        }
        (_, rest) => {
            let (question, _) = ask("draw", Call::CheckMapping, rest, arguments)?;
            let (s, t) = (schema(&question, Role::S)?, schema(&question, Role::T)?);
            let mapping = Mapping::from_sheet(s, question.sheet(Role::Mapping));
            let mapping = decoded("the mapping", mapping)?;
            let titles = [Role::S, Role::T].map(|role| title(&question, role));
            draw_mapping(s, t, &mapping, titles)
        }
    };
    match Target::of(arguments.output.as_deref()) {
        Target::Print => output::print(&text),
        Target::Text(path) => output::write_file(&path, text.as_bytes(), arguments.force),
        _ => Err(Failure::usage("draw", "a drawing is text, not a sheet")),
    }
}

/// A schema's file without its folder.
fn title(question: &Question, role: Role) -> &str {
    let file = question.lent(role).map_or("", |lent| &lent.file);
    Path::new(file).file_name().and_then(|name| name.to_str()).unwrap_or(file)
}
