//! `sheet show`

use super::{first_path, matching, migrate, sort};
use crate::arguments::Arguments;
use crate::ask::{answer, ask, decoded, load, schema};
use crate::failure::Failure;
use crate::input::Inputs;
use crate::output::{self, Target};
use sheet::{Call, Instance, Mapping, Matching, Role, TextError};

const SORTS: [&str; 5] = ["schema", "mapping", "instance", "matching", "path"];

/// A sheet to text; the sheet is one that the proved check accepts.
pub fn run(arguments: &Arguments, words: &[String]) -> Result<(), Failure> {
    if let Target::PrintSheet | Target::Sheet(_) = Target::of(arguments.output.as_deref()) {
        return Err(Failure::usage("show", "show writes text; pack writes sheets"));
    }
    match sort("show", &SORTS, words)? {
        ("schema", rest) => {
            let (question, _) = ask("show", Call::CheckSchema, rest, arguments)?;
            write_text(arguments, &schema(&question, Role::S)?.to_text())
        }
        ("mapping", rest) => {
            let (question, _) = ask("show", Call::CheckMapping, rest, arguments)?;
            let (s, t) = (schema(&question, Role::S)?, schema(&question, Role::T)?);
            let mapping = Mapping::from_sheet(s, question.sheet(Role::Mapping));
            write_text(arguments, &decoded("the mapping", mapping)?.to_text(s, t))
        }
        ("instance", rest) => {
            let (question, _) = ask("show", Call::CheckInstance, rest, arguments)?;
            let over = schema(&question, Role::S)?;
            migrate::write("show", arguments, over, question.sheet(Role::Run))
        }
        ("matching", rest) => show_matching(arguments, rest),
        (_, rest) => {
            let (question, _) = ask("show", Call::FirstPath, rest, arguments)?;
            first_path::write(arguments, schema(&question, Role::S)?, question.sheet(Role::P))
        }
    }
}

/// A list needs the instance whose rows it gives partners to.
fn show_matching(arguments: &Arguments, words: &[String]) -> Result<(), Failure> {
    let [over, instance, list] = words else {
        let what = format!("expected SCHEMA INSTANCE LIST; {} given", words.len());
        return Err(Failure::usage("show", what));
    };
    let mut inputs = Inputs::default();
    let first = [over.clone(), instance.clone()];
    let question = load("show", Call::CheckInstance, &first, &mut inputs)?;
    answer(&question)?;
    let over = schema(&question, Role::S)?;
    let from = Instance::from_sheet(over, question.sheet(Role::Run));
    let from = decoded("the instance", from)?;
    let list = inputs.matching(list, over)?;
    let listed = list.lines.as_ref().map(|lines| lines.rows.iter().map(Vec::len).collect());
    if listed.is_some_and(|counts: Vec<usize>| counts != from.rows) {
        let counts = from.counts_text(over);
        let what = format!("has other rows than the instance; expected {counts}");
        return Err(vec![TextError { file: list.file, line: None, what }].into());
    }
    decoded(&list.file, Matching::from_sheet(over, &from.rows, &list.sheet))?;
    matching::write("show", arguments, over, &from.rows, &list.sheet)
}

fn write_text(arguments: &Arguments, text: &str) -> Result<(), Failure> {
    match Target::of(arguments.output.as_deref()) {
        Target::Text(path) => output::write_file(&path, text.as_bytes(), arguments.force),
        _ => output::print(text),
    }
}
