//! `sheet check`

use super::sort;
use crate::arguments::Arguments;
use crate::ask::{ask, decoded, schema};
use crate::failure::Failure;
use crate::output;
use sheet::{all_paths, Call, Instance, Lent, Question, Role};

/// Asks the proved check, and tells what was accepted.
pub fn run(arguments: &Arguments, words: &[String]) -> Result<(), Failure> {
    match sort("check", &["schema", "mapping", "instance"], words)? {
        ("schema", rest) => {
            let (question, _) = ask("check", Call::CheckSchema, rest, arguments)?;
            let schema = schema(&question, Role::S)?;
            output::print(&format!(
                "accepted: nodes {}, links {}, columns {}, equations {}, paths {}\n",
                schema.nodes.len(),
                schema.links.len(),
                schema.columns.len(),
                schema.equations.len(),
                all_paths(schema).map_or(0, |paths| paths.len())
            ))
        }
        ("mapping", rest) => {
            let (question, _) = ask("check", Call::CheckMapping, rest, arguments)?;
            let taken = takers(&question)?;
            output::print(&format!("accepted\n{taken}"))
        }
        (_, rest) => {
            let (question, _) = ask("check", Call::CheckInstance, rest, arguments)?;
            let schema = schema(&question, Role::S)?;
            let instance = Instance::from_sheet(schema, question.sheet(Role::Run));
            let instance = decoded("the instance", instance)?;
            let (rows, counts) = (instance.total_rows(), instance.counts_text(schema));
            output::print(&format!("accepted: rows {rows} ({counts})\n"))
        }
    }
}

/// Whether Sigma and Pi take a mapping: they are asked with a run without rows.
fn takers(question: &Question) -> Result<String, Failure> {
    let s = schema(question, Role::S)?;
    let run = decoded("a run without rows", Instance::empty(s).to_sheet())?;
    let mut text = String::new();
    for (call, whose) in [(Call::Sigma, "sigma, match and turn"), (Call::Pi, "pi")] {
        let mut asked = question.clone();
        asked.call = call;
        asked.run = Some(Lent::from_sheet("a run without rows", run.clone()));
        let Err(refusal) = asked.ask() else {
            text.push_str(&format!("{whose}: taken\n"));
            continue;
        };
        let (number, word) = (refusal.number, refusal.word());
        text.push_str(&format!("{whose}: not taken ({number}, {word})\n"));
        for cause in asked.explain(refusal).causes.iter().take(3) {
            text.push_str(&format!("  {}: {}\n", cause.place, cause.what));
            cause.notes.iter().for_each(|note| text.push_str(&format!("    {note}\n")));
        }
    }
    Ok(text)
}
