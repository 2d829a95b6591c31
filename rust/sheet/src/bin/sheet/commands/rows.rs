//! `sheet add-row` and `sheet withdraw-row`

use super::migrate;
use crate::arguments::Arguments;
use crate::ask::{answer, decoded, judged, schema};
use crate::failure::Failure;
use crate::input::Inputs;
use crate::output::{self, Ready, Target};
use crate::staged::place_all;
use sheet::{Answer, Call, Change, Question, Role, Schema, TextError};

/// Adds a row at its table's end.
pub fn add(arguments: &Arguments, words: &[String]) -> Result<(), Failure> {
    let Some((lent, [table, cells @ ..])) = words.split_at_checked(4) else {
        let what = format!("expected S T MAPPING RUN TABLE NAME=VALUE ..; {} given", words.len());
        return Err(Failure::usage("add-row", what));
    };
    run("add-row", Call::AddRow, arguments, lent, |over, inputs| {
        let file = match cells {
            [word] => word.strip_prefix("sheet:"),
            _ => None,
        };
        Ok(match file {
            Some(file) => Change::add_sheet(over, table, inputs.sheet(file)?),
            None => Change::add(over, table, cells)?,
        })
    })
}

/// Takes a row out of its table.
pub fn withdraw(arguments: &Arguments, words: &[String]) -> Result<(), Failure> {
    let Some((lent, [table, row])) = words.split_at_checked(4) else {
        let what = format!("expected S T MAPPING RUN TABLE ROW; {} given", words.len());
        return Err(Failure::usage("withdraw-row", what));
    };
    run("withdraw-row", Call::WithdrawRow, arguments, lent, |over, _| {
        Ok(Change::withdraw(over, table, row_number(table, row)?))
    })
}

fn row_number(table: &str, word: &str) -> Result<usize, Failure> {
    let digits = word.chars().all(|letter| letter.is_ascii_digit());
    word.parse().ok().filter(|_| digits).ok_or_else(|| {
        let what = format!("is `{word}`; expected the number of a row");
        vec![TextError { file: format!("the row of {table}"), line: None, what }].into()
    })
}

/// Asks for a change, which is read when all that is judged before it is accepted.
fn run(
    command: &'static str,
    call: Call,
    arguments: &Arguments,
    lent: &[String],
    change: impl FnOnce(&Schema, &mut Inputs) -> Result<Change, Failure>,
) -> Result<(), Failure> {
    let targets = Targets::of(command, arguments)?;
    let mut inputs = Inputs::default();
    let mut question = judged(command, call, lent, arguments, &mut inputs)?;
    let change = change(schema(&question, Role::S)?, &mut inputs)?;
    question.lend_change(change);
    targets.write(command, &question, arguments.force)
}

/// Where the changed run and the pushed tables go.
struct Targets {
    run: Option<Target>,
    pushed: Option<Target>,
}

impl Targets {
    /// The run goes nowhere unless a place is named; the pushed tables go to standard
    /// output unless a place is named or the run goes there.
    fn of(command: &'static str, arguments: &Arguments) -> Result<Self, Failure> {
        let named = |word: &Option<String>| word.as_deref().map(|word| Target::of(Some(word)));
        let (run, mut pushed) = (named(&arguments.output), named(&arguments.pushed));
        if let (Some(run), Some(pushed)) = (&run, &pushed) {
            if run.path() == pushed.path() {
                let what = "the run and the pushed tables need places of their own";
                return Err(Failure::usage(command, what));
            }
        }
        let run_is_printed = run.as_ref().is_some_and(|target| target.path().is_none());
        if pushed.is_none() && !run_is_printed {
            pushed = Some(Target::Print);
        }
        Ok(Targets { run, pushed })
    }

    /// Makes the change.  Where it is accepted, both results go to their places, or
    /// none does; what has moved is told, but not before a sheet.
    fn write(self, command: &'static str, question: &Question, force: bool) -> Result<(), Failure> {
        let Answer::Changed { run, pushed } = answer(question)? else {
            return Err(Failure::Trouble(format!("{command} gave no run")));
        };
        let news = decoded("the change", question.news().ok_or("it does not fit the run"))?;
        let mut printed = news.clone().into_bytes();
        let mut placed = Vec::new();
        for (target, over, sheet) in [(self.run, Role::S, run), (self.pushed, Role::T, pushed)] {
            let Some(target) = target else { continue };
            let is_sheet = matches!(target, Target::PrintSheet);
            match migrate::ready(command, target, schema(question, over)?, &sheet, force)? {
                Ready::Print(bytes) if is_sheet => printed = bytes,
                Ready::Print(bytes) => printed = [news.as_bytes(), b"\n", &bytes].concat(),
                Ready::Place(staged) => placed.push(staged),
            }
        }
        place_all(&placed, || output::print_bytes(&printed))
    }
}
