//! What causes a refusal, and what would mend it.
//!
//! Number and place are the proved call's; the cause is looked for afterwards
//! in the same sheets, and named by table, row and line.

mod change;
mod equal;
mod even;
mod instance;
mod list;
mod mapping;
mod overfull;
mod path;
mod pi;
mod schema;

use crate::bits::{counted, Fault};
use crate::call::{Call, Role};
use crate::compose::SCHEMA_NAMES_OF_G;
use crate::lent::Lent;
use crate::query::Stage;
use crate::question::{Answer, Question};
use migration::Refusal;
use std::fmt;

/// A place in what was lent that makes the call refuse.
#[derive(Debug, Clone, PartialEq, Eq)]
pub struct Cause {
    /// The file and line or row.
    pub place: String,
    /// What is there.
    pub what: String,
    /// What else helps to see why, one a line.
    pub notes: Vec<String>,
    /// What would mend it.
    pub mend: Option<String>,
}

impl Cause {
    pub(crate) fn new(place: impl Into<String>, what: impl Into<String>) -> Self {
        Cause { place: place.into(), what: what.into(), notes: Vec::new(), mend: None }
    }

    pub(crate) fn notes(mut self, notes: Vec<String>) -> Self {
        self.notes = notes;
        self
    }

    pub(crate) fn mend(mut self, mend: impl Into<String>) -> Self {
        self.mend = Some(mend.into());
        self
    }
}

/// A refusal with its causes.
#[derive(Debug, Clone, PartialEq, Eq)]
pub struct Explanation {
    /// The proved call's refusal.
    pub refusal: Refusal,
    /// The call.
    pub call: Call,
    /// What the refused sheet is to the call, and its file; none at place 0.
    pub sheet: Option<(&'static str, String)>,
    /// The stage of a query that is refused at place 0; none of its tray.
    pub stage: Option<Stage>,
    /// What the schemas are called that the call's mapping, or the refused one of several,
    /// goes from and to.
    pub schema_names: [&'static str; 2],
    /// The causes that were found, the first one first.
    pub causes: Vec<Cause>,
}

/// The most causes that are shown.
const MOST_SHOWN: usize = 5;

/// The causes first, each with number and word and below it its notes; then which
/// call refused which sheet and why; then what would mend the first cause.
impl fmt::Display for Explanation {
    fn fmt(&self, out: &mut fmt::Formatter<'_>) -> fmt::Result {
        let refusal = self.refusal;
        let tag = format!("({}, {})", refusal.number, refusal.word());
        for cause in self.causes.iter().take(MOST_SHOWN) {
            writeln!(out, "{}: {} {tag}", cause.place, cause.what)?;
            cause.notes.iter().try_for_each(|note| writeln!(out, "  {note}"))?;
        }
        if self.causes.is_empty() {
            let place = self.sheet.as_ref().map_or(self.call.name(), |(_, file)| file);
            writeln!(out, "{place}: {} {tag}", self.sentence())?;
        }
        if self.causes.len() > MOST_SHOWN {
            writeln!(out, "and {} more like these", self.causes.len() - MOST_SHOWN)?;
        }
        let call = self.call.name();
        match &self.sheet {
            Some((role, file)) => {
                write!(out, "{call} refused sheet {}, {role} ({file})", refusal.place)?
            }
            None => write!(out, "{call} refused, place {}", refusal.place)?,
        }
        if let Some(stage) = self.stage {
            write!(out, " ({stage})")?;
        }
        writeln!(out, ": {}", self.sentence())?;
        match self.causes.first().and_then(|cause| cause.mend.as_ref()) {
            Some(mend) => writeln!(out, "mend: {mend}"),
            None => Ok(()),
        }
    }
}

impl Explanation {
    /// The refusal's sentence, with the names of the schemas in the place of S and T.
    fn sentence(&self) -> String {
        let [s, t] = self.schema_names;
        let named = |word: &'static str| match word {
            "S" => s,
            "T" => t,
            _ => word,
        };
        let words = self.refusal.sentence().split(' ').map(|word| match word.strip_suffix(',') {
            Some(word) => format!("{},", named(word)),
            None => named(word).to_string(),
        });
        words.collect::<Vec<_>>().join(" ")
    }
}

impl Question {
    /// What causes a refusal of this question.
    pub fn explain(&self, refusal: Refusal) -> Explanation {
        let role = usize::from(refusal.place).checked_sub(1);
        let role = role.and_then(|place| self.call.roles().get(place)).copied();
        let file = role.and_then(|role| self.lent(role)).map(|lent| lent.file.clone());
        let name = role.map(|role| role_name(self.call, role));
        let sheet = name.zip(file);
        let stage = match role {
            Some(_) => None,
            None => self.refused_stage(refusal.number),
        };
        let causes = match (role, stage) {
            (Some(role), _) => self.causes_at(role, refusal.number),
            (None, Some(stage)) => self.at_stage(stage).causes_of_all(refusal.number),
            (None, None) => self.causes_of_all(refusal.number),
        };
        let causes = causes.unwrap_or_default();
        let schema_names = match role {
            Some(Role::G) => SCHEMA_NAMES_OF_G,
            Some(Role::Along(stage)) => stage.schema_names(),
            _ => self.schema_names,
        };
        Explanation { refusal, call: self.call, sheet, stage, schema_names, causes }
    }

    fn causes_at(&self, role: Role, number: u8) -> Option<Vec<Cause>> {
        Some(match role {
            Role::S | Role::T | Role::U | Role::Schema(_) => {
                schema::causes(self.lent_schema(role)?, number)
            }
            Role::Mapping => mapping::causes(self, number)?,
            Role::G => mapping::causes(&self.second_mapping(), number)?,
            Role::Along(stage) => mapping::causes(&self.at_stage(stage), number)?,
            Role::Run => {
                let over = self.lent_schema(self.call.run_schema())?;
                instance::causes(self.run.as_ref()?, over, number)?
            }
            Role::Book => instance::causes(self.book.as_ref()?, self.t.as_ref()?, number)?,
            Role::P => path::causes(self.p.as_ref()?, self.s_schema()?),
            Role::Q => path::causes(self.q.as_ref()?, self.s_schema()?),
            Role::List => list::causes(self, number)?,
        })
    }

    fn causes_of_all(&self, number: u8) -> Option<Vec<Cause>> {
        match number {
            12 => even::causes(self),
            _ if matches!(self.call, Call::AddRow | Call::WithdrawRow) => {
                change::causes(self, number)
            }
            13 => pi::unpaired(self),
            14 => pi::wide(self),
            15 => overfull::causes(self),
            16 => self.small_tray(),
            _ => None,
        }
    }

    /// The bytes that the result needs.
    fn small_tray(&self) -> Option<Vec<Cause>> {
        let whole = Question { tray: None, ..self.clone() };
        let Ok(Answer::Sheet(sheet)) = whole.ask() else { return None };
        let (needed, lent) = (sheet.len(), self.tray?);
        let needed = counted(needed, "byte");
        let what = format!("the result needs {needed}, but {lent} were lent");
        let most = self.call.most_bytes();
        let mend = format!("lend {needed}; {most} hold every result");
        Some(vec![Cause::new("the tray", what).mend(mend)])
    }
}

/// What a sheet is to a call, in words.
fn role_name(call: Call, role: Role) -> &'static str {
    match (call, role) {
        (_, Role::S) if !call.roles().contains(&Role::T) => "the schema",
        (_, Role::S) => "schema S",
        (Call::CheckInstance, Role::Run) => "the instance",
        (_, Role::T) => "schema T",
        (_, Role::U) => "schema U",
        (Call::Compose, Role::Mapping) => "mapping F",
        (_, Role::G) => "mapping G",
        (_, Role::Mapping) => "the mapping",
        (_, Role::Run) => "the run",
        (_, Role::Book) => "the book",
        (Call::FirstPath, Role::P) => "the path",
        (_, Role::P) => "the first path",
        (_, Role::Q) => "the second path",
        (_, Role::List) => "the list",
        (_, Role::Schema(1)) => "schema S1",
        (_, Role::Schema(2)) => "schema S2",
        (_, Role::Schema(3)) => "schema S3",
        (_, Role::Schema(_)) => "schema S4",
        (_, Role::Along(Stage::Project)) => "mapping F",
        (_, Role::Along(Stage::Join)) => "mapping G",
        (_, Role::Along(Stage::Unite)) => "mapping H",
    }
}

/// The cause where a sheet cannot be decoded; `over` is what it has to fit, if
/// anything.
fn fault_cause(lent: &Lent, fault: &Fault, over: Option<&str>) -> Cause {
    let cause = Cause::new(&lent.file, fault.to_string());
    let mend = match fault {
        Fault::Count { .. } => return cause,
        Fault::Cut { .. } => "lend the whole sheet".to_string(),
        Fault::FillingBit { .. } => "pack it again".to_string(),
        Fault::Follows { needed: 0, .. } => "lend an empty sheet".to_string(),
        Fault::Follows { needed, .. } => {
            format!("lend its first {} alone", counted(*needed, "byte"))
        }
    };
    cause.mend(match over {
        Some(over) => format!("{mend}; or lend the {over} that it was packed for"),
        None => mend,
    })
}
