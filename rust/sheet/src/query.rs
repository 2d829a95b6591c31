//! A query, Sigma along H of Pi along G of Delta along F: what it is lent, and the
//! question that each of its three stages is.

use crate::call::{Call, Role};
use crate::lent::{Lent, LentSchema};
use crate::question::{Answer, Question};
use migration::Refusal;
use std::fmt;

/// The stages of a query, in their order.
#[derive(Debug, Clone, Copy, PartialEq, Eq, Hash)]
pub enum Stage {
    /// Delta along F, which goes from S2 to S1.
    Project,
    /// Pi along G, which goes from S2 to S3.
    Join,
    /// Sigma along H, which goes from S3 to S4.
    Unite,
}

impl Stage {
    /// The call that makes this stage alone.
    pub fn call(self) -> Call {
        match self {
            Stage::Project => Call::Delta,
            Stage::Join => Call::Pi,
            Stage::Unite => Call::Sigma,
        }
    }

    /// The numbers of the schemas that the stage's mapping goes from and to.
    pub fn schemas(self) -> [usize; 2] {
        match self {
            Stage::Project => [2, 1],
            Stage::Join => [2, 3],
            Stage::Unite => [3, 4],
        }
    }

    /// What these schemas are called.
    pub fn schema_names(self) -> [&'static str; 2] {
        match self {
            Stage::Project => ["S2", "S1"],
            Stage::Join => ["S2", "S3"],
            Stage::Unite => ["S3", "S4"],
        }
    }

    /// What the stage's mapping is called.
    pub fn mapping_name(self) -> &'static str {
        match self {
            Stage::Project => "F",
            Stage::Join => "G",
            Stage::Unite => "H",
        }
    }
}

/// `Delta along F`, `Pi along G`, `Sigma along H`
impl fmt::Display for Stage {
    fn fmt(&self, out: &mut fmt::Formatter<'_>) -> fmt::Result {
        let name = match self {
            Stage::Project => "Delta",
            Stage::Join => "Pi",
            Stage::Unite => "Sigma",
        };
        write!(out, "{name} along {}", self.mapping_name())
    }
}

/// The schemas and mappings of a query.
#[derive(Debug, Clone, Default, PartialEq, Eq)]
pub struct Route {
    /// S1 to S4.
    pub schemas: [Option<LentSchema>; 4],
    /// F, G and H.
    pub mappings: [Option<Lent>; 3],
}

impl Route {
    /// A schema by its number, from 1 to 4.
    pub fn schema(&self, number: usize) -> Option<&LentSchema> {
        self.schemas.get(number.checked_sub(1)?)?.as_ref()
    }

    /// The mapping of a stage.
    pub fn mapping(&self, stage: Stage) -> Option<&Lent> {
        self.mappings[stage as usize].as_ref()
    }
}

impl Question {
    /// Asks the query, with a tray.
    pub(crate) fn query_into(&self, tray: &mut [u8]) -> Result<usize, Refusal> {
        let [s1, s2, s3, s4] = [1, 2, 3, 4].map(|number| self.sheet(Role::Schema(number)));
        let [f, g, h] =
            [Stage::Project, Stage::Join, Stage::Unite].map(|stage| self.sheet(Role::Along(stage)));
        migration::query_into(s1, s2, s3, s4, f, g, h, self.sheet(Role::Run), tray)
    }

    /// The question that a stage of this query is, with the run where it is the
    /// first stage, and what the first one gives where it is the second; Sigma is
    /// lent no run, since what it refuses is its mapping.
    pub(crate) fn at_stage(&self, stage: Stage) -> Question {
        let [from, to] = stage.schemas();
        let mut question = Question::new(stage.call());
        question.stage = Some(stage);
        question.schema_names = stage.schema_names();
        question.s = self.route.schema(from).cloned();
        question.t = self.route.schema(to).cloned();
        question.mapping = self.route.mapping(stage).cloned();
        match stage {
            Stage::Project => question.book = self.run.clone(),
            Stage::Join => question.run = self.projected(),
            Stage::Unite => {}
        }
        question
    }

    /// What Delta along F gives; none where it refuses.
    fn projected(&self) -> Option<Lent> {
        let file = &self.run.as_ref()?.file;
        match self.at_stage(Stage::Project).ask() {
            Ok(Answer::Sheet(sheet)) => Some(Lent::from_sheet(file, sheet)),
            _ => None,
        }
    }

    /// The stage of this query that a condition of all sheets is about; none of 16,
    /// which is about the whole.
    pub(crate) fn refused_stage(&self, number: u8) -> Option<Stage> {
        match (self.call, number) {
            (Call::Query, 12) => Some(Stage::Unite),
            (Call::Query, 13 | 14) => Some(Stage::Join),
            (Call::Query, 15) if self.projected().is_none() => Some(Stage::Project),
            (Call::Query, 15) => Some(Stage::Join),
            _ => None,
        }
    }
}
