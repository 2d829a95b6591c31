//! A question to a proved call: which call, and the sheets it is lent.

use crate::call::{Call, Role};
use crate::change::Change;
use crate::instance::Instance;
use crate::lent::{Lent, LentSchema};
use crate::mapping::Mapping;
use crate::query::{Route, Stage};
use crate::schema::Schema;
use migration::Refusal;

/// What a call answers when it accepts.
#[derive(Debug, Clone, PartialEq, Eq)]
pub enum Answer {
    /// A check accepts.
    Accepted,
    /// The paths are equal, or unequal.
    Equal(bool),
    /// The result's sheet; of a chain where the paths are equal.
    Sheet(Vec<u8>),
    /// The sheets of the changed run and of what Sigma gives of it.
    Changed {
        /// The changed run.
        run: Vec<u8>,
        /// The changed run, pushed.
        pushed: Vec<u8>,
    },
}

/// Whether two paths are equal; the second one has place 3 here, though the call
/// has it at place 2.
fn same_path(s: &[u8], p: &[u8], q: &[u8]) -> Result<bool, Refusal> {
    let first = migration::first_path(s, p)?;
    let second = migration::first_path(s, q);
    second.map(|second| first == second).map_err(|refusal| Refusal { place: 3, ..refusal })
}

/// The sheet in a tray.
fn filled(mut tray: Vec<u8>, length: usize) -> Answer {
    tray.truncate(length);
    Answer::Sheet(tray)
}

/// A call with the sheets it is lent.  A missing sheet is lent empty: it does
/// not matter where an earlier one is sent back.
///
/// ```
/// use sheet::{Answer, Call, LentSchema, Question};
/// let mut question = Question::new(Call::CheckSchema);
/// question.s = Some(LentSchema::from_text("one.schema", "node Dent\n").unwrap());
/// assert_eq!(question.ask(), Ok(Answer::Accepted));
/// ```
#[derive(Debug, Clone, PartialEq, Eq)]
pub struct Question {
    /// The call.
    pub call: Call,
    /// The schema S, or the only schema.
    pub s: Option<LentSchema>,
    /// The schema T.
    pub t: Option<LentSchema>,
    /// The schema U.
    pub u: Option<LentSchema>,
    /// The mapping of S to T.
    pub mapping: Option<Lent>,
    /// The mapping of T to U.
    pub g: Option<Lent>,
    /// The instance of S, or of a query's S1.
    pub run: Option<Lent>,
    /// The instance of T.
    pub book: Option<Lent>,
    /// The path of S, the first of two or the only one.
    pub p: Option<Lent>,
    /// The second path of S.
    pub q: Option<Lent>,
    /// The list of partners.
    pub list: Option<Lent>,
    /// The schemas and mappings of a query.
    pub route: Route,
    /// The change of the run.
    pub(crate) change: Option<Change>,
    /// The stage of a query that this question is; none where it is asked for
    /// itself.
    pub(crate) stage: Option<Stage>,
    /// What S and T are called.
    pub(crate) schema_names: [&'static str; 2],
    /// The bytes of the lent tray, of a change those of both; by default as many as
    /// hold every result.
    pub tray: Option<usize>,
}

impl Question {
    /// A question with nothing lent yet.
    pub fn new(call: Call) -> Self {
        Question {
            call,
            s: None,
            t: None,
            u: None,
            mapping: None,
            g: None,
            run: None,
            book: None,
            p: None,
            q: None,
            list: None,
            route: Route::default(),
            change: None,
            stage: None,
            schema_names: ["S", "T"],
            tray: None,
        }
    }

    /// The sheet with a role.
    pub fn lent(&self, role: Role) -> Option<&Lent> {
        match role {
            Role::S | Role::T | Role::U | Role::Schema(_) => {
                self.lent_schema(role).map(|found| &found.lent)
            }
            Role::Mapping => self.mapping.as_ref(),
            Role::G => self.g.as_ref(),
            Role::Run => self.run.as_ref(),
            Role::Book => self.book.as_ref(),
            Role::P => self.p.as_ref(),
            Role::Q => self.q.as_ref(),
            Role::List => self.list.as_ref(),
            Role::Along(stage) => self.route.mapping(stage),
        }
    }

    /// The schema with a role; none where the role is no schema's.
    pub fn lent_schema(&self, role: Role) -> Option<&LentSchema> {
        match role {
            Role::S => self.s.as_ref(),
            Role::T => self.t.as_ref(),
            Role::U => self.u.as_ref(),
            Role::Schema(number) => self.route.schema(number),
            _ => None,
        }
    }

    /// Lends a schema; nothing where the role is no schema's.
    pub fn lend_schema(&mut self, role: Role, schema: LentSchema) {
        let place = match role {
            Role::S => Some(&mut self.s),
            Role::T => Some(&mut self.t),
            Role::U => Some(&mut self.u),
            Role::Schema(number) => self.route.schemas.get_mut(number.wrapping_sub(1)),
            _ => None,
        };
        if let Some(place) = place {
            *place = Some(schema);
        }
    }

    /// The bytes of the sheet with a role; none where it is missing.
    pub fn sheet(&self, role: Role) -> &[u8] {
        self.lent(role).map_or(&[], |lent| &lent.sheet)
    }

    /// Asks the proved call.
    ///
    /// # Errors
    /// The call's refusal.
    pub fn ask(&self) -> Result<Answer, Refusal> {
        let (s, t, f) = (self.sheet(Role::S), self.sheet(Role::T), self.sheet(Role::Mapping));
        let (run, book, list) =
            (self.sheet(Role::Run), self.sheet(Role::Book), self.sheet(Role::List));
        let (p, q) = (self.sheet(Role::P), self.sheet(Role::Q));
        let accepted = |()| Answer::Accepted;
        match self.call {
            Call::CheckSchema => migration::check_schema(s).map(accepted),
            Call::CheckMapping => migration::check_mapping(s, t, f).map(accepted),
            Call::CheckInstance => migration::check_instance(s, run).map(accepted),
            Call::FirstPath => self.filled(|tray| migration::first_path_into(s, p, tray)),
            Call::SamePath => same_path(s, p, q).map(Answer::Equal),
            Call::PathChain => {
                let mut tray = self.new_tray();
                let length = migration::path_chain_into(s, p, q, &mut tray)?;
                Ok(length.map_or(Answer::Equal(false), |length| filled(tray, length)))
            }
            Call::Delta => self.filled(|tray| migration::delta_into(s, t, f, book, tray)),
            Call::Sigma => self.filled(|tray| migration::sigma_into(s, t, f, run, tray)),
            Call::Pi => self.filled(|tray| migration::pi_into(s, t, f, run, tray)),
            Call::Query => self.filled(|tray| self.query_into(tray)),
            Call::Compose => self.filled(|tray| self.compose_into(tray)),
            Call::AddRow | Call::WithdrawRow => self.ask_change(),
            Call::CheckPushed => migration::check_pushed(s, t, f, run, book, list).map(accepted),
            Call::CheckRaw => migration::check_raw(s, t, f, run, book, list).map(accepted),
            Call::PushedToRaw => {
                self.filled(|tray| migration::pushed_to_raw_into(s, t, f, run, book, list, tray))
            }
            Call::RawToPushed => {
                self.filled(|tray| migration::raw_to_pushed_into(s, t, f, run, book, list, tray))
            }
        }
    }

    /// The tray that is lent: by default one that holds every result.
    pub(crate) fn new_tray(&self) -> Vec<u8> {
        vec![0; self.tray.unwrap_or(self.call.most_bytes())]
    }

    fn filled(
        &self,
        call: impl FnOnce(&mut [u8]) -> Result<usize, Refusal>,
    ) -> Result<Answer, Refusal> {
        let mut tray = self.new_tray();
        call(&mut tray).map(|length| filled(tray, length))
    }

    /// S with its names, where it can be decoded.
    pub(crate) fn s_schema(&self) -> Option<&Schema> {
        self.s.as_ref()?.schema.as_ref().ok()
    }

    /// T with its names, where it can be decoded.
    pub(crate) fn t_schema(&self) -> Option<&Schema> {
        self.t.as_ref()?.schema.as_ref().ok()
    }

    /// The mapping, where it can be decoded.
    pub(crate) fn mapping_decoded(&self) -> Option<Mapping> {
        Mapping::from_sheet(self.s_schema()?, self.sheet(Role::Mapping)).ok()
    }

    /// The instance of S, where it can be decoded.
    pub(crate) fn run_decoded(&self) -> Option<Instance> {
        Instance::from_sheet(self.s_schema()?, self.sheet(Role::Run)).ok()
    }

    /// The instance of T, where it can be decoded.
    pub(crate) fn book_decoded(&self) -> Option<Instance> {
        Instance::from_sheet(self.t_schema()?, self.sheet(Role::Book)).ok()
    }

    /// The schema over whose tables the list stands.
    pub(crate) fn list_schema(&self) -> Option<&Schema> {
        match self.call.is_pushed() {
            true => self.t_schema(),
            false => self.s_schema(),
        }
    }

    /// The row counts of the instance that the list starts from.
    pub(crate) fn list_counts(&self) -> Option<Vec<usize>> {
        match self.call.is_pushed() {
            true => self.pushed_counts(),
            false => self.run_counts(),
        }
    }

    /// The row counts of the run; none where it cannot be decoded.
    pub fn run_counts(&self) -> Option<Vec<usize>> {
        self.run_decoded().map(|run| run.rows)
    }

    /// The row counts of the pushed run: those of the tables over each node of T
    /// joined.  None where the run or the mapping cannot be decoded.
    pub fn pushed_counts(&self) -> Option<Vec<usize>> {
        let (run, mapping) = (self.run_decoded()?, self.mapping_decoded()?);
        let joined = |node| mapping.fibre(node).into_iter().map(|c| run.count(c)).sum();
        Some((0..self.t_schema()?.nodes.len()).map(joined).collect())
    }
}
