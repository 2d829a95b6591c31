//! Two mappings composed, F of S to T and G of T to U: the question, and the one that
//! its second mapping is by itself.

use crate::call::{Call, Role};
use crate::question::Question;
use migration::Refusal;

/// What the schemas of G are called.
pub(crate) const SCHEMA_NAMES_OF_G: [&str; 2] = ["T", "U"];

impl Question {
    /// Asks for the composed mapping, with a tray.
    pub(crate) fn compose_into(&self, tray: &mut [u8]) -> Result<usize, Refusal> {
        let [s, t, u] = [Role::S, Role::T, Role::U].map(|role| self.sheet(role));
        let [f, g] = [Role::Mapping, Role::G].map(|role| self.sheet(role));
        migration::compose_into(s, t, u, f, g, tray)
    }

    /// The question whether G is a mapping of T to U.
    pub(crate) fn second_mapping(&self) -> Question {
        let mut question = Question::new(Call::CheckMapping);
        question.schema_names = SCHEMA_NAMES_OF_G;
        question.s = self.t.clone();
        question.t = self.u.clone();
        question.mapping = self.g.clone();
        question
    }
}
