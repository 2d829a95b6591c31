//! The proved calls, and what the sheets are that each is lent.

use crate::query::Stage;
use migration::{
    MOST_CHAIN_BYTES, MOST_INSTANCE_BYTES, MOST_MAPPING_BYTES, MOST_MATCHING_BYTES, MOST_PATH_BYTES,
};

/// The proved calls, and the tool's own question whether two paths are equal.
#[derive(Debug, Clone, Copy, PartialEq, Eq, Hash)]
pub enum Call {
    /// Checks a schema.
    CheckSchema,
    /// Checks a mapping.
    CheckMapping,
    /// Checks an instance.
    CheckInstance,
    /// The first path that is equal to a path.
    FirstPath,
    /// Whether two paths are equal: whether `FirstPath` answers the same for both.
    SamePath,
    /// By which steps two paths are equal.
    PathChain,
    /// Pulls an instance of T back to S.
    Delta,
    /// Pushes an instance of S to T by joining tables.
    Sigma,
    /// Pushes an instance of S to T by fitting choices.
    Pi,
    /// Sigma of Pi of Delta, each along a mapping of its own.
    Query,
    /// Composes a mapping of S to T and one of T to U.
    Compose,
    /// Adds a row to a run, and pushes the run.
    AddRow,
    /// Withdraws a row from a run, and pushes the run.
    WithdrawRow,
    /// Checks a matching of the pushed side.
    CheckPushed,
    /// Checks a matching of the raw side.
    CheckRaw,
    /// Turns a matching of the pushed side into one of the raw side.
    PushedToRaw,
    /// Turns a matching of the raw side into one of the pushed side.
    RawToPushed,
}

/// What a lent sheet is for a call.
#[derive(Debug, Clone, Copy, PartialEq, Eq, Hash)]
pub enum Role {
    /// The schema S, or the only schema.
    S,
    /// The schema T.
    T,
    /// The schema U.
    U,
    /// The mapping of S to T.
    Mapping,
    /// The mapping of T to U.
    G,
    /// An instance of S, or of a query's S1.
    Run,
    /// An instance of T.
    Book,
    /// A path of S, the first of two or the only one.
    P,
    /// The second path of S.
    Q,
    /// The list of partners.
    List,
    /// A query's schema by its number: S1 to S4.
    Schema(usize),
    /// The mapping of a query's stage: F, G or H.
    Along(Stage),
}

impl Call {
    /// The call's name; of the tool's own question the command's.
    pub fn name(self) -> &'static str {
        match self {
            Call::CheckSchema => "check_schema",
            Call::CheckMapping => "check_mapping",
            Call::CheckInstance => "check_instance",
            Call::FirstPath => "first_path",
            Call::SamePath => "same-path",
            Call::PathChain => "path_chain",
            Call::Delta => "delta",
            Call::Sigma => "sigma",
            Call::Pi => "pi",
            Call::Query => "query",
            Call::Compose => "compose",
            Call::AddRow => "add_row",
            Call::WithdrawRow => "withdraw_row",
            Call::CheckPushed => "check_pushed",
            Call::CheckRaw => "check_raw",
            Call::PushedToRaw => "pushed_to_raw",
            Call::RawToPushed => "raw_to_pushed",
        }
    }

    /// What the sheets are, in the order of their places.
    pub fn roles(self) -> &'static [Role] {
        use Role::{Along, Book, List, Mapping, Run, Schema, G, P, Q, S, T, U};
        use Stage::{Join, Project, Unite};
        match self {
            Call::CheckSchema => &[S],
            Call::CheckMapping => &[S, T, Mapping],
            Call::CheckInstance => &[S, Run],
            Call::FirstPath => &[S, P],
            Call::SamePath | Call::PathChain => &[S, P, Q],
            Call::Delta => &[S, T, Mapping, Book],
            Call::Sigma | Call::Pi | Call::AddRow | Call::WithdrawRow => &[S, T, Mapping, Run],
            Call::Query => &[
                Schema(1),
                Schema(2),
                Schema(3),
                Schema(4),
                Along(Project),
                Along(Join),
                Along(Unite),
                Run,
            ],
            Call::Compose => &[S, T, U, Mapping, G],
            Call::CheckPushed | Call::CheckRaw | Call::PushedToRaw | Call::RawToPushed => {
                &[S, T, Mapping, Run, Book, List]
            }
        }
    }

    /// The schema that the run is an instance of.
    pub fn run_schema(self) -> Role {
        match self {
            Call::Query => Role::Schema(1),
            _ => Role::S,
        }
    }

    /// The bytes of a tray that holds every result.
    pub fn most_bytes(self) -> usize {
        match self {
            Call::PushedToRaw | Call::RawToPushed => MOST_MATCHING_BYTES,
            Call::FirstPath => MOST_PATH_BYTES,
            Call::Compose => MOST_MAPPING_BYTES,
            Call::PathChain => MOST_CHAIN_BYTES,
            _ => MOST_INSTANCE_BYTES,
        }
    }

    /// Whether its list is one of the pushed side.
    pub fn is_pushed(self) -> bool {
        matches!(self, Call::CheckPushed | Call::PushedToRaw)
    }
}
