//! The public calls, and a case: one call with what it is lent.

/// A public call.  Its number in the vector file is its place in [`Call::ALL`].
#[derive(Debug, Clone, Copy, PartialEq, Eq, PartialOrd, Ord)]
pub enum Call {
    /// A schema.
    CheckSchema,
    /// S, T, a mapping.
    CheckMapping,
    /// A schema, an instance of it.
    CheckInstance,
    /// A schema, a path; a tray.
    FirstPath,
    /// S, T, a mapping, an instance of T; a tray.
    Delta,
    /// S, T, a mapping, an instance of S; a tray.
    Sigma,
    /// S, T, a mapping, an instance of S; a tray.
    Pi,
    /// S, T, a mapping, run, book, a list of the pushed side.
    CheckPushed,
    /// S, T, a mapping, run, book, a list of the raw side.
    CheckRaw,
    /// S, T, a mapping, run, book, a list of the pushed side; a tray.
    PushedToRaw,
    /// S, T, a mapping, run, book, a list of the raw side; a tray.
    RawToPushed,
    /// A schema, two paths; a tray.
    PathChain,
    /// Four schemas, F, G, H, a run over the first; a tray.
    Query,
    /// S, T, a mapping, a run in its tray, a row; the run's byte length, a table; a tray.
    AddRow,
    /// S, T, a mapping, a run in its tray; the run's byte length, a table, a row's number;
    /// a tray.
    WithdrawRow,
    /// S, T, U, a mapping of S to T, a mapping of T to U; a tray.
    Compose,
}

/// What stands on a sheet.
#[derive(Debug, Clone, Copy, PartialEq, Eq, PartialOrd, Ord)]
pub enum Kind {
    /// A schema.
    Schema,
    /// A mapping between two schemas.
    Mapping {
        /// The place of the schema that it maps, from 1.
        from: usize,
        /// The place of the schema that it maps to, from 1.
        to: usize,
    },
    /// An instance.
    Instance {
        /// The place of its schema, from 1.
        of: usize,
    },
    /// A path of the schema at place 1.
    Path,
    /// A list of partners.
    List,
    /// A row for a table of the schema at place 1.  What is wrong with it is told at
    /// place 0.
    Row,
}

impl Call {
    /// All calls.
    pub const ALL: [Call; 16] = [
        Call::CheckSchema,
        Call::CheckMapping,
        Call::CheckInstance,
        Call::FirstPath,
        Call::Delta,
        Call::Sigma,
        Call::Pi,
        Call::CheckPushed,
        Call::CheckRaw,
        Call::PushedToRaw,
        Call::RawToPushed,
        Call::PathChain,
        Call::Query,
        Call::AddRow,
        Call::WithdrawRow,
        Call::Compose,
    ];

    /// The calls that change a run in its tray.
    pub const CHANGES: [Call; 2] = [Call::AddRow, Call::WithdrawRow];

    /// The call's name in the library.
    pub fn name(self) -> &'static str {
        match self {
            Call::CheckSchema => "check_schema",
            Call::CheckMapping => "check_mapping",
            Call::CheckInstance => "check_instance",
            Call::FirstPath => "first_path",
            Call::Delta => "delta",
            Call::Sigma => "sigma",
            Call::Pi => "pi",
            Call::CheckPushed => "check_pushed",
            Call::CheckRaw => "check_raw",
            Call::PushedToRaw => "pushed_to_raw",
            Call::RawToPushed => "raw_to_pushed",
            Call::PathChain => "path_chain",
            Call::Query => "query",
            Call::AddRow => "add_row",
            Call::WithdrawRow => "withdraw_row",
            Call::Compose => "compose",
        }
    }

    /// The sheets that the call takes, by place: "Sheets are judged in the order
    /// S, T, mapping, instance or instances, path or paths; of transposition's
    /// two instances the run over S comes first. ... then the matching sheet".  Of
    /// the query, by request C-15, "schemas first, then F, G, H, then the run".  Of a
    /// change, by request C-16, "S, T, mapping, run and 12 are judged first", then the
    /// added row.  "The composing call is lent S, T, U, F, G, judged in that order", by
    /// request C-17.
    pub fn sheets(self) -> &'static [Kind] {
        use Kind::*;
        const F: Kind = Mapping { from: 1, to: 2 };
        const OF_S: Kind = Instance { of: 1 };
        const OF_T: Kind = Instance { of: 2 };
        match self {
            Call::CheckSchema => &[Schema],
            Call::CheckMapping => &[Schema, Schema, F],
            Call::CheckInstance => &[Schema, OF_S],
            Call::FirstPath => &[Schema, Path],
            Call::PathChain => &[Schema, Path, Path],
            Call::Delta => &[Schema, Schema, F, OF_T],
            Call::Sigma | Call::Pi => &[Schema, Schema, F, OF_S],
            Call::CheckPushed | Call::CheckRaw | Call::PushedToRaw | Call::RawToPushed => {
                &[Schema, Schema, F, OF_S, OF_T, List]
            }
            Call::Query => &[
                Schema,
                Schema,
                Schema,
                Schema,
                Mapping { from: 2, to: 1 },
                Mapping { from: 2, to: 3 },
                Mapping { from: 3, to: 4 },
                OF_S,
            ],
            Call::AddRow => &[Schema, Schema, F, OF_S, Row],
            Call::WithdrawRow => &[Schema, Schema, F, OF_S],
            Call::Compose => &[Schema, Schema, Schema, F, Mapping { from: 2, to: 3 }],
        }
    }

    /// The place that a refusal of a sheet names, by the sheet's number from 0: "the
    /// tests of the change itself have place 0".
    pub fn place(self, sheet: usize) -> u8 {
        match self.sheets()[sheet] {
            Kind::Row => 0,
            _ => sheet as u8 + 1,
        }
    }

    /// Whether the call changes a run in its tray, so that it is lent two trays.
    pub fn is_change(self) -> bool {
        Self::CHANGES.contains(&self)
    }

    /// How many numbers the call is lent.
    pub fn numbers(self) -> usize {
        match self {
            Call::AddRow => 2,
            Call::WithdrawRow => 3,
            _ => 0,
        }
    }

    /// Whether the call writes a result into a tray.
    pub fn has_tray(self) -> bool {
        use Call::*;
        match self {
            CheckSchema | CheckMapping | CheckInstance | CheckPushed | CheckRaw => false,
            FirstPath | Delta | Sigma | Pi | PushedToRaw | RawToPushed | PathChain | Query
            | AddRow | WithdrawRow | Compose => true,
        }
    }
}

/// The byte that a tray is full of before a call.
pub const FILLING: u8 = 0xA5;

/// One call with the sheets and the tray that it is lent.
#[derive(Debug, Clone, PartialEq, Eq)]
pub struct Case {
    /// What the case is there for.
    pub name: String,
    /// The call.
    pub call: Call,
    /// The sheets, by place; of a change the fourth is the run's whole tray.
    pub sheets: Vec<Vec<u8>>,
    /// Of a change the run's byte length, the table, and where a row is withdrawn its
    /// number.
    pub numbers: Vec<u64>,
    /// The tray's length; 0 for a call without one.
    pub tray: usize,
    /// What stands at the start of the tray before the call, not longer than the tray; the
    /// rest is filling.
    pub standing: Vec<u8>,
}

impl Case {
    /// The most bytes that a tray has: its length is a 16-bit number.
    pub const MOST_TRAY: usize = 65_535;

    /// The most bytes that a result has: those of the longest sheet of an instance.
    pub const MOST_RESULT: usize = 51_220;

    /// The most bytes that a path has: 8 bits and 5 for each of 15 edges.
    pub const MOST_PATH: usize = 11;

    /// The most bytes that a chain has: 8 bits and 10 for each of 255 steps.
    pub const MOST_CHAIN: usize = 320;

    /// The most bytes that a mapping has: 4 bits for each of 16 nodes, 4 and 15 times 5 for
    /// each of 32 edges, 4 for each of 16 attributes.
    pub const MOST_MAPPING: usize = 332;

    /// A case of a call without a tray, or with an empty one.
    pub fn new(name: impl Into<String>, call: Call, sheets: Vec<Vec<u8>>) -> Self {
        Self::with_numbers(name, call, sheets, vec![])
    }

    /// A case of a call with an empty tray, or without one.
    pub fn with_numbers(
        name: impl Into<String>,
        call: Call,
        sheets: Vec<Vec<u8>>,
        numbers: Vec<u64>,
    ) -> Self {
        assert_eq!(sheets.len(), call.sheets().len());
        assert_eq!(numbers.len(), call.numbers());
        Case { name: name.into(), call, sheets, numbers, tray: 0, standing: vec![] }
    }

    /// The case with a tray of this length, if the call has one.
    pub fn with_tray(mut self, length: usize) -> Self {
        if self.call.has_tray() {
            self.tray = length.min(Self::MOST_TRAY);
        }
        self
    }

    /// The bytes of a sheet, by its number from 0: of a change "the run in a tray with its
    /// byte length (one beyond the tray means the whole tray)".
    pub fn sheet(&self, number: usize) -> &[u8] {
        let lent = self.sheets[number].as_slice();
        match (self.call.is_change(), number) {
            (true, 3) => {
                let length = usize::try_from(self.numbers[0]).unwrap_or(usize::MAX);
                &lent[..length.min(lent.len())]
            }
            _ => lent,
        }
    }

    /// The tray before the call.
    pub fn tray_before(&self) -> Vec<u8> {
        let mut tray = vec![FILLING; self.tray];
        tray[..self.standing.len()].copy_from_slice(&self.standing);
        tray
    }

    /// The run's tray before a change.
    pub fn run_before(&self) -> Option<Vec<u8>> {
        self.call.is_change().then(|| self.sheets[3].clone())
    }
}
