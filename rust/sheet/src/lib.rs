//! Schemas, mappings, instances and matchings with names: as text and CSV for
//! people, as sheets for the proved calls of the crate `migration`.
//!
//! The plain types are [`Schema`], [`Path`], [`Mapping`], [`Instance`] and
//! [`Matching`].  Each is read from text by `parse`, written as text, encoded
//! by `to_sheet` and decoded by `from_sheet`.  A [`Chain`] of steps between equal
//! paths comes only from a call: it is decoded, and written as lines.  A
//! [`Question`] is a proved call with what it is lent, of a query by its [`Route`], of
//! a row that comes or goes by its [`Change`]; when it refuses, [`Question::explain`]
//! finds the line or row that causes it.
//!
//! A run with two dents and a loss, pushed to the operator's book:
//!
//! ```
//! use sheet::{Answer, Call, Instance, Lent, LentSchema, Question};
//! # fn main() -> Result<(), Box<dyn std::error::Error>> {
//! # let one = |errors: Vec<sheet::TextError>| errors[0].clone();
//! let vendor = "node Dent\nnode Loss\ncolumn Dent.at : station\ncolumn Loss.at : station\n";
//! let operator = "node Anomaly\ncolumn Anomaly.at : station\n";
//! let mapping = "Dent -> Anomaly\nDent.at -> Anomaly.at\nLoss -> Anomaly\nLoss.at -> Anomaly.at\n";
//! let run = Instance { rows: vec![2, 1], links: vec![], values: vec![vec![700, 300], vec![705]] };
//!
//! let s = LentSchema::from_text("vendor.schema", vendor).map_err(one)?;
//! let t = LentSchema::from_text("operator.schema", operator).map_err(one)?;
//! let (s_names, t_names) = (s.schema.clone()?, t.schema.clone()?);
//! let mut question = Question::new(Call::Sigma);
//! question.mapping = Some(Lent::mapping("f.mapping", mapping, &s_names, &t_names).map_err(one)?);
//! question.run = Some(Lent::from_sheet("run.sheet", run.to_sheet()?));
//! (question.s, question.t) = (Some(s), Some(t));
//! match question.ask() {
//!     Ok(Answer::Sheet(sheet)) => {
//!         let pushed = Instance::from_sheet(&t_names, &sheet)?;
//!         assert_eq!(pushed.table_csv(&t_names, 0), "row,at\n0,700\n1,300\n2,705\n");
//!     }
//!     Ok(_) => unreachable!("Sigma gives a sheet"),
//!     Err(refusal) => panic!("{}", question.explain(refusal)),
//! }
//! # Ok(())
//! # }
//! ```

#![forbid(unsafe_code)]
#![warn(missing_docs)]

mod bits;
mod call;
mod chain;
mod change;
mod classes;
mod compose;
mod csv;
mod draw;
mod explain;
mod instance;
pub mod kinds;
mod lent;
mod mapping;
mod matching;
pub mod names;
mod path;
mod query;
mod question;
mod schema;
mod tables;
mod text;
mod why;

pub use bits::{Fault, Unwritable};
pub use call::{Call, Role};
pub use chain::{Chain, Step};
pub use change::{Change, ChangedRow};
pub use classes::all_paths;
pub use draw::{draw_mapping, draw_schema};
pub use explain::{Cause, Explanation};
pub use instance::{read_folder, Instance, Row, TableText};
pub use lent::{Lent, LentSchema};
pub use mapping::Mapping;
pub use matching::Matching;
pub use path::Path;
pub use query::{Route, Stage};
pub use question::{Answer, Question};
pub use schema::{Column, Equation, Link, Schema};
pub use tables::aligned_tables;
pub use text::{Lines, TextError};
