//! Causes in a list of partners: 1, 2 and 17; and a list whose rows are not
//! those it is laid against.

use super::{fault_cause, Cause};
use crate::bits::counted;
use crate::call::Role;
use crate::instance::Instance;
use crate::lent::Lent;
use crate::matching::Matching;
use crate::question::Question;
use crate::schema::Schema;
use crate::text::TextError;

pub(super) fn causes(question: &Question, number: u8) -> Option<Vec<Cause>> {
    let (lent, schema) = (question.list.as_ref()?, question.list_schema()?);
    let counts = question.list_counts()?;
    if let Some(cause) = count_cause(question, lent, schema, &counts) {
        return Some(vec![cause]);
    }
    let list = match Matching::from_sheet(schema, &counts, &lent.sheet) {
        Ok(list) => list,
        Err(fault) => return Some(vec![fault_cause(lent, &fault, Some("run"))]),
    };
    let (from, to) = sides(question)?;
    match number {
        17 => {
            let book = book_names(question)?;
            Some(NoMatch { schema, lent, list: &list, from: &from, to: &to, book: &book }.causes())
        }
        _ => None,
    }
}

/// For each table of the list, the book's table in which its partners stand.
fn book_names(question: &Question) -> Option<Vec<String>> {
    let t = question.t_schema()?;
    match question.call.is_pushed() {
        true => Some(t.nodes.clone()),
        false => {
            let mapping = question.mapping_decoded()?;
            Some(mapping.nodes.iter().map(|&image| t.node_name(image)).collect())
        }
    }
}

/// The table whose rows in the list's text are not those of the instance it
/// starts from.
fn count_cause(
    question: &Question,
    lent: &Lent,
    schema: &Schema,
    counts: &[usize],
) -> Option<Cause> {
    let rows = &lent.lines.as_ref()?.rows;
    let mut tables = rows.iter().map(Vec::len).zip(counts).enumerate();
    let (table, (listed, &count)) = tables.find(|(_, (listed, count))| listed != *count)?;
    let name = schema.node_name(table);
    let from = match question.call.is_pushed() {
        true => "the pushed run",
        false => "the run",
    };
    let listed = counted(listed, "row");
    let what = format!("{listed} of {name} in the list, but {count} in {from}");
    let mend = format!("give each row of {name} in {from} its line, and no other");
    Some(Cause::new(&lent.file, what).mend(mend))
}

/// The instances that the list leads from and to: Sigma of the run and the
/// book, or the run and Delta of the book.
fn sides(question: &Question) -> Option<(Instance, Instance)> {
    let sheet = |role| question.lent(role).map(|lent| lent.sheet.as_slice());
    let (s, t, f) = (sheet(Role::S)?, sheet(Role::T)?, sheet(Role::Mapping)?);
    if question.call.is_pushed() {
        let pushed = migration::sigma(s, t, f, sheet(Role::Run)?).ok()?;
        let pushed = Instance::from_sheet(question.t_schema()?, &pushed).ok()?;
        Some((pushed, question.book_decoded()?))
    } else {
        let pulled = migration::delta(s, t, f, sheet(Role::Book)?).ok()?;
        let pulled = Instance::from_sheet(question.s_schema()?, &pulled).ok()?;
        Some((question.run_decoded()?, pulled))
    }
}

struct NoMatch<'a> {
    schema: &'a Schema,
    lent: &'a Lent,
    list: &'a Matching,
    from: &'a Instance,
    to: &'a Instance,
    book: &'a [String],
}

impl NoMatch<'_> {
    fn causes(&self) -> Vec<Cause> {
        let missing = self.missing_partners();
        if !missing.is_empty() {
            return missing;
        }
        let mut causes = self.other_values();
        causes.extend(self.other_targets());
        causes
    }

    fn partner(&self, table: usize, row: usize) -> Option<usize> {
        self.list.partners.get(table)?.get(row).copied()
    }

    /// Where a row's partner is stated, and the row.
    fn place(&self, table: usize, row: usize) -> String {
        let name = self.schema.node_name(table);
        let place = self.lent.place(|lines| lines.rows.get(table)?.get(row));
        format!("{place}, {name} row {row}")
    }

    fn missing_partners(&self) -> Vec<Cause> {
        let mut causes = Vec::new();
        for (table, partners) in self.list.partners.iter().enumerate() {
            let count = self.to.count(table);
            for (row, &partner) in partners.iter().enumerate() {
                if partner >= count {
                    let name = self.book.get(table).map_or("table", String::as_str);
                    let has = counted(count, "row");
                    let what = format!("partner {partner}, but the book's {name} has {has}");
                    let mend = format!("name a row of the book's {name} as partner");
                    causes.push(Cause::new(self.place(table, row), what).mend(mend));
                }
            }
        }
        causes
    }

    fn other_values(&self) -> Vec<Cause> {
        let mut causes = Vec::new();
        for (number, column) in self.schema.columns.iter().enumerate() {
            for row in 0..self.from.count(column.node) {
                let Some(partner) = self.partner(column.node, row) else { continue };
                let values = self.from.value(number, row).zip(self.to.value(number, partner));
                let Some((here, there)) = values.filter(|(here, there)| here != there) else {
                    continue;
                };
                let name = &column.name;
                let what = format!("{name} {here}, but its partner {partner} has {there}");
                let mend = format!("name a partner whose {name} is {here}");
                causes.push(Cause::new(self.place(column.node, row), what).mend(mend));
            }
        }
        causes
    }

    fn other_targets(&self) -> Vec<Cause> {
        let mut causes = Vec::new();
        for (number, link) in self.schema.links.iter().enumerate() {
            for row in 0..self.from.count(link.source) {
                let Some(cause) = self.other_target(number, row) else { continue };
                causes.push(cause);
            }
        }
        causes
    }

    /// "along each link the partner of a row's target is the target of the
    /// row's partner"
    fn other_target(&self, number: usize, row: usize) -> Option<Cause> {
        let link = self.schema.links.get(number)?;
        let partner = self.partner(link.source, row)?;
        let target = self.from.target(number, row)?;
        let (here, there) = (self.partner(link.target, target)?, self.to.target(number, partner)?);
        if here == there {
            return None;
        }
        let (name, table) = (&link.name, self.schema.node_name(link.target));
        let what = format!(
            "{name} leads to {table} row {target} with partner {here}, \
             but the {name} of its partner {partner} is {there}"
        );
        let mend = format!("let the partners of the row and of its {name} be linked too");
        Some(Cause::new(self.place(link.source, row), what).mend(mend))
    }
}

impl Question {
    /// A list's text whose tables have other rows than the instance that it
    /// starts from, though as many in all: its sheet would be read otherwise
    /// than the text says.
    pub fn misread_list(&self) -> Option<TextError> {
        let (lent, schema) = (self.list.as_ref()?, self.list_schema()?);
        let counts = self.list_counts()?;
        let rows = &lent.lines.as_ref()?.rows;
        let listed: usize = rows.iter().map(Vec::len).sum();
        if listed != counts.iter().sum() {
            return None;
        }
        let cause = count_cause(self, lent, schema, &counts)?;
        Some(TextError::of(&lent.file, cause.what))
    }
}
