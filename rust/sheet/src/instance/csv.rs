//! Instances as CSV, one text for each table: the row number, the links, the
//! columns.

use super::{Instance, TableText};
use crate::bits::counted;
use crate::csv::{self, Record, FIELD_ROW};
use crate::kinds::{Kind, KINDS};
use crate::names::{listed, ROW};
use crate::schema::Schema;
use crate::text::TextError;
use std::ops::RangeInclusive;

/// The largest row count that a sheet's field holds.
const FIELD_COUNT: usize = 1023;

/// A column of a table's file.
#[derive(Clone, Copy, PartialEq, Eq)]
enum Field {
    Row,
    Link(usize),
    Value(usize),
}

impl Instance {
    /// Reads the tables' texts, in the order of the schema's tables.
    ///
    /// ```
    /// # use sheet::TableText;
    /// let text = "node Dent\ncolumn Dent.station : station\n";
    /// let (schema, _) = sheet::Schema::parse("s.schema", text).unwrap();
    /// let text = "row,station\n1,300\n0,700\n".to_string();
    /// let dents = TableText { file: "run/Dent.csv".to_string(), text };
    /// let run = sheet::Instance::parse(&[dents], &schema).unwrap();
    /// assert_eq!(run.values, [[700, 300]]);
    /// ```
    ///
    /// # Errors
    /// Every cell, row or header that is not as expected.
    pub fn parse(tables: &[TableText], schema: &Schema) -> Result<Self, Vec<TextError>> {
        let expected = schema.nodes.len();
        if tables.len() != expected {
            let what = format!("{} given; expected {expected}", counted(tables.len(), "table"));
            return Err(vec![TextError::of("the instance", what)]);
        }
        let mut instance = Instance::empty(schema);
        let mut errors = Vec::new();
        let mut lines = Vec::new();
        for (node, table) in tables.iter().enumerate() {
            match read_table(table, schema, node) {
                Ok(rows) => {
                    lines.push(rows.iter().map(|row| row.line).collect());
                    instance.take(schema, node, &rows);
                }
                Err(found) => errors.extend(found),
            }
        }
        // Beyond 512 rows the proved call tells the count first.
        if errors.is_empty() && instance.total_rows() <= Self::MOST_ROWS {
            errors = instance.wide_targets(tables, &lines, schema);
        }
        match errors.is_empty() {
            true => Ok(instance),
            false => Err(errors),
        }
    }

    /// Takes over a table's rows.
    fn take(&mut self, schema: &Schema, node: usize, rows: &[Row]) {
        self.rows[node] = rows.len();
        for row in rows {
            for (&link, &target) in schema.links_from(node).iter().zip(&row.links) {
                self.links[link].push(target as usize);
            }
            for (&column, &value) in schema.columns_at(node).iter().zip(&row.values) {
                self.values[column].push(value);
            }
        }
    }

    /// The target rows that a sheet's field cannot hold, by the lines of the
    /// tables' rows.
    fn wide_targets(
        &self,
        tables: &[TableText],
        lines: &[Vec<usize>],
        schema: &Schema,
    ) -> Vec<TextError> {
        let mut errors = Vec::new();
        for (number, link) in schema.links.iter().enumerate() {
            for (row, &target) in self.links[number].iter().enumerate() {
                if target <= FIELD_ROW {
                    continue;
                }
                let what = format!(
                    "{} is `{target}`, but {} has {}; a sheet holds row numbers up to {FIELD_ROW}",
                    link.name,
                    schema.node_name(link.target),
                    counted(self.count(link.target), "row")
                );
                errors.push(TextError::at(
                    &tables[link.source].file,
                    lines[link.source][row],
                    what,
                ));
            }
        }
        errors
    }

    /// A table as CSV: a header, then the rows in order.
    ///
    /// ```
    /// let text = "node Dent\ncolumn Dent.station : station\n";
    /// let (schema, _) = sheet::Schema::parse("s.schema", text).unwrap();
    /// let run = sheet::Instance { rows: vec![2], links: vec![], values: vec![vec![700, 300]] };
    /// assert_eq!(run.table_csv(&schema, 0), "row,station\n0,700\n1,300\n");
    /// ```
    pub fn table_csv(&self, schema: &Schema, node: usize) -> String {
        let mut text = csv::line(&header(schema, node));
        for row in 0..self.count(node) {
            text.push_str(&csv::line(&self.cells(schema, node, row)));
        }
        text
    }

    /// The instance's folder: each file's name and text.
    pub fn to_folder(&self, schema: &Schema) -> Vec<(String, String)> {
        let nodes = schema.nodes.iter().enumerate();
        nodes.map(|(node, name)| (format!("{name}.csv"), self.table_csv(schema, node))).collect()
    }

    /// A row's cells: its number, its links' target rows, its values.
    pub(crate) fn cells(&self, schema: &Schema, node: usize, row: usize) -> Vec<String> {
        let mut cells = vec![row.to_string()];
        for link in schema.links_from(node) {
            cells.push(self.target(link, row).map_or_else(String::new, |row| row.to_string()));
        }
        for column in schema.columns_at(node) {
            cells.push(self.value(column, row).map_or_else(String::new, |value| value.to_string()));
        }
        cells
    }
}

/// A table's header: `row`, the links' names, the columns' names.
pub(crate) fn header(schema: &Schema, node: usize) -> Vec<String> {
    fields(schema, node).into_iter().map(|field| field_name(schema, field).to_string()).collect()
}

fn fields(schema: &Schema, node: usize) -> Vec<Field> {
    let links = schema.links_from(node).into_iter().map(Field::Link);
    let columns = schema.columns_at(node).into_iter().map(Field::Value);
    std::iter::once(Field::Row).chain(links).chain(columns).collect()
}

fn field_name(schema: &Schema, field: Field) -> &str {
    match field {
        Field::Row => ROW,
        Field::Link(link) => &schema.links[link].name,
        Field::Value(column) => &schema.columns[column].name,
    }
}

/// The numbers that are expected in a field; others are left to the proved call.
fn expected(schema: &Schema, field: Field) -> RangeInclusive<u32> {
    match field {
        Field::Row | Field::Link(_) => 0..=u32::MAX,
        Field::Value(column) => {
            KINDS.get(schema.columns[column].kind).map_or(0..=u32::MAX, Kind::range)
        }
    }
}

/// A read row: its links and values in the order of the table's own.
struct Row {
    line: usize,
    links: Vec<u32>,
    values: Vec<u32>,
}

/// A table's rows in the order of their numbers.
fn read_table(table: &TableText, schema: &Schema, node: usize) -> Result<Vec<Row>, Vec<TextError>> {
    let broken = |(line, what): csv::Broken| vec![TextError::at(&table.file, line, what)];
    let records = csv::records(&table.text).map_err(broken)?;
    let expected = header(schema, node).join(",");
    let Some((head, body)) = records.split_first() else {
        return Err(vec![TextError::of(&table.file, format!("is empty; expected `{expected}`"))]);
    };
    let places = read_header(head, schema, node)
        .map_err(|what| vec![TextError::at(&table.file, head.line, what)])?;
    let mut errors = Vec::new();
    let mut rows: Vec<(usize, Row)> = Vec::new();
    for record in body {
        match read_row(record, &places, schema) {
            Ok(row) => rows.push(row),
            Err(what) => errors.push(TextError::at(&table.file, record.line, what)),
        }
    }
    if errors.is_empty() {
        errors.extend(number_error(&table.file, &mut rows));
    }
    match errors.is_empty() {
        true => Ok(rows.into_iter().map(|(_, row)| row).collect()),
        false => Err(errors),
    }
}

/// The field in each of a record's cells; the header may name them in any
/// order.
fn read_header(head: &Record, schema: &Schema, node: usize) -> Result<Vec<Field>, String> {
    let known = fields(schema, node);
    let expected = header(schema, node).join(",");
    let mut places = Vec::new();
    for cell in csv::headers(head) {
        let field = known.iter().find(|&&field| field_name(schema, field) == cell);
        let field = *field.ok_or_else(|| format!("header `{cell}`; expected `{expected}`"))?;
        if places.contains(&field) {
            return Err(format!("header `{cell}` twice; expected `{expected}`"));
        }
        places.push(field);
    }
    let missing = known.iter().filter(|field| !places.contains(field));
    let missing: Vec<&str> = missing.map(|&field| field_name(schema, field)).collect();
    match missing.is_empty() {
        true => Ok(places),
        false => Err(format!("no header {}; expected `{expected}`", listed(missing))),
    }
}

fn read_row(record: &Record, places: &[Field], schema: &Schema) -> Result<(usize, Row), String> {
    csv::within_headers(record, places.len())?;
    let (mut number, mut links, mut values) = (0, Vec::new(), Vec::new());
    for (place, &field) in places.iter().enumerate() {
        let cell = record.cells.get(place).map_or("", String::as_str);
        let told = |what: String| format!("{} {what}", field_name(schema, field));
        let found = csv::number(cell, u32::MAX, expected(schema, field)).map_err(told)?;
        match field {
            Field::Row => number = found as usize,
            Field::Link(link) => links.push((link, found)),
            Field::Value(column) => values.push((column, found)),
        }
    }
    links.sort();
    values.sort();
    let links = links.into_iter().map(|(_, target)| target).collect();
    let values = values.into_iter().map(|(_, value)| value).collect();
    Ok((number, Row { line: record.line, links, values }))
}

/// Sorts the rows by their numbers, which are 0, 1, 2 and so on, each once.
fn number_error(file: &str, rows: &mut [(usize, Row)]) -> Option<TextError> {
    if rows.len() > FIELD_COUNT {
        let (count, most) = (rows.len(), Instance::MOST_ROWS);
        return Some(TextError::of(file, format!("{count} rows; an instance has at most {most}")));
    }
    rows.sort_by_key(|(number, row)| (*number, row.line));
    let numbers: Vec<(usize, usize)> =
        rows.iter().map(|(number, row)| (*number, row.line)).collect();
    csv::misnumbered("", &numbers).map(|(line, what)| TextError::at(file, line, what))
}
