//! A row by itself, before it stands in a table: its words and its sheet.

use super::Instance;
use crate::bits::{BitReader, BitWriter, Fault, Unwritable};
use crate::csv::{self, FIELD_ROW};
use crate::kinds::{self, Kind, KINDS};
use crate::names::listed;
use crate::schema::Schema;

/// A row that is added to a table.
#[derive(Debug, Clone, PartialEq, Eq)]
pub struct Row {
    /// The row that each of the table's links leads to, by the links' numbers.
    pub links: Vec<usize>,
    /// The value in each of the table's columns, by the columns' numbers.
    pub values: Vec<u32>,
}

impl Row {
    /// Reads words like `joint=1`: a word for each link, with the number of a row of
    /// the link's table, and for each column, with its value, in any order.
    ///
    /// ```
    /// let text = "node Dent\nnode Joint\nlink Dent.joint -> Joint\ncolumn Dent.station : station\n";
    /// let (schema, _) = sheet::Schema::parse("s.schema", text).unwrap();
    /// let row = sheet::Row::parse(&schema, 0, &["station=650", "joint=1"]).unwrap();
    /// assert_eq!(row, sheet::Row { links: vec![1], values: vec![650] });
    /// ```
    ///
    /// # Errors
    /// What is told of each word that is not as expected, or of the words that are
    /// missing.
    pub fn parse<S: AsRef<str>>(
        schema: &Schema,
        table: usize,
        words: &[S],
    ) -> Result<Self, Vec<String>> {
        let names = names(schema, table);
        let mut cells: Vec<Option<u32>> = vec![None; names.len()];
        let mut errors = Vec::new();
        for word in words {
            match read_word(schema, table, &names, word.as_ref()) {
                Ok((place, _)) if cells[place].is_some() => {
                    errors.push(format!("{} stands twice; expected each name once", names[place]));
                }
                Ok((place, number)) => cells[place] = Some(number),
                Err(what) => errors.push(what),
            }
        }
        let found: Option<Vec<u32>> = cells.iter().copied().collect();
        match found {
            Some(numbers) if errors.is_empty() => {
                let (links, values) = numbers.split_at(schema.links_from(table).len());
                let links = links.iter().map(|&target| target as usize).collect();
                Ok(Row { links, values: values.to_vec() })
            }
            _ if errors.is_empty() => {
                let missing = names.iter().zip(&cells).filter(|(_, cell)| cell.is_none());
                let missing = listed(missing.map(|(name, _)| name));
                Err(vec![format!("no {missing}; expected {}", expected(schema, table))])
            }
            _ => Err(errors),
        }
    }

    /// The row sheet: "an added row as a sheet (links 9 bits, then values)".
    ///
    /// ```
    /// let row = sheet::Row { links: vec![1], values: vec![0] };
    /// assert_eq!(row.to_sheet(), Ok(vec![0x00, 0x80, 0x00, 0x00, 0x00, 0x00]));
    /// ```
    ///
    /// # Errors
    /// A number that its field cannot hold.
    pub fn to_sheet(&self) -> Result<Vec<u8>, Unwritable> {
        let mut writer = BitWriter::new();
        for (link, &target) in self.links.iter().enumerate() {
            writer.number(9, target, || format!("the target of the row's link {link}"))?;
        }
        self.values.iter().for_each(|&value| writer.field(32, value));
        Ok(writer.finish())
    }

    /// Decodes a row sheet over a table.
    ///
    /// # Errors
    /// Where the sheet is cut or has a tail.
    pub fn from_sheet(schema: &Schema, table: usize, sheet: &[u8]) -> Result<Self, Fault> {
        let mut reader = BitReader::new(sheet);
        let links = schema.links_from(table).into_iter();
        let links = links.map(|link| reader.number(9, || schema.link_name(link)));
        let links = links.collect::<Result<_, _>>()?;
        let columns = schema.columns_at(table).into_iter();
        let values = columns.map(|column| reader.field(32, || schema.column_name(column)));
        let values = values.collect::<Result<_, _>>()?;
        reader.finish()?;
        Ok(Row { links, values })
    }
}

impl Instance {
    /// The instance with one row more, at the end of a table.
    pub(crate) fn with_row(&self, schema: &Schema, table: usize, row: &Row) -> Instance {
        let mut longer = self.clone();
        longer.rows[table] += 1;
        for (link, &target) in schema.links_from(table).into_iter().zip(&row.links) {
            longer.links[link].push(target);
        }
        for (column, &value) in schema.columns_at(table).into_iter().zip(&row.values) {
            longer.values[column].push(value);
        }
        longer
    }
}

/// The names of a table's links, then of its columns.
fn names(schema: &Schema, table: usize) -> Vec<&str> {
    let links = schema.links_from(table).into_iter().map(|link| &schema.links[link].name);
    let columns = schema.columns_at(table).into_iter().map(|column| &schema.columns[column].name);
    links.chain(columns).map(String::as_str).collect()
}

/// A word's place among the names, and its number.
fn read_word(
    schema: &Schema,
    table: usize,
    names: &[&str],
    word: &str,
) -> Result<(usize, u32), String> {
    let Some((name, cell)) = word.split_once('=') else {
        return Err(format!("`{word}`; expected {}", expected(schema, table)));
    };
    let Some(place) = names.iter().position(|known| *known == name) else {
        let (table, known) = (schema.node_name(table), listed(names));
        return Err(format!("{table} has no link or column {name}; it has: {known}"));
    };
    let links = schema.links_from(table);
    let read = match place.checked_sub(links.len()) {
        None => csv::number(cell, FIELD_ROW as u32, 0..=FIELD_ROW as u32),
        Some(column) => {
            let kind = schema.columns[schema.columns_at(table)[column]].kind;
            csv::number(cell, u32::MAX, KINDS.get(kind).map_or(0..=u32::MAX, Kind::range))
        }
    };
    read.map(|number| (place, number)).map_err(|what| format!("{name} {what}"))
}

/// The words of a row, each with what its number is:
/// `joint=(row of Joint) station=(station)`.
fn expected(schema: &Schema, table: usize) -> String {
    let links = schema.links_from(table).into_iter().map(|number| {
        let link = &schema.links[number];
        format!("{}=(row of {})", link.name, schema.node_name(link.target))
    });
    let columns = schema.columns_at(table).into_iter().map(|number| {
        let column = &schema.columns[number];
        format!("{}=({})", column.name, kinds::name_of(column.kind))
    });
    let words: Vec<String> = links.chain(columns).collect();
    match words.is_empty() {
        true => "nothing".to_string(),
        false => words.join(" "),
    }
}
