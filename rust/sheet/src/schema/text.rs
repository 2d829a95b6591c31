//! Schemas as text:
//!
//! ```text
//! node Dent
//! link Dent.joint -> Joint
//! column Dent.station : station
//! equation Dent.a.b = Dent.c
//! ```

use super::{Column, Equation, Link, Schema};
use crate::kinds;
use crate::names::{is_name, listed, NAME_RULE, ROW};
use crate::path::Path;
use crate::text::{stating_lines, Line, Lines, TextError};

/// The most of each that a sheet's count field holds; document 01's limits are
/// judged by the proved call.
const FIELD_NODES: usize = 31;
const FIELD_LINKS: usize = 63;
const FIELD_COLUMNS: usize = 31;
const FIELD_EQUATIONS: usize = 63;

impl Schema {
    /// Reads a schema's text.  `file` is named in errors.
    ///
    /// ```
    /// let text = "node Dent # a comment\ncolumn Dent.station : station\n";
    /// let (schema, lines) = sheet::Schema::parse("vendor.schema", text).unwrap();
    /// assert_eq!(schema.column_name(0), "Dent.station");
    /// assert_eq!(lines.columns, [2]);
    /// let told = sheet::Schema::parse("vendor.schema", "node Dent\ntable Joint\n").unwrap_err();
    /// assert_eq!(
    ///     told[0].to_string(),
    ///     "vendor.schema line 2: `table` begins no fact; expected node, link, column or equation"
    /// );
    /// ```
    ///
    /// # Errors
    /// Every line that states no fact or names what is not there.
    pub fn parse(file: &str, text: &str) -> Result<(Self, Lines), Vec<TextError>> {
        let mut parser = Parser::default();
        let facts: Vec<Line> = stating_lines(text).collect();
        for sort in [Sort::Node, Sort::Link, Sort::Column, Sort::Equation] {
            for line in facts.iter().filter(|line| Sort::of(line.text).0 == Some(sort)) {
                let (_, rest) = Sort::of(line.text);
                if let Err(what) = parser.state(sort, rest, line.number) {
                    parser.errors.push(TextError::at(file, line.number, what));
                }
            }
        }
        for line in facts.iter().filter(|line| Sort::of(line.text).0.is_none()) {
            let word = line.text.split_whitespace().next().unwrap_or_default();
            let what = format!("`{word}` begins no fact; expected node, link, column or equation");
            parser.errors.push(TextError::at(file, line.number, what));
        }
        parser.errors.sort_by_key(|error| error.line);
        match parser.errors.is_empty() {
            true => Ok((parser.schema, parser.lines)),
            false => Err(parser.errors),
        }
    }

    /// The text form: nodes, links, columns and equations in the order of their
    /// numbers.  [`Schema::parse`] reads it back.
    pub fn to_text(&self) -> String {
        let nodes = self.nodes.iter().map(|name| format!("node {name}\n"));
        let links = self.links.iter().enumerate().map(|(number, link)| {
            format!("link {} -> {}\n", self.link_name(number), self.node_name(link.target))
        });
        let columns = self.columns.iter().enumerate().map(|(number, column)| {
            format!("column {} : {}\n", self.column_name(number), kinds::name_of(column.kind))
        });
        let equations = self.equations.iter();
        let equations =
            equations.map(|equation| format!("equation {}\n", self.equation_text(equation)));
        let groups: [String; 4] =
            [nodes.collect(), links.collect(), columns.collect(), equations.collect()];
        let groups: Vec<String> = groups.into_iter().filter(|group| !group.is_empty()).collect();
        groups.join("\n")
    }
}

#[derive(Clone, Copy, PartialEq, Eq)]
enum Sort {
    Node,
    Link,
    Column,
    Equation,
}

impl Sort {
    /// The sort of a line and what follows its first word.
    fn of(line: &str) -> (Option<Sort>, &str) {
        let (word, rest) = line.split_once(char::is_whitespace).unwrap_or((line, ""));
        let sort = match word {
            "node" => Some(Sort::Node),
            "link" => Some(Sort::Link),
            "column" => Some(Sort::Column),
            "equation" => Some(Sort::Equation),
            _ => None,
        };
        (sort, rest.trim())
    }
}

#[derive(Default)]
struct Parser {
    schema: Schema,
    lines: Lines,
    errors: Vec<TextError>,
}

impl Parser {
    fn state(&mut self, sort: Sort, rest: &str, line: usize) -> Result<(), String> {
        match sort {
            Sort::Node => self.state_node(rest, line),
            Sort::Link => self.state_link(rest, line),
            Sort::Column => self.state_column(rest, line),
            Sort::Equation => self.state_equation(rest, line),
        }
    }

    fn state_node(&mut self, rest: &str, line: usize) -> Result<(), String> {
        if !is_name(rest) {
            return Err(format!("expected `node NAME`; {NAME_RULE}"));
        }
        let lower = rest.to_lowercase();
        let same = self.schema.nodes.iter().position(|name| name.to_lowercase() == lower);
        if let Some(earlier) = same {
            let (name, first) = (&self.schema.nodes[earlier], self.lines.nodes[earlier]);
            return Err(match name == rest {
                true => format!("node {rest} is already on line {first}"),
                false => format!(
                    "node {rest} differs from {name} on line {first} only in upper and lower \
                     case; their files would be one on some systems"
                ),
            });
        }
        room(self.schema.nodes.len(), FIELD_NODES, Schema::MOST_NODES, "node")?;
        self.schema.nodes.push(rest.to_string());
        self.lines.nodes.push(line);
        Ok(())
    }

    fn state_link(&mut self, rest: &str, line: usize) -> Result<(), String> {
        let expected = "expected `link NODE.NAME -> NODE`";
        let (left, target) = rest.split_once("->").ok_or(expected)?;
        let (source, name) = self.new_name(left, expected)?;
        let target = self.known_node(target.trim())?;
        room(self.schema.links.len(), FIELD_LINKS, Schema::MOST_LINKS, "link")?;
        self.schema.links.push(Link { name, source, target });
        self.lines.links.push(line);
        Ok(())
    }

    fn state_column(&mut self, rest: &str, line: usize) -> Result<(), String> {
        let expected = "expected `column NODE.NAME : KIND`";
        let (left, kind) = rest.split_once(':').ok_or(expected)?;
        let (node, name) = self.new_name(left, expected)?;
        let kind = kinds::number_of(kind).ok_or_else(|| {
            format!("no kind is named `{}`; the kinds: {}", kind.trim(), kinds::all_names())
        })?;
        room(self.schema.columns.len(), FIELD_COLUMNS, Schema::MOST_COLUMNS, "column")?;
        self.schema.columns.push(Column { name, node, kind });
        self.lines.columns.push(line);
        Ok(())
    }

    fn state_equation(&mut self, rest: &str, line: usize) -> Result<(), String> {
        let expected = "expected `equation PATH = PATH`, a path being NODE.LINK.LINK";
        let (left, right) = rest.split_once('=').ok_or(expected)?;
        let left = Path::parse(&self.schema, left.trim())?;
        let right = Path::parse(&self.schema, right.trim())?;
        let most = Schema::MOST_EQUATIONS;
        room(self.schema.equations.len(), FIELD_EQUATIONS, most, "equation")?;
        self.schema.equations.push(Equation { left, right });
        self.lines.equations.push(line);
        Ok(())
    }

    /// `NODE.NAME` with a known node, whose links and columns do not have the
    /// name yet.
    fn new_name(&self, text: &str, expected: &str) -> Result<(usize, String), String> {
        let (node, name) = text.trim().split_once('.').ok_or(expected)?;
        let (node, name) = (self.known_node(node.trim())?, name.trim());
        if !is_name(name) {
            return Err(format!("{expected}; {NAME_RULE}"));
        }
        if name == ROW {
            return Err("`row` is the header of the row numbers; expected another name".into());
        }
        let at = &self.schema.nodes[node];
        if let Some(link) = self.schema.link_at(node, name) {
            return Err(format!(
                "{at}.{name} is already a link on line {}",
                self.lines.links[link]
            ));
        }
        if let Some(column) = self.schema.column_at(node, name) {
            let line = self.lines.columns[column];
            return Err(format!("{at}.{name} is already a column on line {line}"));
        }
        Ok((node, name.to_string()))
    }

    fn known_node(&self, name: &str) -> Result<usize, String> {
        self.schema.node(name).ok_or_else(|| {
            format!("no node is named `{name}`; the nodes: {}", listed(&self.schema.nodes))
        })
    }
}

/// Whether a sheet's count field has room for one more.
fn room(count: usize, field: usize, limit: usize, noun: &str) -> Result<(), String> {
    if count < field {
        return Ok(());
    }
    Err(format!("too many {noun}s; a schema has at most {limit}"))
}
