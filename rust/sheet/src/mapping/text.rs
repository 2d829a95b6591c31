//! Mappings as text:
//!
//! ```text
//! Dent -> Anomaly
//! Dent.joint -> Anomaly.joint
//! Dent.station -> Anomaly.station
//! ```

use super::Mapping;
use crate::names::listed;
use crate::path::Path;
use crate::schema::Schema;
use crate::text::{stating_lines, Lines, TextError};

impl Mapping {
    /// Reads a mapping's text.  `file` is named in errors.
    ///
    /// ```
    /// # let text = "node Dent\nnode Joint\nlink Dent.joint -> Joint\n";
    /// let (s, _) = sheet::Schema::parse("s.schema", text).unwrap();
    /// let (t, _) = sheet::Schema::parse("t.schema", "node Spot\n").unwrap();
    /// // The link goes to the trivial path at Spot.
    /// let text = "Dent -> Spot\nJoint -> Spot\nDent.joint -> Spot\n";
    /// let (f, _) = sheet::Mapping::parse("f.mapping", text, &s, &t).unwrap();
    /// assert_eq!((f.nodes, f.links), (vec![0, 0], vec![vec![]]));
    /// ```
    ///
    /// # Errors
    /// Every line that states no image or names what is not there, and
    /// everything of S that has no line.
    pub fn parse(
        file: &str,
        text: &str,
        s: &Schema,
        t: &Schema,
    ) -> Result<(Self, Lines), Vec<TextError>> {
        let mut parser = Parser::new(file, s, t);
        for line in stating_lines(text) {
            if let Err(what) = parser.state(line.text, line.number) {
                parser.errors.push(TextError::at(file, line.number, what));
            }
        }
        parser.finish()
    }

    /// The text form, table by table in the order of S: the node, its links,
    /// its columns.  [`Mapping::parse`] reads it back.
    pub fn to_text(&self, s: &Schema, t: &Schema) -> String {
        let tables: Vec<String> = (0..s.nodes.len()).map(|node| self.table(s, t, node)).collect();
        tables.join("\n")
    }

    fn table(&self, s: &Schema, t: &Schema, node: usize) -> String {
        let image = self.nodes.get(node).map_or_else(String::new, |&image| t.node_name(image));
        let mut text = format!("{} -> {image}\n", s.node_name(node));
        for link in s.links_from(node) {
            let image = self.link_image(s, link).map_or_else(String::new, |path| path.text(t));
            text.push_str(&format!("{} -> {image}\n", s.link_name(link)));
        }
        for column in s.columns_at(node) {
            let image = self.columns.get(column);
            let image = image.map_or_else(String::new, |&image| t.column_name(image));
            text.push_str(&format!("{} -> {image}\n", s.column_name(column)));
        }
        text
    }
}

/// An image with its line.
type Stated<T> = Option<(T, usize)>;

struct Parser<'a> {
    file: &'a str,
    s: &'a Schema,
    t: &'a Schema,
    nodes: Vec<Stated<usize>>,
    links: Vec<Stated<Path>>,
    columns: Vec<Stated<usize>>,
    /// Names whose line has an error of its own, so that it is not missing too.
    mistaken: Vec<String>,
    errors: Vec<TextError>,
}

impl<'a> Parser<'a> {
    fn new(file: &'a str, s: &'a Schema, t: &'a Schema) -> Self {
        Parser {
            file,
            s,
            t,
            nodes: vec![None; s.nodes.len()],
            links: vec![None; s.links.len()],
            columns: vec![None; s.columns.len()],
            mistaken: Vec::new(),
            errors: Vec::new(),
        }
    }

    fn state(&mut self, text: &str, line: usize) -> Result<(), String> {
        let expected =
            "expected `NODE -> NODE`, `NODE.LINK -> PATH` or `NODE.COLUMN -> NODE.COLUMN`";
        let (left, right) = text.split_once("->").ok_or(expected)?;
        let (left, right) = (left.trim(), right.trim());
        let (node, name) = match left.split_once('.') {
            None => (left, None),
            Some((node, name)) => (node.trim(), Some(name.trim())),
        };
        let known = || listed(&self.s.nodes);
        let number = self.s.node(node);
        let node = number.ok_or_else(|| {
            format!("the mapped schema has no node `{node}`; its nodes: {}", known())
        })?;
        let stated = match name {
            None => self.state_node(node, right, line),
            Some(name) => self.state_part(node, name, right, line),
        };
        if stated.is_err() {
            self.mistaken.push(left.split('.').map(str::trim).collect::<Vec<_>>().join("."));
        }
        stated
    }

    fn state_node(&mut self, node: usize, image: &str, line: usize) -> Result<(), String> {
        let known = || listed(&self.t.nodes);
        let found = self.t.node(image);
        let found = found.ok_or_else(|| {
            format!("no node of the other schema is named `{image}`; its nodes: {}", known())
        })?;
        put(&mut self.nodes[node], found, line, &self.s.nodes[node])
    }

    fn state_part(
        &mut self,
        node: usize,
        name: &str,
        image: &str,
        line: usize,
    ) -> Result<(), String> {
        if let Some(link) = self.s.link_at(node, name) {
            let path = Path::parse(self.t, image)?;
            return put(&mut self.links[link], path, line, &self.s.link_name(link));
        }
        if let Some(column) = self.s.column_at(node, name) {
            let found = self.image_column(image)?;
            return put(&mut self.columns[column], found, line, &self.s.column_name(column));
        }
        let links = self.s.links_from(node).into_iter().map(|link| &self.s.links[link].name);
        let columns = self.s.columns_at(node).into_iter();
        let columns = columns.map(|column| &self.s.columns[column].name);
        let at = &self.s.nodes[node];
        Err(format!("{at} has no link or column {name}; it has: {}", listed(links.chain(columns))))
    }

    fn image_column(&self, image: &str) -> Result<usize, String> {
        let expected =
            || format!("`{image}` is no column; expected NODE.COLUMN of the other schema");
        let (node, name) = image.split_once('.').ok_or_else(expected)?;
        let (node, name) = (node.trim(), name.trim());
        let node = self.t.node(node).ok_or_else(|| {
            let known = listed(&self.t.nodes);
            format!("no node of the other schema is named `{node}`; its nodes: {known}")
        })?;
        self.t.column_at(node, name).ok_or_else(|| {
            let columns = self.t.columns_at(node).into_iter();
            let known = listed(columns.map(|column| &self.t.columns[column].name));
            format!("{} has no column {name}; its columns: {known}", self.t.nodes[node])
        })
    }

    fn finish(mut self) -> Result<(Mapping, Lines), Vec<TextError>> {
        self.find_missing();
        self.find_wrong_starts();
        if !self.errors.is_empty() {
            self.errors.sort_by_key(|error| error.line.unwrap_or(usize::MAX));
            return Err(self.errors);
        }
        let mut mapping = Mapping::default();
        let mut lines = Lines::default();
        for (image, line) in self.nodes.into_iter().flatten() {
            mapping.nodes.push(image);
            lines.nodes.push(line);
        }
        for (image, line) in self.links.into_iter().flatten() {
            mapping.links.push(image.links);
            lines.links.push(line);
        }
        for (image, line) in self.columns.into_iter().flatten() {
            mapping.columns.push(image);
            lines.columns.push(line);
        }
        Ok((mapping, lines))
    }

    /// Everything of S has a line.
    fn find_missing(&mut self) {
        let nodes = self.nodes.iter().enumerate().filter(|(_, image)| image.is_none());
        let nodes = nodes.map(|(node, _)| (self.s.node_name(node), "NODE"));
        let links = self.links.iter().enumerate().filter(|(_, image)| image.is_none());
        let links = links.map(|(link, _)| (self.s.link_name(link), "PATH"));
        let columns = self.columns.iter().enumerate().filter(|(_, image)| image.is_none());
        let columns = columns.map(|(column, _)| (self.s.column_name(column), "NODE.COLUMN"));
        let missing = nodes.chain(links).chain(columns);
        let missing = missing.filter(|(name, _)| !self.mistaken.contains(name));
        let errors: Vec<TextError> = missing
            .map(|(name, image)| {
                let what = format!("no line for {name}; expected `{name} -> {image}`");
                TextError::of(self.file, what)
            })
            .collect();
        self.errors.extend(errors);
    }

    /// A link's image starts at the image of the link's source; the sheet has
    /// no field for another start.
    fn find_wrong_starts(&mut self) {
        for (number, image) in self.links.iter().enumerate() {
            let source = self.s.links[number].source;
            let Some(Some((start, _))) = self.nodes.get(source) else { continue };
            let Some((path, line)) = image else { continue };
            if path.start != *start {
                let (path, start) = (path.text(self.t), self.t.node_name(*start));
                let from = self.s.node_name(source);
                let what = format!("{path}; expected a path from {start}, to which {from} goes");
                self.errors.push(TextError::at(self.file, *line, what));
            }
        }
    }
}

/// Notes an image that has no line yet.
fn put<T>(place: &mut Stated<T>, image: T, line: usize, name: &str) -> Result<(), String> {
    if let Some((_, earlier)) = place {
        return Err(format!("{name} already has its image on line {earlier}"));
    }
    *place = Some((image, line));
    Ok(())
}
