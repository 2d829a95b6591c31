//! Paths: `Dent.joint.section`, or `Dent` for the trivial path.

use crate::bits::{BitReader, BitWriter, Fault, Unwritable};
use crate::names::listed;
use crate::schema::Schema;
use std::cmp::Ordering;

/// A start node and the numbers of the links from there; a path of a schema if
/// they join up.
#[derive(Debug, Clone, PartialEq, Eq, Hash)]
pub struct Path {
    /// The start node.
    pub start: usize,
    /// The links' numbers from the left.
    pub links: Vec<usize>,
}

/// "Paths are ordered by length, then start node, then edge numbers from the
/// left."
impl Ord for Path {
    fn cmp(&self, other: &Self) -> Ordering {
        let key = |path: &Path| (path.links.len(), path.start);
        key(self).cmp(&key(other)).then_with(|| self.links.cmp(&other.links))
    }
}

impl PartialOrd for Path {
    fn partial_cmp(&self, other: &Self) -> Option<Ordering> {
        Some(self.cmp(other))
    }
}

impl Path {
    /// The most links that a path sheet holds.
    pub const MOST_LINKS: usize = 15;

    /// The path of length 0 at a node.
    pub fn trivial(node: usize) -> Self {
        Path { start: node, links: Vec::new() }
    }

    /// The node that the path ends at; none where it names a missing node or
    /// link or does not join up.
    pub fn end(&self, schema: &Schema) -> Option<usize> {
        let mut node = self.start;
        for &number in &self.links {
            let link = schema.links.get(number)?;
            if link.source != node {
                return None;
            }
            node = link.target;
        }
        (node < schema.nodes.len() && self.start < schema.nodes.len()).then_some(node)
    }

    /// This path with one more link.
    pub fn along(&self, link: usize) -> Self {
        let mut links = self.links.clone();
        links.push(link);
        Path { start: self.start, links }
    }

    /// The text form over a schema with names.
    ///
    /// ```
    /// # let text = "node Dent\nnode Joint\nlink Dent.joint -> Joint\n";
    /// let (schema, _) = sheet::Schema::parse("vendor.schema", text).unwrap();
    /// let path = sheet::Path { start: 0, links: vec![0] };
    /// assert_eq!(path.text(&schema), "Dent.joint");
    /// assert_eq!(sheet::Path::trivial(1).text(&schema), "Joint");
    /// ```
    pub fn text(&self, schema: &Schema) -> String {
        let mut text = schema.node_name(self.start);
        for &number in &self.links {
            text.push('.');
            match schema.links.get(number) {
                Some(link) => text.push_str(&link.name),
                None => text.push_str(&format!("(missing link {number})")),
            }
        }
        text
    }

    /// Reads the text form over a schema with names.
    ///
    /// ```
    /// # let text = "node Dent\nnode Joint\nlink Dent.joint -> Joint\n";
    /// let (schema, _) = sheet::Schema::parse("vendor.schema", text).unwrap();
    /// let path = sheet::Path::parse(&schema, "Dent.joint");
    /// assert_eq!(path, Ok(sheet::Path { start: 0, links: vec![0] }));
    /// let told = sheet::Path::parse(&schema, "Dent.jiont").unwrap_err();
    /// assert_eq!(told, "Dent has no link jiont; its links: joint");
    /// ```
    ///
    /// # Errors
    /// What is wrong with the text and what was expected.
    pub fn parse(schema: &Schema, text: &str) -> Result<Self, String> {
        let mut names = text.split('.').map(str::trim);
        let first = names.next().unwrap_or_default();
        let start = schema.node(first).ok_or_else(|| {
            format!("no node is named `{first}`; the nodes: {}", listed(&schema.nodes))
        })?;
        let mut path = Path::trivial(start);
        let mut node = start;
        for name in names {
            let link = schema.link_at(node, name).ok_or_else(|| no_link(schema, node, name))?;
            path.links.push(link);
            node = schema.links[link].target;
        }
        if path.links.len() > Self::MOST_LINKS {
            let (count, most) = (path.links.len(), Self::MOST_LINKS);
            return Err(format!("a path of {count} links; a sheet holds at most {most}"));
        }
        Ok(path)
    }

    /// "Path: start 4, length 4, edges 5 each."
    pub(crate) fn write(
        &self,
        writer: &mut BitWriter,
        name: impl Fn() -> String,
    ) -> Result<(), Unwritable> {
        writer.number(4, self.start, || format!("the start of {}", name()))?;
        write_links(writer, &self.links, name)
    }

    /// Reads the fields of a path.
    pub(crate) fn read(reader: &mut BitReader, name: impl Fn() -> String) -> Result<Self, Fault> {
        let start = reader.number(4, || format!("the start of {}", name()))?;
        let links = read_links(reader, name)?;
        Ok(Path { start, links })
    }

    /// The path sheet.
    ///
    /// ```
    /// assert_eq!(sheet::Path { start: 0, links: vec![0] }.to_sheet(), Ok(vec![0x01, 0x00]));
    /// ```
    ///
    /// # Errors
    /// A number that its field cannot hold.
    pub fn to_sheet(&self) -> Result<Vec<u8>, Unwritable> {
        let mut writer = BitWriter::new();
        self.write(&mut writer, || "the path".to_string())?;
        Ok(writer.finish())
    }

    /// Decodes a path sheet, whether or not it is a path of some schema.
    ///
    /// # Errors
    /// The first fault: 1 or 2.
    pub fn from_sheet(sheet: &[u8]) -> Result<Self, Fault> {
        let mut reader = BitReader::new(sheet);
        let path = Self::read(&mut reader, || "the path".to_string())?;
        reader.finish()?;
        Ok(path)
    }
}

fn no_link(schema: &Schema, node: usize, name: &str) -> String {
    let at = schema.node_name(node);
    let known = listed(schema.links_from(node).into_iter().map(|link| &schema.links[link].name));
    match schema.column_at(node, name) {
        Some(_) => format!("{at}.{name} is a column, not a link; {at}'s links: {known}"),
        None => format!("{at} has no link {name}; its links: {known}"),
    }
}

/// "length 4, edges 5 each"
pub(crate) fn write_links(
    writer: &mut BitWriter,
    links: &[usize],
    name: impl Fn() -> String,
) -> Result<(), Unwritable> {
    writer.number(4, links.len(), || format!("the length of {}", name()))?;
    for &link in links {
        writer.number(5, link, || format!("a link of {}", name()))?;
    }
    Ok(())
}

/// Reads "length 4, edges 5 each".
pub(crate) fn read_links(
    reader: &mut BitReader,
    name: impl Fn() -> String,
) -> Result<Vec<usize>, Fault> {
    let length = reader.number(4, || format!("the length of {}", name()))?;
    (0..length).map(|place| reader.number(5, || format!("link {place} of {}", name()))).collect()
}
