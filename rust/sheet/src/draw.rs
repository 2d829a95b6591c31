//! Schemas and mappings as Graphviz text.

use crate::kinds;
use crate::mapping::Mapping;
use crate::schema::{Link, Schema};

/// Fill colours; a node of S has the colour of its image.
const COLOURS: [&str; 8] =
    ["#cfe2f3", "#d9ead3", "#fce5cd", "#ead1dc", "#fff2cc", "#d9d2e9", "#d0e0e3", "#f4cccc"];

const STYLES: [&str; 3] = [
    "graph [rankdir=LR, nodesep=0.35, ranksep=0.9, fontname=\"Helvetica\"];",
    "node [shape=plain, fontname=\"Helvetica\", fontsize=12];",
    "edge [fontname=\"Helvetica\", fontsize=11];",
];

/// A schema: a box for each node with its columns, an arrow for each link, and
/// the equations on a note.
///
/// ```
/// let (schema, _) = sheet::Schema::parse("one.schema", "node Dent\n").unwrap();
/// let drawn = sheet::draw_schema(&schema);
/// assert!(drawn.starts_with("digraph schema {\n"));
/// assert!(drawn.contains("<b>Dent</b>"));
/// ```
pub fn draw_schema(schema: &Schema) -> String {
    let mut lines = boxes(schema, "n", colour, |column| column_text(schema, column));
    lines.extend(arrows(schema, "n", |link| schema.links[link].name.clone()));
    lines.extend(note(schema, "rules"));
    graph("schema", &lines)
}

/// A mapping: S and T each in a frame with its title, a dashed arrow from each
/// node to its image, and at each link and column what it goes to.  Nodes with
/// one image have one colour.
pub fn draw_mapping(s: &Schema, t: &Schema, f: &Mapping, titles: [&str; 2]) -> String {
    let s_colour = |node: usize| f.nodes.get(node).map_or("white", |&image| colour(image));
    let link_text = |link: usize| {
        let image = f.link_image(s, link).map_or_else(String::new, |path| path.text(t));
        format!("{}\\n→ {image}", s.links[link].name)
    };
    let image_text = |column: usize| {
        let image = f.columns.get(column).map_or_else(String::new, |&image| t.column_name(image));
        format!("{} → {image}", s.columns[column].name)
    };
    let mut s_lines = boxes(s, "s", s_colour, image_text);
    s_lines.extend(note(s, "s_rules"));
    let mut t_lines = boxes(t, "t", colour, |column| column_text(t, column));
    t_lines.extend(note(t, "t_rules"));
    let mut lines = framed("s", titles[0], s_lines);
    lines.extend(framed("t", titles[1], t_lines));
    lines.extend(arrows(s, "s", link_text));
    lines.extend(arrows(t, "t", |link| t.links[link].name.clone()));
    for (node, image) in f.nodes.iter().enumerate() {
        let style = "style=dashed, color=\"#777777\", arrowhead=open";
        lines.push(format!("s{node} -> t{image} [{style}];"));
    }
    graph("mapping", &lines)
}

fn colour(node: usize) -> &'static str {
    COLOURS[node % COLOURS.len()]
}

fn graph(name: &str, lines: &[String]) -> String {
    let styles = STYLES.iter().map(|style| style.to_string());
    let lines = styles.chain(lines.iter().cloned()).map(|line| format!("  {line}\n"));
    format!("digraph {name} {{\n{}}}\n", lines.collect::<String>())
}

/// Lines in a frame with a title.
fn framed(name: &str, title: &str, lines: Vec<String>) -> Vec<String> {
    let mut framed = vec![
        format!("subgraph cluster_{name} {{"),
        format!("  label=\"{}\"; labeljust=l; style=rounded; color=\"#999999\";", quoted(title)),
    ];
    framed.extend(lines.into_iter().map(|line| format!("  {line}")));
    framed.push("}".to_string());
    framed
}

fn column_text(schema: &Schema, column: usize) -> String {
    let found = &schema.columns[column];
    format!("{} : {}", found.name, kinds::name_of(found.kind))
}

/// A box for each node with a line for each column.
fn boxes<'a>(
    schema: &Schema,
    prefix: &str,
    colour: impl Fn(usize) -> &'a str,
    column_line: impl Fn(usize) -> String,
) -> Vec<String> {
    let mut lines = Vec::new();
    for (node, name) in schema.nodes.iter().enumerate() {
        let mut rows =
            format!("<tr><td bgcolor=\"{}\"><b>{}</b></td></tr>", colour(node), escaped(name));
        for column in schema.columns_at(node) {
            let line = escaped(&column_line(column));
            rows.push_str(&format!("<tr><td align=\"left\">{line}</td></tr>"));
        }
        let table = "table border=\"0\" cellborder=\"1\" cellspacing=\"0\" cellpadding=\"5\"";
        lines.push(format!("{prefix}{node} [label=<<{table}>{rows}</table>>];"));
    }
    lines
}

/// An arrow for each link.
fn arrows(schema: &Schema, prefix: &str, label: impl Fn(usize) -> String) -> Vec<String> {
    let links = schema.links.iter().enumerate();
    let arrow = |(number, link): (usize, &Link)| {
        let (source, target) = (link.source, link.target);
        format!("{prefix}{source} -> {prefix}{target} [label=\"{}\"];", label(number))
    };
    links.map(arrow).collect()
}

/// The equations, if there are any.
fn note(schema: &Schema, name: &str) -> Option<String> {
    if schema.equations.is_empty() {
        return None;
    }
    let equations = schema.equations.iter();
    let lines: String =
        equations.map(|equation| format!("{}\\l", schema.equation_text(equation))).collect();
    let style = "shape=note, style=filled, fillcolor=\"#ffffee\"";
    Some(format!("{name} [{style}, label=\"{lines}\"];"))
}

/// Text inside a box.
fn escaped(text: &str) -> String {
    text.replace('&', "&amp;").replace('<', "&lt;").replace('>', "&gt;")
}

/// Text inside quotes.
fn quoted(text: &str) -> String {
    text.replace('\\', "\\\\").replace('"', "\\\"")
}
