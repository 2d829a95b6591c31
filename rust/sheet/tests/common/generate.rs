//! Schemas, mappings, instances and matchings at random, with fixed seeds.

use sheet::{all_paths, Column, Equation, Instance, Link, Mapping, Matching, Path, Row, Schema};
pub use vectors::random::Random;

/// A name that none of `taken` is, whatever the case of letters.
fn name(random: &mut Random, taken: &mut Vec<String>) -> String {
    let starts: Vec<char> = "abcdeABCDEäß_".chars().collect();
    let letters: Vec<char> = "abcXYZäß_-0123".chars().collect();
    loop {
        let mut name = random.one_of(&starts).to_string();
        for _ in 0..random.below(5) {
            name.push(*random.one_of(&letters));
        }
        if name != "row" && !taken.contains(&name.to_lowercase()) {
            taken.push(name.to_lowercase());
            return name;
        }
    }
}

/// A schema with names that the proved check accepts.
pub fn schema(random: &mut Random) -> Schema {
    loop {
        let nodes = 1 + random.below(5);
        let mut taken = Vec::new();
        let mut schema = Schema {
            nodes: (0..nodes).map(|_| name(random, &mut taken)).collect(),
            ..Schema::default()
        };
        let mut taken: Vec<Vec<String>> = vec![Vec::new(); nodes];
        for _ in 0..random.below(7) {
            let (a, b) = (random.below(nodes), random.below(nodes));
            if a != b {
                // Links lead upward in a fixed shuffle of the nodes, so that
                // they form no loop.
                let (source, target) =
                    if (a * 7 + 3) % 11 < (b * 7 + 3) % 11 { (a, b) } else { (b, a) };
                let name = name(random, &mut taken[source]);
                schema.links.push(Link { name, source, target });
            }
        }
        for _ in 0..random.below(6) {
            let (node, kind) = (random.below(nodes), random.below(16));
            let name = name(random, &mut taken[node]);
            schema.columns.push(Column { name, node, kind });
        }
        add_equations(random, &mut schema);
        let sheet = schema.to_sheet().expect("a small schema");
        if migration::check_schema(&sheet).is_ok() {
            return schema;
        }
    }
}

fn add_equations(random: &mut Random, schema: &mut Schema) {
    let Some(paths) = all_paths(schema) else { return };
    for _ in 0..random.below(4) {
        let left = random.one_of(&paths).clone();
        let mut parallel = paths.clone();
        parallel.retain(|path| path.start == left.start && path.end(schema) == left.end(schema));
        let right = random.one_of(&parallel).clone();
        schema.equations.push(Equation { left, right });
    }
}

/// Some mapping whose images stand in T, whether or not it is accepted.  Links
/// and columns of S that can have no image are taken out, with the equations
/// that need them.
pub fn mapping(random: &mut Random, s: &mut Schema, t: &Schema) -> Mapping {
    let nodes: Vec<usize> = s.nodes.iter().map(|_| random.below(t.nodes.len())).collect();
    let paths = all_paths(t).expect("an accepted schema");
    let mut links = Vec::new();
    let kept = s.links.len();
    s.links.retain(|link| {
        let mut fitting: Vec<&Path> = paths.iter().collect();
        fitting.retain(|path| {
            path.start == nodes[link.source] && path.end(t) == Some(nodes[link.target])
        });
        if fitting.is_empty() {
            return false;
        }
        links.push(random.one_of(&fitting).links.clone());
        true
    });
    if s.links.len() < kept {
        s.equations.clear();
    }
    if t.columns.is_empty() {
        s.columns.clear();
    }
    let columns = s.columns.iter().map(|_| random.below(t.columns.len())).collect();
    Mapping { nodes, links, columns }
}

/// Some instance, whether or not it is accepted.
pub fn any_instance(random: &mut Random, schema: &Schema, most_rows: usize) -> Instance {
    let rows: Vec<usize> = schema.nodes.iter().map(|_| random.below(most_rows + 1)).collect();
    let links = schema.links.iter();
    let links = links.map(|link| (0..rows[link.source]).map(|_| random.below(512)).collect());
    let links = links.collect();
    let columns = schema.columns.iter();
    let values =
        columns.map(|column| (0..rows[column.node]).map(|_| random.bits() as u32).collect());
    let values = values.collect();
    Instance { rows, links, values }
}

/// An instance whose links and values are as they may be, whether or not it
/// obeys the equations.
pub fn linked_instance(random: &mut Random, schema: &Schema, most_rows: usize) -> Instance {
    let mut found = any_instance(random, schema, most_rows);
    for (targets, link) in found.links.iter_mut().zip(&schema.links) {
        let count = found.rows[link.target].max(1);
        targets.iter_mut().for_each(|target| *target %= count);
    }
    for (values, column) in found.values.iter_mut().zip(&schema.columns) {
        let (smallest, largest) = sheet::kinds::KINDS[column.kind].range().into_inner();
        values.iter_mut().for_each(|value| *value = (*value % 3).clamp(smallest, largest));
    }
    found
}

/// An accepted instance, or after many vain attempts one without rows.
pub fn instance(random: &mut Random, schema: &Schema, most_rows: usize) -> Instance {
    let sheet = schema.to_sheet().expect("a small schema");
    for _ in 0..60 {
        let found = linked_instance(random, schema, most_rows);
        let instance_sheet = found.to_sheet().expect("a small instance");
        if migration::check_instance(&sheet, &instance_sheet).is_ok() {
            return found;
        }
    }
    Instance::empty(schema)
}

/// A list with some partner for each row.
pub fn any_matching(random: &mut Random, rows: &[usize]) -> Matching {
    let table = |&count: &usize| (0..count).map(|_| random.below(512)).collect();
    Matching { partners: rows.iter().map(table).collect() }
}

/// An even mapping: S is several copies of T, each going to T.
pub fn copies(t: &Schema, count: usize) -> (Schema, Mapping) {
    let (mut s, mut f) = (Schema::default(), Mapping::default());
    let (nodes, links) = (t.nodes.len(), t.links.len());
    for copy in 0..count {
        s.nodes.extend(t.nodes.iter().map(|name| format!("{name}_of_{copy}")));
        s.links.extend(t.links.iter().map(|link| Link {
            name: link.name.clone(),
            source: link.source + copy * nodes,
            target: link.target + copy * nodes,
        }));
        s.columns.extend(t.columns.iter().map(|column| Column {
            name: column.name.clone(),
            node: column.node + copy * nodes,
            kind: column.kind,
        }));
        let moved = |path: &Path| Path {
            start: path.start + copy * nodes,
            links: path.links.iter().map(|link| link + copy * links).collect(),
        };
        s.equations.extend(t.equations.iter().map(|equation| Equation {
            left: moved(&equation.left),
            right: moved(&equation.right),
        }));
        f.nodes.extend(0..nodes);
        f.links.extend((0..links).map(|link| vec![link]));
        f.columns.extend(0..t.columns.len());
    }
    (s, f)
}

/// A row's words, in the order of its table's links and columns.
pub fn row_words(schema: &Schema, table: usize, row: &Row) -> Vec<String> {
    let links = schema.links_from(table).into_iter().map(|link| &schema.links[link].name);
    let columns = schema.columns_at(table).into_iter().map(|column| &schema.columns[column].name);
    let links = links.zip(&row.links).map(|(name, target)| format!("{name}={target}"));
    let values = columns.zip(&row.values).map(|(name, value)| format!("{name}={value}"));
    links.chain(values).collect()
}
