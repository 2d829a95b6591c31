//! Questions about two paths, by chance, in schemas with many equal paths.

use crate::build;
use crate::call::{Call, Case};
use crate::random::Random;
use crate::schemas::{is_accepted, parallel_pairs, woven};
use crate::world::Sheet;
use reference::paths::all_paths;
use reference::plain::*;

/// A schema and two of its paths.
#[derive(Debug, Clone)]
pub struct Question {
    /// The schema.
    pub schema: Schema,
    /// The first path.
    pub from: Path,
    /// The second path.
    pub to: Path,
}

impl Question {
    /// A question in a schema.
    pub fn new(schema: &Schema, from: Path, to: Path) -> Self {
        Question { schema: schema.clone(), from, to }
    }

    /// The sheets that the call for a chain is lent.
    pub fn lent(&self) -> Vec<Sheet> {
        let Question { schema, from, to } = self.clone();
        vec![Sheet::Schema(schema), Sheet::Path(from), Sheet::Path(to)]
    }

    /// The sheets that the call for a first path is lent, for each of the paths.
    pub fn lent_in_turn(&self) -> [Vec<Sheet>; 2] {
        [&self.from, &self.to]
            .map(|path| vec![Sheet::Schema(self.schema.clone()), Sheet::Path(path.clone())])
    }

    /// The questions for the first path of each, with trays that hold every path.
    pub fn firsts(&self, name: &str) -> [Case; 2] {
        self.lent_in_turn().map(|lent| {
            let sheets = lent.iter().map(Sheet::bytes).collect();
            Case::new(name, Call::FirstPath, sheets).with_tray(Case::MOST_PATH)
        })
    }

    /// The question for a chain, with a tray that holds every chain.
    pub fn chain(&self, name: impl Into<String>) -> Case {
        let sheets = self.lent().iter().map(Sheet::bytes).collect();
        Case::new(name, Call::PathChain, sheets).with_tray(Case::MOST_CHAIN)
    }
}

/// A question in a schema with many equal paths.
pub fn any_question(random: &mut Random) -> Question {
    let schema = match random.below(4) {
        0 => snake(random),
        1 | 2 => bundles(random),
        _ => tangle(random),
    };
    let (from, to) = two_paths(random, &schema);
    Question { schema, from, to }
}

/// Rows of paths one behind the other: each path of two edges has at most two
/// neighbours, one step away from it.
fn snake(random: &mut Random) -> Schema {
    let (rows, columns) = (2 + random.below(12), 2 + random.below(12));
    let edges = [vec![(0, 1); rows], vec![(1, 2); columns]].concat();
    let schema = build::graph(3, &edges);
    let first = random.shuffled((0..rows).collect());
    let last = random.shuffled((rows..rows + columns).collect());
    let ends = [last[columns - 1], last[0]];
    let along = last.windows(2).map(|pair| build::equation(1, &pair[..1], &pair[1..]));
    let turn = |row: usize| {
        let end = ends[row % 2];
        build::equation(0, &[first[row], end], &[first[row + 1], end])
    };
    let rules = along.chain((0..rows - 1).map(turn)).collect();
    with_rules(random, schema, rules)
}

/// Bundles of parallel edges one behind the other, and sometimes an edge beside
/// them all: in a bundle most edges equal another, and some longer paths do.
fn bundles(random: &mut Random) -> Schema {
    loop {
        let widths: Vec<usize> = (0..1 + random.below(4)).map(|_| 1 + random.below(6)).collect();
        let mut edges = Vec::new();
        let mut rules = Vec::new();
        for (node, &width) in widths.iter().enumerate() {
            let bundle = random.shuffled((edges.len()..edges.len() + width).collect());
            edges.extend(vec![(node, node + 1); width]);
            let linked = bundle.windows(2).filter(|_| !random.once_in(8));
            rules.extend(linked.map(|pair| build::equation(node, &pair[..1], &pair[1..])));
        }
        let last = widths.len();
        edges.extend(vec![(0, last); random.below(3)]);
        let schema = build::graph(last + 1, &edges);
        if edges.len() <= Schema::MOST_EDGES && is_accepted(&schema) {
            let most = random.below(6);
            rules.extend(any_rules(random, &schema, most));
            return with_rules(random, schema, rules);
        }
    }
}

/// A graph with long and parallel paths, and equations of any of them.
fn tangle(random: &mut Random) -> Schema {
    let schema = woven(random, 7, 10);
    let most = random.below(16);
    let rules = any_rules(random, &schema, most);
    with_rules(random, schema, rules)
}

/// So many equations of two parallel paths, if there are two: each time the
/// shorter of two pairs, which stands inside more paths.
fn any_rules(random: &mut Random, schema: &Schema, most: usize) -> Vec<Equation> {
    let pairs = parallel_pairs(schema);
    let length = |(p, q): &(Path, Path)| p.edges.len() + q.edges.len();
    let rule = |_| {
        let two = [random.any_of(&pairs)?, random.any_of(&pairs)?];
        let (left, right) = two.into_iter().min_by_key(length)?;
        Some(Equation { left, right })
    };
    (0..most).filter_map(rule).collect()
}

/// The schema with these equations, as many as there may be, in any order and
/// either way round, sometimes with some that come twice or change nothing.
fn with_rules(random: &mut Random, mut schema: Schema, mut rules: Vec<Equation>) -> Schema {
    if random.once_in(3) {
        let paths = all_paths(&schema);
        for _ in 0..random.below(4) {
            let same = random.one_of(&paths).clone();
            rules.push(Equation { left: same.clone(), right: same });
            rules.extend(random.any_of(&rules));
        }
    }
    rules.truncate(Schema::MOST_EQUATIONS);
    for mut rule in random.shuffled(rules) {
        if random.once_in(2) {
            std::mem::swap(&mut rule.left, &mut rule.right);
        }
        schema.equations.push(rule);
    }
    schema
}

/// Two paths of a schema: most are equal by some steps, if there are two such;
/// some are one path twice, or have one start and one end, or are any two.
fn two_paths(random: &mut Random, schema: &Schema) -> (Path, Path) {
    let paths = all_paths(schema);
    let from = random.one_of(&paths).max(random.one_of(&paths)).clone();
    let to = match random.below(10) {
        0 => from.clone(),
        1 => random.one_of(&paths).clone(),
        2 | 3 => {
            let ends = |p: &Path| (p.start, p.end(schema));
            let parallel: Vec<&Path> = paths.iter().filter(|p| ends(p) == ends(&from)).collect();
            (*random.one_of(&parallel)).clone()
        }
        _ => {
            let changes = |p: &&Path| p.steps(schema).iter().any(|(_, next)| next != *p);
            let changed: Vec<&Path> = paths.iter().filter(changes).collect();
            let from = random.any_of(&changed).map_or(from, Path::clone);
            let most = *random.one_of(&[1, 2, 4, 10, 40, 255, 255]);
            let to = walked(random, schema, &from, most);
            return (from, to);
        }
    };
    (from, to)
}

/// The path that so many steps by chance lead to, fewer where each further step
/// leads back to a path that was met.
fn walked(random: &mut Random, schema: &Schema, from: &Path, steps: usize) -> Path {
    let mut met = vec![from.clone()];
    for _ in 0..steps {
        let here = met[met.len() - 1].steps(schema).into_iter().map(|(_, next)| next);
        let new: Vec<Path> = here.filter(|next| !met.contains(next)).collect();
        let Some(next) = random.any_of(&new) else { break };
        met.push(next);
    }
    met.swap_remove(met.len() - 1)
}
