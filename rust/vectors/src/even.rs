//! Accepted even mappings, by chance, and mappings that are even but for one
//! thing.
//!
//! A mapping at random is seldom even.  So S is made as the elements of an
//! instance K of T: a node for each row, an edge for each link, an attribute for
//! each value, and the equations of T at each row.

use crate::instances::instance;
use crate::mappings::Mapped;
use crate::random::Random;
use crate::schemas::{add_attributes, add_equations, graph, is_accepted, woven};
use reference::evenness::Lifting;
use reference::paths::all_paths;
use reference::plain::*;

/// An accepted even mapping.  Some edges of T equal longer paths and have no
/// edge of S over them; some edges of S lie over longer paths.
pub fn even_mapping(random: &mut Random) -> Mapped {
    let (plain, composites) = (random.once_in(4), random.once_in(2));
    loop {
        let mut t = if plain { graph(random, 3, 4) } else { woven(random, 5, 3) };
        add_attributes(random, &mut t, 2);
        let mut k = instance(random, &t, 4);
        let follows =
            |p: &Path| -> Vec<usize> { (0..k.rows[p.start]).map(|row| k.follow(p, row)).collect() };
        add_equations(random, &mut t, 3, |p, q| follows(p) == follows(q));
        let bare = if plain { None } else { add_composite(random, &mut t, &mut k) };
        if k.total_rows() == 0 || k.total_rows() > Schema::MOST_NODES || !is_accepted(&t) {
            continue;
        }
        let mut elements = Elements::over(random, t, &k, bare);
        if composites {
            elements.add_composites(random, &k);
        }
        if elements.mapped.is_accepted() {
            return elements.mapped;
        }
    }
}

/// An accepted even mapping of some schema to this one, if one is soon found.  Some edges
/// lie over longer paths.
pub fn even_mapping_to(random: &mut Random, t: &Schema) -> Option<Mapped> {
    for _ in 0..8 {
        let k = instance(random, t, 3);
        if k.total_rows() == 0 || k.total_rows() > Schema::MOST_NODES {
            continue;
        }
        let mut elements = Elements::over(random, t.clone(), &k, None);
        if random.once_in(2) {
            elements.add_composites(random, &k);
        }
        if elements.mapped.is_accepted() {
            return Some(elements.mapped);
        }
    }
    None
}

/// An accepted even mapping of one or two copies of a large schema to it.
pub fn copies(random: &mut Random) -> Mapped {
    loop {
        let mut t = woven(random, 14, 14);
        add_attributes(random, &mut t, 8);
        add_equations(random, &mut t, 6, |_, _| true);
        let count = 1 + random.below(2);
        let k = Instance {
            rows: vec![count; t.nodes],
            links: vec![(0..count).collect(); t.edges.len()],
            values: vec![vec![0; count]; t.attributes.len()],
        };
        if k.total_rows() > Schema::MOST_NODES || !is_accepted(&t) {
            continue;
        }
        let Elements { mapped, .. } = Elements::over(random, t, &k, None);
        if mapped.is_accepted() {
            return mapped;
        }
    }
}

/// Adds to T an edge that equals a longer path, and to K its links; the edge's
/// number.
fn add_composite(random: &mut Random, t: &mut Schema, k: &mut Instance) -> Option<usize> {
    let mut long = all_paths(t);
    long.retain(|q| q.edges.len() > 1);
    let right = random.any_of(&long)?;
    let target = right.end(t).expect("a path of T");
    k.links.push((0..k.rows[right.start]).map(|row| k.follow(&right, row)).collect());
    let left = Path { start: right.start, edges: vec![t.edges.len()] };
    t.edges.push(Edge { source: right.start, target });
    t.equations.push(Equation { left, right });
    Some(t.edges.len() - 1)
}

/// The elements of an instance K of T as a schema S over T.
struct Elements {
    mapped: Mapped,
    /// For each node of T, the node of S for each row of K.
    node: Vec<Vec<usize>>,
    /// For each edge of T, the edges of S that lift it at each row of K at its
    /// source: one, but where the edge has none over it.
    lifts: Vec<Vec<Vec<usize>>>,
}

impl Elements {
    /// The elements of K; the edge `bare` of T, which is the last and equals a
    /// longer path by T's last equation, has no edge over it.
    fn over(random: &mut Random, t: Schema, k: &Instance, bare: Option<usize>) -> Self {
        let mut numbers = random.shuffled((0..k.total_rows()).collect()).into_iter();
        let take = |&rows: &usize| numbers.by_ref().take(rows).collect();
        let node: Vec<Vec<usize>> = k.rows.iter().map(take).collect();
        let s =
            Schema { nodes: k.total_rows(), edges: vec![], attributes: vec![], equations: vec![] };
        let mut f = Mapping { nodes: vec![0; s.nodes], edges: vec![], attributes: vec![] };
        for (d, over_d) in node.iter().enumerate() {
            over_d.iter().for_each(|&c| f.nodes[c] = d);
        }
        let mut elements = Elements { mapped: Mapped { s, t, f }, node, lifts: vec![] };
        elements.add_edges(k, bare);
        elements.add_attributes();
        elements.add_equations(k);
        elements
    }

    /// An edge over each edge of T at each row of K.
    fn add_edges(&mut self, k: &Instance, bare: Option<usize>) {
        for e in 0..self.mapped.t.edges.len() {
            let edge = self.mapped.t.edges[e];
            let mut over_e = Vec::new();
            for row in 0..k.rows[edge.source] {
                let Mapped { s, t, f } = &mut self.mapped;
                if Some(e) == bare {
                    let longer = t.equations.last().expect("its equation").right.clone();
                    over_e.push(self.lift(k, &longer, row).edges);
                    continue;
                }
                over_e.push(vec![s.edges.len()]);
                let source = self.node[edge.source][row];
                let target = self.node[edge.target][k.links[e][row]];
                s.edges.push(Edge { source, target });
                f.edges.push(vec![e]);
            }
            self.lifts.push(over_e);
        }
    }

    /// An attribute over each attribute of T at each row of K.
    fn add_attributes(&mut self) {
        let Mapped { s, t, f } = &mut self.mapped;
        for (b, attribute) in t.attributes.iter().enumerate() {
            for &node in &self.node[attribute.node] {
                s.attributes.push(Attribute { node, kind: attribute.kind });
                f.attributes.push(b);
            }
        }
    }

    /// The lift of a path of T at a row of K.
    fn lift(&self, k: &Instance, q: &Path, row: usize) -> Path {
        let start = self.node[q.start][row];
        let mut edges = Vec::new();
        let mut at = row;
        for &e in &q.edges {
            edges.extend(&self.lifts[e][at]);
            at = k.links[e][at];
        }
        Path { start, edges }
    }

    /// The lifts of T's equations at each row of K.
    fn add_equations(&mut self, k: &Instance) {
        for equation in self.mapped.t.equations.clone() {
            for row in 0..k.rows[equation.left.start] {
                let left = self.lift(k, &equation.left, row);
                let right = self.lift(k, &equation.right, row);
                if left != right {
                    self.mapped.s.equations.push(Equation { left, right });
                }
            }
        }
    }

    /// Edges of S whose image is a longer path, each equal to the lift of its
    /// image.
    fn add_composites(&mut self, random: &mut Random, k: &Instance) {
        let mut long = all_paths(&self.mapped.t);
        long.retain(|q| q.edges.len() > 1 && k.rows[q.start] > 0);
        if long.is_empty() {
            return;
        }
        for _ in 0..random.below(3) {
            let q = random.one_of(&long).clone();
            let lift = self.lift(k, &q, random.below(k.rows[q.start]));
            let Mapped { s, f, .. } = &mut self.mapped;
            let target = lift.end(s).expect("a lift joins up");
            let edge = Edge { source: lift.start, target };
            let right = Path { start: lift.start, edges: vec![s.edges.len()] };
            s.edges.push(edge);
            f.edges.push(q.edges);
            s.equations.push(Equation { left: lift, right });
        }
    }
}

/// What makes a mapping uneven.
#[derive(Debug, Clone, Copy, PartialEq, Eq, PartialOrd, Ord)]
pub enum Unevenness {
    /// T has a column that no column of S lies over.
    ColumnWithoutLift,
    /// Two columns of one table of S lie over one column.
    ColumnWithTwoLifts,
    /// T has an edge that no path of S lies over.
    EdgeWithoutLift,
    /// Two unequal edges of S with one source lie over one edge.
    EdgeWithTwoLifts,
    /// An edge of S lies over a trivial path (case 4).
    TrivialPathWithTwoLifts,
    /// An edge of S lies over a longer path and does not equal that path's lift
    /// (case 5).
    LongPathWithTwoLifts,
    /// Two lifts were equal by an equation of S that is not there.
    EquationLeftOut,
}

impl Unevenness {
    /// All of them.
    pub const ALL: [Unevenness; 7] = [
        Unevenness::ColumnWithoutLift,
        Unevenness::ColumnWithTwoLifts,
        Unevenness::EdgeWithoutLift,
        Unevenness::EdgeWithTwoLifts,
        Unevenness::TrivialPathWithTwoLifts,
        Unevenness::LongPathWithTwoLifts,
        Unevenness::EquationLeftOut,
    ];
}

/// An accepted mapping that is not even, for one reason.
pub fn uneven_mapping(random: &mut Random, reason: Unevenness) -> Mapped {
    loop {
        let mut mapped = even_mapping(random);
        let changed = make_uneven(random, &mut mapped, reason).is_some();
        if changed && mapped.is_accepted() && !is_even(&mapped) {
            return mapped;
        }
    }
}

/// Whether an accepted mapping is even.
pub fn is_even(mapped: &Mapped) -> bool {
    Lifting::new(&mapped.s, &mapped.t, &mapped.f).is_even()
}

/// The change that makes an even mapping uneven; nothing where it cannot be
/// made.
fn make_uneven(random: &mut Random, mapped: &mut Mapped, reason: Unevenness) -> Option<()> {
    let Mapped { s, t, f } = mapped;
    let c = random.below(s.nodes);
    match reason {
        Unevenness::ColumnWithoutLift => {
            t.attributes.push(Attribute { node: f.nodes[c], kind: random.below(16) });
        }
        Unevenness::ColumnWithTwoLifts => {
            let a = random.any_in(0..s.attributes.len())?;
            s.attributes.push(s.attributes[a]);
            f.attributes.push(f.attributes[a]);
        }
        Unevenness::EdgeWithoutLift => {
            let e = random.any_of(&t.edges_from(f.nodes[c]))?;
            t.edges.push(t.edges[e]);
        }
        Unevenness::EdgeWithTwoLifts => {
            let e = random.any_of(&s.edges_from(c))?;
            s.edges.push(s.edges[e]);
            f.edges.push(f.edges[e].clone());
        }
        Unevenness::TrivialPathWithTwoLifts => {
            f.nodes.push(f.nodes[c]);
            s.edges.push(Edge { source: s.nodes, target: c });
            f.edges.push(vec![]);
            s.nodes += 1;
        }
        Unevenness::LongPathWithTwoLifts => {
            let mut long = all_paths(s);
            long.retain(|p| f.path_image(p).edges.len() > 1);
            let p = random.any_of(&long)?;
            s.edges.push(Edge { source: p.start, target: p.end(s)? });
            f.edges.push(f.path_image(&p).edges);
        }
        Unevenness::EquationLeftOut => {
            let left_out = random.any_in(0..s.equations.len())?;
            s.equations.remove(left_out);
        }
    }
    Some(())
}
