//! "The three migrations": Delta, Sigma and Pi on accepted schemas, mappings
//! and instances.

use crate::classes::Classes;
use crate::evenness::Lifting;
use crate::families::{Arrow, Diagram};
use crate::instance::Instance;
use crate::mapping::Mapping;
use crate::paths::Path;
use crate::refusal::{demand, Judged, OVERFULL, UNEVEN, UNPAIRED, WIDE};
use crate::schema::Schema;
use std::collections::BTreeSet;

/// "Delta: the table at node c of S is the T-instance's table at F(c), rows in
/// the same order; an edge follows its image path; an attribute copies its
/// image's column."  Gives 15.
pub fn delta(s: &Schema, f: &Mapping, j: &Instance) -> Judged<Instance> {
    let rows: Vec<usize> = f.nodes.iter().map(|&d| j.rows[d]).collect();
    let link = |e: usize| {
        let image = f.edge_image(s, e);
        (0..j.rows[image.start]).map(|row| j.follow(&image, row)).collect()
    };
    let links = (0..s.edges.len()).map(link).collect();
    let values = f.attributes.iter().map(|&b| j.values[b].clone()).collect();
    Instance { rows, links, values }.unless_overfull()
}

/// "Sigma: the table at d is the joined list of the tables at all c with F(c) =
/// d, c ascending, rows in order."  Gives 12 and 15.
pub fn sigma(s: &Schema, t: &Schema, f: &Mapping, i: &Instance) -> Judged<Instance> {
    Pushing::along(s, t, f)?.of(i)
}

/// Sigma along an even mapping, before an instance is lent.
pub struct Pushing<'a> {
    s: &'a Schema,
    t: &'a Schema,
    f: &'a Mapping,
    lifting: Lifting<'a>,
}

impl<'a> Pushing<'a> {
    /// Sigma along an accepted mapping between accepted schemas.  Gives 12.
    pub fn along(s: &'a Schema, t: &'a Schema, f: &'a Mapping) -> Judged<Self> {
        let lifting = Lifting::new(s, t, f);
        demand(lifting.is_even(), UNEVEN)?;
        Ok(Pushing { s, t, f, lifting })
    }

    /// Sigma of an instance I of S.  Gives 15.
    pub fn of(&self, i: &Instance) -> Judged<Instance> {
        let size = |d: usize| self.f.fibre(d).iter().map(|&c| i.rows[c]).sum();
        let rows = (0..self.t.nodes).map(size).collect();
        let links = (0..self.t.edges.len()).map(|e| self.link(i, e)).collect();
        let values = (0..self.t.attributes.len()).map(|b| self.column(i, b)).collect();
        Instance { rows, links, values }.unless_overfull()
    }

    /// "A link follows the one path over its edge, and its target is numbered
    /// by its place in the joined list."
    fn link(&self, i: &Instance, edge: usize) -> Vec<usize> {
        let mut targets = Vec::new();
        for c in self.f.fibre(self.t.edges[edge].source) {
            let path = self.lifting.edge_lift(c, edge);
            let end = path.end(self.s).expect("a lift joins up");
            let first = self.first_place(i, end);
            targets.extend((0..i.rows[c]).map(|row| first + i.follow(path, row)));
        }
        targets
    }

    /// The place of the first row from c in the joined list at F(c).
    fn first_place(&self, i: &Instance, c: usize) -> usize {
        let fibre = self.f.fibre(self.f.nodes[c]).into_iter();
        fibre.filter(|&before| before < c).map(|before| i.rows[before]).sum()
    }

    /// "An attribute copies, for the rows from c, the one column at c over it."
    fn column(&self, i: &Instance, attribute: usize) -> Vec<u32> {
        let fibre = self.f.fibre(self.t.attributes[attribute].node).into_iter();
        fibre.flat_map(|c| i.values[self.lifting.column_lift(c, attribute)].clone()).collect()
    }
}

/// "a table has more than 64 components" is refused.
pub const MOST_COMPONENTS: usize = 64;

/// "A row is one row of I(c) per component"; see [`crate::families`].  Gives
/// 13, 14 and 15, the 14 of any table before the 15 of any.
pub fn pi(s: &Schema, t: &Schema, f: &Mapping, i: &Instance) -> Judged<Instance> {
    Gathering::along(s, t, f)?.of(i)
}

/// "a component at d is a node c with a class of equal paths from d to F(c),
/// ordered by c and then by the class's first path".  That path stands for the
/// class.
#[derive(Debug, Clone, Copy, PartialEq, Eq, PartialOrd, Ord)]
struct Component<'a> {
    node: usize,
    first: &'a Path,
}

/// The families of one table: each has one row per component.
type Families = Vec<Vec<usize>>;

/// Pi along a mapping that Pi takes, before an instance is lent.
pub struct Gathering<'a> {
    s: &'a Schema,
    t: &'a Schema,
    f: &'a Mapping,
    classes: Classes,
}

impl<'a> Gathering<'a> {
    /// Pi along an accepted mapping between accepted schemas.  Gives 13 and 14.
    pub fn along(s: &'a Schema, t: &'a Schema, f: &'a Mapping) -> Judged<Self> {
        demand(f.pairs_attributes(t), UNPAIRED)?;
        let gathering = Gathering { s, t, f, classes: Classes::of(t) };
        let is_wide = |table: &Vec<Component>| table.len() > MOST_COMPONENTS;
        demand(!gathering.tables().iter().any(is_wide), WIDE)?;
        Ok(gathering)
    }

    /// Pi of an instance I of S.  Gives 15.
    pub fn of(&self, i: &Instance) -> Judged<Instance> {
        let tables = self.tables();
        let families = self.families(i, &tables)?;
        let rows = families.iter().map(Vec::len).collect();
        let edges = 0..self.t.edges.len();
        let links = edges.map(|e| self.link(e, &tables, &families)).collect();
        let columns = 0..self.t.attributes.len();
        let values = columns.map(|b| self.column(i, b, &tables, &families)).collect();
        Ok(Instance { rows, links, values })
    }

    /// The components of each table.
    fn tables(&self) -> Vec<Vec<Component<'_>>> {
        (0..self.t.nodes).map(|d| self.components(d)).collect()
    }

    /// The components at d, in order.
    fn components(&self, d: usize) -> Vec<Component<'_>> {
        let mut components = Vec::new();
        for node in 0..self.s.nodes {
            let ends_here = |g: &&Path| g.end(self.t) == Some(self.f.nodes[node]);
            let paths = self.classes.from(d).filter(ends_here);
            let firsts: BTreeSet<&Path> = paths.map(|g| self.classes.first(g)).collect();
            components.extend(firsts.into_iter().map(|first| Component { node, first }));
        }
        components
    }

    /// The families of all tables; 15 as soon as they are more than 512.
    fn families(&self, i: &Instance, tables: &[Vec<Component>]) -> Judged<Vec<Families>> {
        let mut families = Vec::new();
        let mut free = Instance::MOST_ROWS;
        for table in tables {
            let found = self.diagram(i, table).families(free).ok_or(OVERFULL)?;
            free -= found.len();
            families.push(found);
        }
        Ok(families)
    }

    /// The components of one table and the S-edges between them.
    fn diagram(&self, i: &Instance, table: &[Component]) -> Diagram {
        let sizes = table.iter().map(|component| i.rows[component.node]).collect();
        let mut arrows = Vec::new();
        for (from, component) in table.iter().enumerate() {
            for edge in self.s.edges_from(component.node) {
                let to = place(table, self.carried(*component, edge));
                arrows.push(Arrow { from, to, carry: i.links[edge].clone() });
            }
        }
        Diagram { sizes, arrows }
    }

    /// For the component (c, g) and an S-edge from c to c', the component
    /// "(c', g followed by the edge's image)".
    fn carried(&self, component: Component, edge: usize) -> Component<'_> {
        let image = self.f.edge_image(self.s, edge);
        let path = component.first.followed_by(&image);
        Component { node: self.s.edges[edge].target, first: self.classes.first(&path) }
    }

    /// "A link along e takes component (c, g) from (c, e followed by g)."
    fn link(&self, e: usize, tables: &[Vec<Component>], families: &[Families]) -> Vec<usize> {
        let edge = self.t.edges[e];
        let after_e = |component: &Component| {
            let path = Path::along(self.t, e).followed_by(component.first);
            Component { node: component.node, first: self.classes.first(&path) }
        };
        let sources = tables[edge.target].iter().map(after_e);
        let places: Vec<usize> = sources.map(|c| place(&tables[edge.source], c)).collect();
        let target = |family: &Vec<usize>| {
            let taken: Vec<usize> = places.iter().map(|&k| family[k]).collect();
            place(&families[edge.target], taken)
        };
        families[edge.source].iter().map(target).collect()
    }

    /// "An attribute is read at the component with its S-node and the trivial
    /// path."
    fn column(
        &self,
        i: &Instance,
        b: usize,
        tables: &[Vec<Component>],
        families: &[Families],
    ) -> Vec<u32> {
        let d = self.t.attributes[b].node;
        let over = self.f.attributes_over(b);
        let a = *over.first().expect("a bijection has an attribute over each");
        let first = self.classes.first(&Path::trivial(d));
        let k = place(&tables[d], Component { node: self.s.attributes[a].node, first });
        families[d].iter().map(|family| i.values[a][family[k]]).collect()
    }
}

/// The place of something that stands in an ordered list.
fn place<T: Ord>(list: &[T], wanted: T) -> usize {
    list.binary_search(&wanted).expect("it stands in the list by construction")
}
