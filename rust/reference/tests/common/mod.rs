//! What several test programs share, beside the base example and the short ways
//! to write sheets down of the crate `vectors`.

#![allow(dead_code, unused_imports)]

mod compositions;
mod trays;

pub use compositions::*;
use reference::paths::all_paths;
use reference::plain::*;
use reference::{first_path, path_chain, Refusal};
pub use trays::*;
pub use vectors::base::*;
pub use vectors::build::*;
use vectors::random::Random;

/// A refusal as a result.
pub fn refused<T>(number: u8, place: u8) -> Result<T, Refusal> {
    Err(Refusal { number, place })
}

/// The instance in an accepted sheet.
pub fn decoded(schema: &Schema, sheet: &[u8]) -> Instance {
    Instance::accept(schema, sheet).expect("an accepted instance")
}

/// Sheets, each after its 16-bit byte length.
pub fn input(sheets: &[Vec<u8>]) -> Vec<u8> {
    let with_length =
        |sheet: &Vec<u8>| [(sheet.len() as u16).to_be_bytes().to_vec(), sheet.clone()].concat();
    sheets.iter().flat_map(with_length).collect()
}

/// Flips a bit, drops the last byte or adds one.
pub fn damage(random: &mut Random, sheet: &mut Vec<u8>) {
    match random.below(6) {
        0 => sheet.push(random.bits() as u8),
        1 => drop(sheet.pop()),
        _ if sheet.is_empty() => {}
        _ => {
            let bit = random.below(8 * sheet.len());
            sheet[bit / 8] ^= 0x80 >> (bit % 8);
        }
    }
}

/// All lists with a partner for each row of `a` in `b`; none if they are more
/// than `most`.
pub fn all_lists(a: &Instance, b: &Instance, most: usize) -> Option<Vec<Matching>> {
    let mut lists = vec![vec![]];
    for (&rows, &partners) in a.rows.iter().zip(&b.rows) {
        for _ in 0..rows {
            let longer = |list: &Vec<usize>| {
                let list = list.clone();
                (0..partners).map(move |row| [list.clone(), vec![row]].concat())
            };
            lists = lists.iter().flat_map(longer).collect();
            if lists.len() > most {
                return None;
            }
        }
    }
    Some(lists.into_iter().map(|list| by_tables(a, list)).collect())
}

/// A list of partners, parted by the tables of `a`.
fn by_tables(a: &Instance, list: Vec<usize>) -> Matching {
    let mut rest = list.into_iter();
    let partners = a.rows.iter().map(|&rows| rest.by_ref().take(rows).collect()).collect();
    Matching { partners }
}

/// The first path equal to `p`, as the call gives it on the sheets of both.
pub fn first(s: &Schema, p: &Path) -> Path {
    let sheet = first_path(&s.to_sheet(), &p.to_sheet()).expect("accepted sheets");
    Path::accept(s, &sheet).expect("a path sheet")
}

/// A step of a chain as it is written: equation, direction, edges before.
pub type Numbers = [usize; 3];

/// The call on the sheets of a schema and two paths.
pub fn chain(s: &Schema, p: &Path, q: &Path) -> Result<Option<Vec<u8>>, Refusal> {
    path_chain(&s.to_sheet(), &p.to_sheet(), &q.to_sheet())
}

/// The written chain, put together from a text of bits.
pub fn written(steps: &[Numbers]) -> Vec<u8> {
    let mut bits = format!("{:08b}", steps.len());
    for [equation, direction, before] in steps {
        bits += &format!("{equation:05b}{direction:01b}{before:04b}");
    }
    bytes(bits)
}

/// The bytes of a text of bits, the last one filled with 0 bits.
pub fn bytes(mut bits: String) -> Vec<u8> {
    while !bits.len().is_multiple_of(8) {
        bits.push('0');
    }
    let byte = |at: usize| u8::from_str_radix(&bits[at..at + 8], 2).unwrap();
    (0..bits.len()).step_by(8).map(byte).collect()
}

/// One of all paths, rather a longer one.
pub fn any_path(random: &mut Random, schema: &Schema) -> Path {
    let paths = all_paths(schema);
    let [one, other, third] = [(); 3].map(|_| random.one_of(&paths));
    one.max(other).max(third).clone()
}

/// A small schema without loops, its nodes in any order.  Equations may have
/// trivial or identical sides, or come twice.
pub fn any_schema(random: &mut Random) -> Schema {
    let count = 2 + random.below(3);
    let nodes: Vec<usize> = random.shuffled((0..count).collect());
    let edge = |_| {
        let target = 1 + random.below(nodes.len() - 1);
        (nodes[random.below(target)], nodes[target])
    };
    let edges: Vec<(usize, usize)> = (0..8).map(edge).collect();
    let mut schema = graph(nodes.len(), &edges[..2 + random.below(7)]);
    for _ in 0..random.below(9) {
        let left = any_path(random, &schema);
        let right = random.one_of(&alongside(&schema, &left)).clone();
        schema.equations.push(Equation { left, right });
    }
    schema
}

/// The paths with the start and the end of `p`, itself among them.
pub fn alongside(schema: &Schema, p: &Path) -> Vec<Path> {
    let ends = |q: &Path| (q.start, q.end(schema));
    all_paths(schema).into_iter().filter(|q| ends(q) == ends(p)).collect()
}
