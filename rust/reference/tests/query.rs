//! Request C-15 of document 02, "The dig sheet": an example worked by hand, the
//! order of refusals, the three migrations one after the other, and the program.

mod common;

use common::*;
use reference::paths::all_paths;
use reference::plain::*;
use reference::*;
use vectors::even::even_mapping;
use vectors::instances::instance as any_instance;
use vectors::mappings::{mapping as any_mapping, Mapped};
use vectors::random::Random;

/// The four schemas, F, G, H and the run.
type Sheets = [Vec<u8>; 8];

/// The call on eight sheets.
fn asked(sheets: &Sheets) -> Result<Vec<u8>, Refusal> {
    let [s1, s2, s3, s4, f, g, h, run] = sheets;
    query(s1, s2, s3, s4, f, g, h, run)
}

/// The sheets of decoded schemas, mappings and run.
fn sheets(schemas: [&Schema; 4], mappings: [&Mapping; 3], run: &Instance) -> Sheets {
    let [s1, s2, s3, s4] = schemas.map(Schema::to_sheet);
    let [f, g, h] = mappings.map(Mapping::to_sheet);
    [s1, s2, s3, s4, f, g, h, run.to_sheet()]
}

/// A schema with columns, each with its node and its kind.
fn with_columns(schema: Schema, columns: &[(usize, usize)]) -> Schema {
    let attributes = columns.iter().map(|&(node, kind)| Attribute { node, kind }).collect();
    Schema { attributes, ..schema }
}

/// Dents and losses on joints that have a weld, with each such weld.
///
/// First schema: Joint 0, Dent 1, Loss 2, Weld 3; dents, losses and welds have
/// links to their joints.  The second has Dent 0, Loss 1, Joint 2 and the welds
/// twice, 3 for dents and 4 for losses, but no depths.  The third has a table 0
/// of dents with welds, a table 1 of losses with welds, both with links to Joint
/// 2.  The fourth has one table 0 for both, with a link to Joint 1.
fn worked_example() -> Sheets {
    let (station, depth, wall, identifier) = (1, 3, 6, 13);
    let s1 = with_columns(
        graph(4, &[(1, 0), (2, 0), (3, 0)]),
        &[(1, station), (1, depth), (2, station), (3, identifier), (0, wall)],
    );
    let s2 = with_columns(
        graph(5, &[(0, 2), (1, 2), (3, 2), (4, 2)]),
        &[(0, station), (1, station), (3, identifier), (4, identifier), (2, wall)],
    );
    let s3 = with_columns(
        graph(3, &[(0, 2), (1, 2)]),
        &[(0, station), (0, identifier), (1, station), (1, identifier), (2, wall)],
    );
    let s4 = with_columns(graph(2, &[(0, 1)]), &[(0, station), (0, identifier), (1, wall)]);
    let mut f = mapping(&[1, 2, 0, 3, 3], &[&[0], &[1], &[2], &[2]]);
    f.attributes = vec![0, 2, 3, 3, 4];
    let mut g = mapping(&[0, 1, 2, 0, 1], &[&[0], &[1], &[0], &[1]]);
    g.attributes = vec![0, 2, 1, 3, 4];
    let mut h = mapping(&[0, 0, 1], &[&[0], &[0]]);
    h.attributes = vec![0, 1, 0, 1, 2];
    sheets([&s1, &s2, &s3, &s4], [&f, &g, &h], &worked_run())
}

/// Three joints; dents at joints 1, 0, 1; losses at joints 1, 2; welds at joints
/// 1, 0, 1, 2.
fn worked_run() -> Instance {
    let mut run = instance(&[3, 3, 2, 4], &[&[1, 0, 1], &[1, 2], &[1, 0, 1, 2]]);
    run.values = vec![
        vec![700, 300, 500],
        vec![20, 35, 50],
        vec![705, 310],
        vec![41, 42, 43, 44],
        vec![800, 810, 820],
    ];
    run
}

/// The result of the worked example, by hand.  Dents with welds, as dent, joint
/// and weld: 0 1 0, 0 1 2, 1 0 1, 2 1 0, 2 1 2.  Losses with welds: 0 1 0, 0 1 2,
/// 1 2 3.
fn worked_result() -> Instance {
    Instance {
        rows: vec![8, 3],
        links: vec![vec![1, 1, 0, 1, 1, 1, 1, 2]],
        values: vec![
            vec![700, 700, 300, 500, 500, 705, 705, 310],
            vec![41, 43, 42, 41, 43, 41, 43, 44],
            vec![800, 810, 820],
        ],
    }
}

const WORKED_TEXT: &str = "tables 2 rows 11\n\
    0 0 1 700 41\n\
    0 1 1 700 43\n\
    0 2 0 300 42\n\
    0 3 1 500 41\n\
    0 4 1 500 43\n\
    0 5 1 705 41\n\
    0 6 1 705 43\n\
    0 7 2 310 44\n\
    1 0 800\n\
    1 1 810\n\
    1 2 820\n";

/// The program's text for its whole input.
fn text(input: &[u8]) -> String {
    String::from_utf8(dig(input)).unwrap()
}

#[test]
fn the_worked_example_projects_joins_and_unites() {
    assert_eq!(asked(&worked_example()), Ok(worked_result().to_sheet()));
}

#[test]
fn the_program_prints_the_worked_example_s_rows() {
    assert_eq!(text(&input(&worked_example())), WORKED_TEXT);
}

#[test]
fn bytes_after_the_eighth_sheet_are_not_read() {
    let longer = [input(&worked_example()), vec![0, 9, 1]].concat();
    assert_eq!(text(&longer), WORKED_TEXT);
}

#[test]
fn each_shorter_input_lacks_a_sheet_s_bytes() {
    // Sheets of 11, 12, 10, 7, 10, 10, 7 and 76 bytes, each after its length.
    let whole = input(&worked_example());
    assert_eq!(whole.len(), 159);
    for length in 0..whole.len() {
        let place = match length {
            0..13 => 1,
            13..27 => 2,
            27..39 => 3,
            39..48 => 4,
            48..60 => 5,
            60..72 => 6,
            72..81 => 7,
            _ => 8,
        };
        assert_eq!(text(&whole[..length]), format!("refused 1 {place}\n"), "{length} bytes");
    }
}

#[test]
fn of_two_damaged_sheets_the_one_with_the_lower_place_is_refused() {
    // The one has a byte too many, the other one too few.
    for first in 0..8 {
        for second in first + 1..8 {
            let mut damaged = worked_example();
            damaged[first].push(0);
            damaged[second].pop();
            assert_eq!(asked(&damaged), refused(2, first as u8 + 1));
            assert_eq!(text(&input(&damaged)), format!("refused 2 {}\n", first + 1));
        }
    }
}

#[test]
fn schemas_are_judged_before_mappings() {
    // The fourth schema has a loop, and F sends its first node to none.
    let [s1, s2, s3, _, mut f, g, h, run] = worked_example();
    let ring = graph(2, &[(0, 1), (1, 0)]).to_sheet();
    f[0] |= 0xF0;
    let both = [s1, s2, s3, ring, f, g, h, run];
    assert_eq!(asked(&both), refused(5, 4));
    let mut only_f = both;
    only_f[3] = worked_example()[3].clone();
    assert_eq!(asked(&only_f), refused(7, 5));
}

#[test]
fn mappings_are_judged_before_the_run() {
    for place in 5..8 {
        let mut damaged = worked_example();
        damaged[place - 1][0] |= 0xF0;
        damaged[7] = vec![];
        assert_eq!(asked(&damaged), refused(7, place as u8));
    }
}

#[test]
fn each_mapping_is_judged_between_its_own_two_schemas() {
    // Each schema has or lacks the rule that its two edges are equal.
    let free = graph(2, &[(0, 1), (0, 1)]);
    let ruled = Schema { equations: vec![equation(0, &[0], &[1])], ..free.clone() };
    let same = identity(&free);
    let run = instance(&[0, 0], &[&[], &[]]);
    for number in 0..16 {
        let has_rule = [0, 1, 2, 3].map(|bit| number >> bit & 1 == 1);
        let schemas = has_rule.map(|has| if has { &ruled } else { &free });
        let expected = match has_rule {
            [false, true, _, _] => refused(8, 5),
            [_, true, false, _] => refused(8, 6),
            [_, _, true, false] => refused(8, 7),
            // The two edges of the third schema lie over one class.
            [_, _, false, true] => refused(12, 0),
            _ => Ok(vec![0; 3]),
        };
        assert_eq!(asked(&sheets(schemas, [&same; 3], &run)), expected, "{has_rule:?}");
    }
}

#[test]
fn the_run_is_judged_over_the_first_schema_and_before_13() {
    let mut s1 = with_columns(graph(2, &[(0, 1), (0, 1)]), &[(0, 2)]);
    s1.equations.push(equation(0, &[0], &[1]));
    let (bare, f) = (graph(1, &[]), mapping(&[0], &[]));
    let column = with_columns(bare.clone(), &[(0, 0)]);
    let run = |rows: usize, links: [usize; 2], value: u32| {
        let mut run = instance(&[1, rows], &[&[links[0]], &[links[1]]]);
        run.values = vec![vec![value]];
        run.to_sheet()
    };
    let good = run(2, [1, 1], 720);
    let faults = [
        (1, good[..good.len() - 1].to_vec()),
        (2, [good.clone(), vec![0]].concat()),
        (3, run(512, [2, 0], 721)),
        (9, run(2, [2, 0], 721)),
        (10, run(2, [1, 0], 721)),
        (10, run(2, [1, 0], 0)),
        (11, run(2, [1, 0], 720)),
    ];
    // Table 0 of the run alone is carried over.
    let accepted = Ok(instance(&[1], &[]).to_sheet());
    for (s3, expected) in [(&bare, accepted), (&column, refused(13, 0))] {
        let h = identity(s3);
        let mut all = sheets([&s1, &bare, s3, s3], [&f, &f, &h], &worked_run());
        all[7] = good.clone();
        assert_eq!(asked(&all), expected);
        for (number, run) in &faults {
            all[7] = run.clone();
            assert_eq!(asked(&all), refused(*number, 8));
        }
    }
}

/// Two copies of a table, and Pi along a chain of doubled edges.  `unpaired` is a
/// column of the third schema alone, `wide` puts both copies at the chain's end,
/// `uneven` is a column of the fourth schema alone.
fn faulty(unpaired: bool, wide: bool, uneven: bool, rows: usize) -> Sheets {
    let (s1, s2) = (graph(1, &[]), graph(2, &[]));
    let mut s3 = doubled_chain(7);
    if unpaired {
        s3.attributes.push(Attribute { node: 0, kind: 0 });
    }
    let mut s4 = s3.clone();
    if uneven {
        s4.attributes.push(Attribute { node: 0, kind: 0 });
    }
    let f = mapping(&[0, 0], &[]);
    let g = if wide { mapping(&[6, 6], &[]) } else { mapping(&[0, 0], &[]) };
    sheets([&s1, &s2, &s3, &s4], [&f, &g, &identity(&s3)], &instance(&[rows], &[]))
}

#[test]
fn of_several_faults_13_comes_first_then_14_then_12_then_15() {
    for number in 0..8 {
        let [unpaired, wide, uneven] = [0, 1, 2].map(|bit| number >> bit & 1 == 1);
        // Delta has 4, 46 or 514 rows; Pi along the narrow G has 10, 535 or more.
        for rows in [2, 23, 257] {
            let expected = match (unpaired, wide, uneven, rows) {
                (true, _, _, _) => refused(13, 0),
                (_, true, _, _) => refused(14, 0),
                (_, _, true, _) => refused(12, 0),
                (_, _, _, 2) => Ok(pairs_on_a_chain().to_sheet()),
                _ => refused(15, 0),
            };
            let asked = asked(&faulty(unpaired, wide, uneven, rows));
            assert_eq!(asked, expected, "{unpaired} {wide} {uneven} {rows}");
        }
    }
}

/// Four pairs in the chain's first table, and the one row of each table without
/// components.
fn pairs_on_a_chain() -> Instance {
    let mut links: [&[usize]; 12] = [&[0]; 12];
    links[0] = &[0; 4];
    links[1] = &[0; 4];
    instance(&[4, 1, 1, 1, 1, 1, 1], &links)
}

#[test]
fn the_projected_and_the_joined_instance_may_each_have_512_rows() {
    // Three copies, two of table 0 and one of table 1, joined in one table.
    let (s1, s2, one) = (graph(2, &[]), graph(3, &[]), graph(1, &[]));
    let (f, g, h) = (mapping(&[0, 0, 1], &[]), mapping(&[0, 0, 0], &[]), identity(&one));
    let joined = |rows: [usize; 2]| {
        asked(&sheets([&s1, &s2, &one, &one], [&f, &g, &h], &instance(&rows, &[])))
    };
    let rows = |count: usize| Ok(instance(&[count], &[]).to_sheet());
    // Without rows in table 1 there is nothing to join, however many in table 0.
    assert_eq!(joined([256, 0]), rows(0));
    assert_eq!(joined([257, 0]), refused(15, 0));
    assert_eq!(joined([0, 512]), rows(0));
    assert_eq!(joined([16, 2]), rows(512));
    assert_eq!(joined([16, 3]), refused(15, 0));
    assert_eq!(joined([22, 1]), rows(484));
    assert_eq!(joined([23, 1]), refused(15, 0));
}

#[test]
fn a_tray_too_small_is_refused_last() {
    // 20 bits of counts, 8 links of 9 bits and 19 values of 32.
    let mut tray = [0xEE; 90];
    assert_eq!(into_tray(asked(&worked_example()), &mut tray[..87]), refused(16, 0));
    assert_eq!(tray, [0xEE; 90]);
    assert_eq!(into_tray(asked(&faulty(false, false, false, 23)), &mut []), refused(15, 0));
    assert_eq!(into_tray(asked(&worked_example()), &mut tray), Ok(88));
    assert_eq!(tray[..88].to_vec(), worked_result().to_sheet());
    assert_eq!(tray[88..], [0xEE; 2]);
}

/// "the three definitions applied one after the other", each by its own call.
fn applied(sheets: &Sheets) -> Result<Vec<u8>, Refusal> {
    let [s1, s2, s3, s4, f, g, h, run] = sheets;
    let projected = delta(s2, s1, f, run)?;
    let joined = pi(s2, s3, g, &projected)?;
    sigma(s3, s4, h, &joined)
}

/// The judgements before the first migration, from the calls for one sheet, and
/// from Pi and Sigma of instances without rows.
fn judged(sheets: &Sheets) -> Result<(), Refusal> {
    let [s1, s2, s3, s4, f, g, h, run] = sheets;
    let at = |place| move |refusal: Refusal| Refusal { place, ..refusal };
    for (place, schema) in (1..).zip([s1, s2, s3, s4]) {
        check_schema(schema).map_err(at(place))?;
    }
    check_mapping(s2, s1, f).map_err(at(5))?;
    check_mapping(s2, s3, g).map_err(at(6))?;
    check_mapping(s3, s4, h).map_err(at(7))?;
    check_instance(s1, run).map_err(at(8))?;
    pi(s2, s3, g, &without_rows(s2))?;
    sigma(s3, s4, h, &without_rows(s3)).map(|_| ())
}

/// The instance without rows over an accepted schema.
fn without_rows(schema: &[u8]) -> Vec<u8> {
    let tables = Schema::accept(schema).unwrap().nodes;
    instance(&vec![0; tables], &[]).to_sheet()
}

/// What the call gives, which is what the single calls give one after the other.
fn compared(sheets: &Sheets) -> Result<Vec<u8>, Refusal> {
    let asked = asked(sheets);
    assert_eq!(asked.clone().ok(), applied(sheets).ok());
    assert_eq!(asked, judged(sheets).and_then(|()| applied(sheets)));
    asked
}

/// A second schema with mappings F and G to the first and the third, as it grows.
struct Span {
    s1: Schema,
    s2: Schema,
    s3: Schema,
    f: Mapping,
    g: Mapping,
}

impl Span {
    /// A span with one node.
    fn new(random: &mut Random, s1: Schema, s3: Schema) -> Self {
        let f = mapping(&[random.below(s1.nodes)], &[]);
        let g = mapping(&[random.below(s3.nodes)], &[]);
        Span { s1, s2: graph(1, &[]), s3, f, g }
    }

    /// Adds a node with the given images.
    fn add_node(&mut self, images: (usize, usize)) -> usize {
        self.f.nodes.push(images.0);
        self.g.nodes.push(images.1);
        self.s2.nodes += 1;
        self.s2.nodes - 1
    }

    /// Adds an edge over some path of both sides, to a later node: one that is
    /// there already, or a new one.
    fn add_edge(&mut self, random: &mut Random) {
        let source = random.below(self.s2.nodes);
        let p = any_path_from(random, &self.s1, self.f.nodes[source]);
        let q = any_path_from(random, &self.s3, self.g.nodes[source]);
        let ends = (p.end(&self.s1).unwrap(), q.end(&self.s3).unwrap());
        let lies_over = |c: &usize| (self.f.nodes[*c], self.g.nodes[*c]) == ends;
        let there = (source + 1..self.s2.nodes).find(lies_over);
        let target = there.unwrap_or_else(|| self.add_node(ends));
        self.s2.edges.push(Edge { source, target });
        self.f.edges.push(p.edges);
        self.g.edges.push(q.edges);
    }

    /// Adds an equation of two paths, where both sides' images are equal.
    fn add_equation(&mut self, random: &mut Random) {
        let left = any_path(random, &self.s2);
        let right = random.one_of(&alongside(&self.s2, &left)).clone();
        let images = |p: &Path| {
            (first(&self.s1, &self.f.path_image(p)), first(&self.s3, &self.g.path_image(p)))
        };
        if images(&left) == images(&right) {
            self.s2.equations.push(Equation { left, right });
        }
    }

    /// Adds the one column over the third schema's attribute `b`, with a node or
    /// a column of the first schema where there is none.
    fn add_column(&mut self, random: &mut Random, b: usize) {
        let Attribute { node, kind } = self.s3.attributes[b];
        if self.g.fibre(node).is_empty() {
            let image = random.below(self.s1.nodes);
            self.add_node((image, node));
        }
        let c = *random.one_of(&self.g.fibre(node));
        let wanted = Attribute { node: self.f.nodes[c], kind };
        if !self.s1.attributes.contains(&wanted) {
            self.s1.attributes.push(wanted);
        }
        let column = self.s1.attributes.iter().position(|a| *a == wanted).unwrap();
        self.s2.attributes.push(Attribute { node: c, kind });
        self.f.attributes.push(column);
        self.g.attributes.push(b);
    }
}

/// One of the paths from a node.
fn any_path_from(random: &mut Random, schema: &Schema, node: usize) -> Path {
    let mut paths = all_paths(schema);
    paths.retain(|path| path.start == node);
    random.one_of(&paths).clone()
}

/// Accepted sheets.  H is even more often than not; now and then a column has
/// none over it, or there are many rows.
fn any_sheets(random: &mut Random) -> Sheets {
    let uneven = random.once_in(6);
    let mapped = if uneven { any_mapping(random, true) } else { even_mapping(random) };
    let Mapped { s: s3, t: s4, f: h } = mapped;
    let s1 = any_schema(random);
    let mut span = Span::new(random, s1, s3);
    for _ in 0..random.below(6) {
        span.add_edge(random);
    }
    for _ in 0..random.below(4) {
        span.add_equation(random);
    }
    for b in random.shuffled((0..span.s3.attributes.len()).collect()) {
        if !random.once_in(12) {
            span.add_column(random, b);
        }
    }
    let Span { s1, s2, s3, f, g } = span;
    let most_rows = if random.once_in(3) { 120 } else { 4 };
    let run = any_instance(random, &s1, most_rows);
    sheets([&s1, &s2, &s3, &s4], [&f, &g, &h], &run)
}

/// How many results have the given number of a refusal.
fn count(results: &[Result<Vec<u8>, Refusal>], number: u8) -> usize {
    let has_number =
        |result: &&Result<_, Refusal>| result.as_ref().is_err_and(|r| r.number == number);
    results.iter().filter(has_number).count()
}

#[test]
fn the_query_is_the_three_migrations_one_after_the_other() {
    let mut random = Random::seeded(31);
    let mut results = Vec::new();
    let mut linked = 0;
    for _ in 0..1500 {
        let sheets = any_sheets(&mut random);
        let result = compared(&sheets);
        if let Ok(result) = &result {
            let s4 = Schema::accept(&sheets[3]).unwrap();
            linked += usize::from(decoded(&s4, result).links.iter().any(|link| !link.is_empty()));
        }
        assert!(!result.as_ref().is_err_and(|refusal| refusal.place > 0));
        results.push(result);
    }
    let accepted = results.iter().filter(|result| result.is_ok()).count();
    let refused = [12, 13, 15].map(|number| count(&results, number));
    assert!(accepted > 300 && linked > 100, "{accepted} accepted, {linked} with links");
    assert!(refused.iter().all(|&count| count > 30), "{refused:?} refused by 12, 13, 15");
}

#[test]
fn damaged_sheets_are_judged_as_the_single_calls_judge_them() {
    let mut random = Random::seeded(32);
    let mut at_place = [0; 9];
    for _ in 0..1500 {
        let mut sheets = any_sheets(&mut random);
        for _ in 0..1 + random.below(2) {
            let place = random.below(8);
            damage(&mut random, &mut sheets[place]);
        }
        if let Err(refusal) = compared(&sheets) {
            at_place[usize::from(refusal.place)] += 1;
        }
    }
    assert!(at_place.iter().all(|&count| count > 20), "{at_place:?} refused at each place");
}

#[test]
fn the_program_prints_the_lines_of_the_push_program() {
    let mut random = Random::seeded(33);
    let mut lines = 0;
    for _ in 0..300 {
        let sheets = any_sheets(&mut random);
        let expected = match asked(&sheets) {
            // Sigma along the identity keeps the result as it is.
            Ok(result) => {
                let s4 = &sheets[3];
                let same = identity(&Schema::accept(s4).unwrap()).to_sheet();
                push(&input(&[s4.clone(), s4.clone(), same, result]))
            }
            Err(Refusal { number, place }) => format!("refused {number} {place}\n").into_bytes(),
        };
        assert_eq!(dig(&input(&sheets)), expected);
        lines += expected.iter().filter(|&&byte| byte == b'\n').count();
    }
    assert!(lines > 1000, "{lines} lines");
}
