//! Each refusal number, their order, and damaged sheets.

mod common;

use common::*;
use reference::plain::*;
use reference::*;
use vectors::random::Random;

#[test]
fn every_shorter_base_sheet_is_cut() {
    let (s, t, f, run) = (base_s(), base_t(), base_f(), base_run());
    let pushed = list(&[2, 0, 1, 0, 1]);
    for cut in 0..s.len() {
        assert_eq!(sigma(&s[..cut], &t, &f, &run), refused(1, 1));
    }
    for cut in 0..t.len() {
        assert_eq!(sigma(&s, &t[..cut], &f, &run), refused(1, 2));
    }
    for cut in 0..f.len() {
        assert_eq!(sigma(&s, &t, &f[..cut], &run), refused(1, 3));
    }
    for cut in 0..run.len() {
        assert_eq!(sigma(&s, &t, &f, &run[..cut]), refused(1, 4));
    }
    for cut in 0..base_book().len() {
        let book = &base_book()[..cut];
        assert_eq!(check_raw(&s, &t, &f, &run, book, &pushed), refused(1, 5));
        assert_eq!(delta(&s, &t, &f, book), refused(1, 4));
    }
    for cut in 0..pushed.len() {
        let list = &pushed[..cut];
        assert_eq!(check_pushed(&s, &t, &f, &run, &base_book(), list), refused(1, 6));
    }
}

#[test]
fn a_tail_is_refused_at_each_place() {
    let longer = |sheet: Vec<u8>| [sheet, vec![0]].concat();
    let (s, t, f, run, book) = (base_s(), base_t(), base_f(), base_run(), base_book());
    let pushed = list(&[2, 0, 1, 0, 1]);
    let check = |sheets: [&Vec<u8>; 6]| {
        let [s, t, f, run, book, list] = sheets;
        check_pushed(s, t, f, run, book, list)
    };
    let sheets = [&s, &t, &f, &run, &book, &pushed];
    assert_eq!(check(sheets), Ok(()));
    for place in 0..6 {
        let damaged = longer(sheets[place].clone());
        let mut damaged_sheets = sheets;
        damaged_sheets[place] = &damaged;
        assert_eq!(check(damaged_sheets), refused(2, place as u8 + 1));
    }
    // The pushed list has 45 bits and so 3 filling bits.
    for filling in 0..3 {
        let mut damaged = pushed.clone();
        damaged[5] |= 1 << filling;
        assert_eq!(check([&s, &t, &f, &run, &book, &damaged]), refused(2, 6));
    }
}

#[test]
fn counts_beyond_their_limits_come_after_a_cut_in_the_counts() {
    // nodes 5, edges 6, attributes 5, equations 6 are 22 bits in 3 bytes.
    assert_eq!(check_schema(&[0x00, 0x00]), refused(1, 1));
    assert_eq!(check_schema(&[0x00, 0x00, 0x00]), refused(3, 1));
    assert_eq!(check_schema(&[0xFF, 0xFF]), refused(1, 1));
    assert_eq!(check_schema(&[0xFF, 0xFF, 0xFF]), refused(3, 1));
    let counts = |nodes: usize, edges: usize, attributes: usize, equations: usize| {
        let schema = Schema {
            nodes,
            edges: vec![Edge { source: 0, target: 0 }; edges],
            attributes: vec![Attribute { node: 0, kind: 0 }; attributes],
            equations: vec![equation(0, &[], &[]); equations],
        };
        check_schema(&schema.to_sheet())
    };
    assert_eq!(counts(1, 0, 16, 32), Ok(()));
    assert_eq!(counts(16, 0, 16, 32), Ok(()));
    assert_eq!(counts(17, 0, 0, 0), refused(3, 1));
    assert_eq!(counts(1, 33, 0, 0), refused(3, 1));
    assert_eq!(counts(1, 0, 17, 0), refused(3, 1));
    assert_eq!(counts(1, 0, 0, 33), refused(3, 1));
    assert_eq!(counts(1, 32, 0, 0), refused(5, 1));
    // A count in the rest's stead: too many rows come before the cut rest.
    let rows = instance(&[513, 0, 0], &[]).to_sheet();
    assert_eq!(check_instance(&base_s(), &rows), refused(3, 2));
    assert_eq!(check_instance(&base_s(), &rows[..3]), refused(1, 2));
}

#[test]
fn strays_come_before_rings_and_rings_before_crowds() {
    let check = |schema: &Schema| check_schema(&schema.to_sheet());
    assert_eq!(check(&graph(2, &[(0, 2)])), refused(4, 1));
    assert_eq!(check(&graph(2, &[(2, 0)])), refused(4, 1));
    assert_eq!(check(&graph(2, &[(1, 1)])), refused(5, 1));
    assert_eq!(check(&graph(3, &[(0, 1), (1, 2), (2, 0)])), refused(5, 1));
    let mut loose = graph(2, &[(1, 1)]);
    loose.attributes.push(Attribute { node: 2, kind: 0 });
    assert_eq!(check(&loose), refused(4, 1));
    let square = [(0, 1), (1, 3), (0, 2), (2, 3)];
    let with = |left: Path, right: Path| {
        let mut schema = graph(4, &square);
        schema.equations.push(Equation { left, right });
        check(&schema)
    };
    assert_eq!(with(path(0, &[0, 1]), path(0, &[2, 3])), Ok(()));
    assert_eq!(with(path(0, &[0, 1]), path(0, &[2])), refused(4, 1));
    assert_eq!(with(path(1, &[1]), path(2, &[3])), refused(4, 1));
    assert_eq!(with(path(0, &[0, 3]), path(0, &[0, 3])), refused(4, 1));
    assert_eq!(with(path(0, &[0, 4]), path(0, &[0, 4])), refused(4, 1));
    assert_eq!(with(path(4, &[]), path(4, &[])), refused(4, 1));
}

#[test]
fn astronomically_many_paths_are_only_counted() {
    let edges: Vec<(usize, usize)> = (0..32).map(|n| (n * 15 / 32, n * 15 / 32 + 1)).collect();
    assert_eq!(check_schema(&graph(16, &edges).to_sheet()), refused(6, 1));
    let mut ring = edges;
    ring[31] = (15, 0);
    assert_eq!(check_schema(&graph(16, &ring).to_sheet()), refused(5, 1));
}

#[test]
fn paths_with_other_starts_or_ends_are_unequal() {
    let s = base_s();
    let answer = |p: &Path| first_path(&s, &p.to_sheet());
    for p in [path(0, &[]), path(1, &[]), path(2, &[]), path(0, &[0]), path(2, &[1])] {
        assert_eq!(answer(&p), Ok(p.to_sheet()));
    }
    for stray in [path(3, &[]), path(0, &[1]), path(0, &[2]), path(1, &[0]), path(0, &[0, 0])] {
        assert_eq!(answer(&stray), refused(4, 2));
    }
}

#[test]
fn misfits_and_broken_rules() {
    let mut s = graph(2, &[(0, 1), (0, 1)]);
    s.attributes = [(0, 1), (1, 2)].map(|(node, kind)| Attribute { node, kind }).to_vec();
    let check = |t: &Schema, nodes: &[usize], edges: &[&[usize]], attributes: &[usize]| {
        let f = Mapping { attributes: attributes.to_vec(), ..mapping(nodes, edges) };
        check_mapping(&s.to_sheet(), &t.to_sheet(), &f.to_sheet())
    };
    assert_eq!(check(&s, &[0, 1], &[&[0], &[1]], &[0, 1]), Ok(()));
    assert_eq!(check(&s, &[0, 1], &[&[1], &[1]], &[0, 1]), Ok(()));
    assert_eq!(check(&s, &[0, 2], &[&[0], &[1]], &[0, 1]), refused(7, 3));
    assert_eq!(check(&s, &[0, 1], &[&[0], &[2]], &[0, 1]), refused(7, 3));
    assert_eq!(check(&s, &[0, 1], &[&[0], &[]], &[0, 1]), refused(7, 3));
    assert_eq!(check(&s, &[0, 1], &[&[0], &[0, 1]], &[0, 1]), refused(7, 3));
    assert_eq!(check(&s, &[0, 1], &[&[0], &[1]], &[0, 0]), refused(7, 3));
    assert_eq!(check(&s, &[0, 1], &[&[0], &[1]], &[0, 2]), refused(7, 3));
    let mut other_kind = s.clone();
    other_kind.attributes[1].kind = 3;
    assert_eq!(check(&other_kind, &[0, 1], &[&[0], &[1]], &[0, 1]), refused(7, 3));

    let (free, mut ruled) = (s.clone(), s.clone());
    ruled.equations.push(equation(0, &[0], &[1]));
    let mut f = mapping(&[0, 1], &[&[0], &[1]]);
    f.attributes = vec![0, 1];
    let check =
        |t: &Schema, f: &Mapping| check_mapping(&ruled.to_sheet(), &t.to_sheet(), &f.to_sheet());
    assert_eq!(check(&free, &f), refused(8, 3));
    assert_eq!(check(&ruled, &f), Ok(()));
    f.edges[1] = vec![0];
    assert_eq!(check(&free, &f), Ok(()));
    f.attributes[1] = 7;
    assert_eq!(check(&free, &f), refused(7, 3));
}

#[test]
fn dangling_rows_come_before_values_off_either_end_and_those_before_bent_rows() {
    let mut s = graph(2, &[(0, 1), (0, 1)]);
    s.attributes.push(Attribute { node: 0, kind: 2 });
    s.attributes.push(Attribute { node: 1, kind: 15 });
    s.equations.push(equation(0, &[0], &[1]));
    let check = |links: [usize; 2], values: [u32; 2]| {
        let mut i = instance(&[1, 1], &[&[links[0]], &[links[1]]]);
        i.rows[1] = 2;
        i.values = vec![vec![values[0]], vec![0, values[1]]];
        check_instance(&s.to_sheet(), &i.to_sheet())
    };
    assert_eq!(check([1, 1], [720, 0]), Ok(()));
    assert_eq!(check([1, 0], [720, 0]), refused(11, 2));
    assert_eq!(check([1, 0], [721, 0]), refused(10, 2));
    assert_eq!(check([1, 0], [0, 0]), refused(10, 2));
    assert_eq!(check([1, 1], [720, 1]), refused(10, 2));
    assert_eq!(check([1, 1], [0, 1]), refused(10, 2));
    assert_eq!(check([1, 2], [721, 1]), refused(9, 2));
    assert_eq!(check([1, 2], [0, 0]), refused(9, 2));
    assert_eq!(check([1, 2], [720, 0]), refused(9, 2));
}

/// Each kind's smallest and largest value, read from the papers once more, so
/// that a slip in [`RANGES`] is met.
const ENDS: [(u32, u32); 16] = [
    (0, 4294967295),
    (0, 4294967295),
    (1, 720),
    (0, 1000),
    (0, 20000),
    (0, 5000),
    (0, 5000),
    (0, 1600),
    (0, 25000),
    (0, 4000),
    (0, 65535),
    (0, 86399),
    (0, 10000),
    (0, 4294967295),
    (0, 1),
    (0, 0),
];

#[test]
fn each_kind_has_its_smallest_and_its_largest_value_and_none_beyond_them() {
    for (kind, (smallest, largest)) in ENDS.into_iter().enumerate() {
        assert_eq!(RANGES[kind], smallest..=largest);
        let mut s = graph(1, &[]);
        s.attributes.push(Attribute { node: 0, kind });
        let check = |value| {
            let i = Instance { rows: vec![1], links: vec![], values: vec![vec![value]] };
            check_instance(&s.to_sheet(), &i.to_sheet())
        };
        if let Some(below) = smallest.checked_sub(1) {
            assert_eq!(check(below), refused(10, 2));
        }
        assert_eq!(check(smallest), Ok(()));
        assert_eq!(check(largest), Ok(()));
        if let Some(above) = largest.checked_add(1) {
            assert_eq!(check(above), refused(10, 2));
        }
    }
}

#[test]
fn uneven_columns_are_refused() {
    let plain = graph(1, &[]);
    let mut column = plain.clone();
    column.attributes.push(Attribute { node: 0, kind: 0 });
    let mut two = column.clone();
    two.attributes.push(Attribute { node: 0, kind: 0 });
    let run = |schema: &Schema| Instance {
        rows: vec![0],
        links: vec![],
        values: vec![vec![]; schema.attributes.len()],
    };
    let push = |s: &Schema, t: &Schema, attributes: &[usize]| {
        let f = Mapping { attributes: attributes.to_vec(), ..mapping(&[0], &[]) };
        sigma(&s.to_sheet(), &t.to_sheet(), &f.to_sheet(), &run(s).to_sheet())
    };
    assert_eq!(push(&plain, &column, &[]), refused(12, 0));
    assert_eq!(push(&two, &column, &[0, 0]), refused(12, 0));
    assert_eq!(push(&two, &two, &[0, 0]), refused(12, 0));
    assert_eq!(push(&two, &two, &[1, 0]), Ok(vec![0, 0]));
    // A column at a node without preimage does not matter to Sigma.
    let mut elsewhere = graph(2, &[]);
    elsewhere.attributes.push(Attribute { node: 1, kind: 0 });
    assert_eq!(push(&plain, &elsewhere, &[]), Ok(vec![0, 0, 0]));
}

#[test]
fn unpaired_columns_are_refused_by_pi() {
    let plain = graph(1, &[]);
    let mut column = plain.clone();
    column.attributes.push(Attribute { node: 0, kind: 0 });
    let mut two = column.clone();
    two.attributes.push(Attribute { node: 0, kind: 0 });
    let run = |schema: &Schema| Instance {
        rows: vec![1],
        links: vec![],
        values: vec![vec![5]; schema.attributes.len()],
    };
    let gather = |s: &Schema, t: &Schema, attributes: &[usize]| {
        let f = Mapping { attributes: attributes.to_vec(), ..mapping(&[0], &[]) };
        pi(&s.to_sheet(), &t.to_sheet(), &f.to_sheet(), &run(s).to_sheet())
    };
    assert_eq!(gather(&plain, &column, &[]), refused(13, 0));
    assert_eq!(gather(&two, &column, &[0, 0]), refused(13, 0));
    assert_eq!(gather(&two, &two, &[1, 1]), refused(13, 0));
    assert_eq!(gather(&plain, &plain, &[]), Ok(run(&plain).to_sheet()));
    assert_eq!(gather(&two, &two, &[1, 0]), Ok(run(&two).to_sheet()));
}

#[test]
fn wide_tables_come_before_overfull_ones() {
    let one = graph(1, &[]).to_sheet();
    let chain = |nodes: usize, s_rows: usize| {
        let f = mapping(&[nodes - 1], &[]).to_sheet();
        let t = doubled_chain(nodes).to_sheet();
        pi(&one, &t, &f, &instance(&[s_rows], &[]).to_sheet())
    };
    // 64 components at node 0, and one family in each table.
    let single = instance(&[1; 7], &[[0usize].as_slice(); 12]).to_sheet();
    assert_eq!(chain(7, 1), Ok(single));
    assert_eq!(chain(7, 2), refused(15, 0));
    assert_eq!(chain(7, 512), refused(15, 0));
    assert_eq!(chain(7, 0), Ok(vec![0; 9]));
    // A second S-node over the last node: 128 components at node 0.
    let f = mapping(&[6, 6], &[]).to_sheet();
    let (two, t) = (graph(2, &[]).to_sheet(), doubled_chain(7).to_sheet());
    let run = instance(&[2, 2], &[]).to_sheet();
    assert_eq!(pi(&two, &t, &f, &run), refused(14, 0));
    // The same with the wide table last and an overfull one first.
    let upward: Vec<(usize, usize)> = (1..7).flat_map(|n| [(n, n - 1); 2]).collect();
    let f = mapping(&[0, 0], &[]).to_sheet();
    let (t, run) = (graph(7, &upward).to_sheet(), instance(&[256, 256], &[]).to_sheet());
    assert_eq!(pi(&two, &t, &f, &run), refused(14, 0));
}

#[test]
fn rows_of_all_tables_are_counted_together() {
    let one = graph(1, &[]).to_sheet();
    let two = graph(2, &[]).to_sheet();
    // Two S-nodes over one T-node double the rows.
    let f = mapping(&[0, 0], &[]).to_sheet();
    let rows = |count: usize| instance(&[count], &[]).to_sheet();
    let doubled = instance(&[256, 256], &[]).to_sheet();
    assert_eq!(delta(&two, &one, &f, &rows(256)), Ok(doubled));
    assert_eq!(delta(&two, &one, &f, &rows(257)), refused(15, 0));
    // Pi: 22 times 23 families in one table.
    let run = |a: usize, b: usize| instance(&[a, b], &[]).to_sheet();
    assert_eq!(pi(&two, &one, &f, &run(22, 23)), Ok(rows(506)));
    assert_eq!(pi(&two, &one, &f, &run(2, 256)), Ok(rows(512)));
    assert_eq!(pi(&two, &one, &f, &run(27, 19)), refused(15, 0));
    // A further table without components has one row more.
    let f = mapping(&[1, 1], &[]).to_sheet();
    let result = instance(&[1, 510], &[]).to_sheet();
    assert_eq!(pi(&two, &two, &f, &run(2, 255)), Ok(result));
    assert_eq!(pi(&two, &two, &f, &run(2, 256)), refused(15, 0));
}

#[test]
fn checkers_and_turnings_refuse_a_book_whose_pulled_back_table_is_overfull() {
    let two = graph(2, &[]).to_sheet();
    let one = graph(1, &[]).to_sheet();
    let f = mapping(&[0, 0], &[]).to_sheet();
    let run = instance(&[0, 0], &[]).to_sheet();
    let book = |rows: usize| instance(&[rows], &[]).to_sheet();
    assert_eq!(check_pushed(&two, &one, &f, &run, &book(256), &[]), Ok(()));
    assert_eq!(check_pushed(&two, &one, &f, &run, &book(256), &[0]), refused(2, 6));
    assert_eq!(check_pushed(&two, &one, &f, &run, &book(257), &[0]), refused(15, 0));
    assert_eq!(check_raw(&two, &one, &f, &run, &book(257), &[0]), refused(15, 0));
    assert_eq!(pushed_to_raw(&two, &one, &f, &run, &book(257), &[0]), refused(15, 0));
    assert_eq!(raw_to_pushed(&two, &one, &f, &run, &book(257), &[0]), refused(15, 0));
    assert_eq!(raw_to_pushed(&two, &one, &f, &run, &book(256), &[]), Ok(vec![]));
}

#[test]
fn an_edge_may_lift_to_a_longer_path() {
    // T has a, b and h = ab; S has only a and b, so h lifts to the path ab.
    let s = graph(3, &[(0, 1), (1, 2)]);
    let mut t = graph(3, &[(0, 1), (1, 2), (0, 2)]);
    let f = mapping(&[0, 1, 2], &[&[0], &[1]]);
    let run = instance(&[2, 2, 3], &[&[1, 0], &[2, 0]]);
    let push = |t: &Schema| sigma(&s.to_sheet(), &t.to_sheet(), &f.to_sheet(), &run.to_sheet());
    assert_eq!(push(&t), refused(12, 0));
    t.equations.push(equation(0, &[0, 1], &[2]));
    let result = instance(&[2, 2, 3], &[&[1, 0], &[2, 0], &[0, 2]]);
    assert_eq!(push(&t), Ok(result.to_sheet()));
}

#[test]
fn tables_without_preimage_have_no_rows_in_sigma_and_one_in_pi() {
    let (s, t) = (graph(1, &[]).to_sheet(), graph(2, &[(1, 0)]).to_sheet());
    let f = mapping(&[0], &[]).to_sheet();
    let run = instance(&[2], &[]).to_sheet();
    assert_eq!(sigma(&s, &t, &f, &run), Ok(instance(&[2, 0], &[&[]]).to_sheet()));
    // Node 1 of T has one component, along its edge to node 0.
    assert_eq!(pi(&s, &t, &f, &run), Ok(instance(&[2, 2], &[&[0, 1]]).to_sheet()));
    let t = graph(2, &[(0, 1)]).to_sheet();
    assert_eq!(sigma(&s, &t, &f, &run), refused(12, 0));
    assert_eq!(pi(&s, &t, &f, &run), Ok(instance(&[2, 1], &[&[0, 0]]).to_sheet()));
}

/// All calls on the same six sheets; those with a result give its length.
fn all_calls(sheets: &[Vec<u8>; 6]) -> Vec<Result<usize, Refusal>> {
    let [s, t, f, run, book, list] = sheets;
    let length = |result: Result<Vec<u8>, Refusal>| result.map(|sheet| sheet.len());
    vec![
        check_schema(s).map(|_| 0),
        check_mapping(s, t, f).map(|_| 0),
        check_instance(s, run).map(|_| 0),
        length(first_path(s, f)),
        length(first_path(s, list)),
        path_chain(s, f, list).map(|given| given.map_or(0, |sheet| sheet.len())),
        length(delta(s, t, f, book)),
        length(sigma(s, t, f, run)),
        length(pi(s, t, f, run)),
        check_pushed(s, t, f, run, book, list).map(|_| 0),
        check_raw(s, t, f, run, book, list).map(|_| 0),
        length(pushed_to_raw(s, t, f, run, book, list)),
        length(raw_to_pushed(s, t, f, run, book, list)),
    ]
}

fn assert_proper(result: Result<usize, Refusal>) {
    if let Err(Refusal { number, place }) = result {
        assert!((1..=17).contains(&number));
        assert_eq!(place == 0, (12..=16).contains(&number));
        assert!(place <= 6);
    }
}

#[test]
fn every_flipped_bit_of_the_base_sheets_ends_with_one_result_or_refusal() {
    let sheets = [base_s(), base_t(), base_f(), base_run(), base_book(), list(&[2, 0, 1, 0, 1])];
    for place in 0..6 {
        for bit in 0..8 * sheets[place].len() {
            let mut damaged = sheets.clone();
            damaged[place][bit / 8] ^= 0x80 >> (bit % 8);
            all_calls(&damaged).into_iter().for_each(assert_proper);
        }
    }
}

#[test]
fn random_bytes_end_with_one_result_or_refusal() {
    let mut random = Random::seeded(5);
    for _ in 0..20000 {
        let mut sheet = |most: usize| -> Vec<u8> {
            (0..random.below(most + 1)).map(|_| random.bits() as u8).collect()
        };
        let sheets = [sheet(60), sheet(60), sheet(40), sheet(200), sheet(200), sheet(40)];
        all_calls(&sheets).into_iter().for_each(assert_proper);
        push(&sheets.concat());
    }
}
