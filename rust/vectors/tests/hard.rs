//! The answers that stand with the hard sheets: the solutions of each kind of
//! puzzle are all that there are, and the sheets say what the puzzle says.

use reference::plain::*;
use std::time::Duration;
use vectors::answer::reference_outcome;
use vectors::call::Case;
use vectors::hard::{hard_sheets, HardSheet};
use vectors::kinds::*;

/// The reference gives the answer.
fn is_answered(case: &Case, answer: &Result<Vec<u8>, u8>) {
    let outcome = reference_outcome(case);
    let found = outcome.answer.map(|length| outcome.tray[..length].to_vec());
    assert_eq!(&found.map_err(|refusal| refusal.number), answer, "{}", case.name);
}

/// All but the hardest, for which the reference takes half a minute and more.
#[test]
fn the_reference_gives_the_answers() {
    let soon = |sheet: &HardSheet| sheet.most <= Duration::from_secs(1);
    let sheets: Vec<HardSheet> = hard_sheets().into_iter().filter(soon).collect();
    assert_eq!(sheets.len(), 10);
    for HardSheet { case, answer, .. } in sheets {
        is_answered(&case, &answer);
    }
}

/// Small puzzles of each kind, of several seeds.
fn small() -> Vec<(String, Solved)> {
    let mut all = Vec::new();
    for seed in 1..=10 {
        let crossword = Crossword { side: 3, letters: 3, words: 9, free: seed as usize % 3 };
        let idle = (seed as usize % 4, 2);
        let colouring = Colouring { points: 5, pairs: 8, values: 4, colours: 3, idle };
        let sums = |modulus: usize| Sums { sums: 5, numbers: 6, modulus };
        let flow = |vertices: usize| Flow { vertices, modulus: 3 };
        let puzzles = [
            crossword.solved(seed),
            Crossword { side: 2, letters: 4, words: 9, free: 1 }.solved(seed),
            colouring.solved(seed),
            Colouring { points: 4, pairs: 6, values: 3, colours: 3, idle }.solved(seed),
            Colouring { points: 4, pairs: 5, values: 9, colours: 3, idle }.solved(seed),
            sums(4).solved(seed),
            sums(5).solved(seed),
            sums(6).solved(seed),
            flow(3).solved(seed),
            flow(4).solved(seed),
            Ring { places: 4, values: 6 }.solved(seed),
            Ring { places: 5, values: 9 }.solved(seed),
        ];
        let name = |(kind, solved)| (format!("small puzzle {kind}, seed {seed}"), solved);
        all.extend(puzzles.into_iter().enumerate().map(name));
    }
    all
}

/// Every assignment of values that the rules allow is a solution, and no other is.
#[test]
fn the_solutions_are_all_that_there_are() {
    for (name, (puzzle, mut solutions)) in small() {
        let mut places = puzzle.places();
        places.sort_by_key(|&(_, place)| place);
        let values = |&(table, _): &(usize, usize)| (0..puzzle.values[table]).collect();
        let every = every_choice(&places.iter().map(values).collect::<Vec<_>>());
        let all: Vec<Vec<usize>> = every.into_iter().filter(|v| puzzle.holds(v)).collect();
        solutions.sort();
        assert_eq!(solutions, all, "{name}");
    }
}

/// Some of the small puzzles have no solution, some one, some many, some too many.
#[test]
fn the_sheets_have_the_solutions() {
    let mut met = [0; 4];
    for (name, solved) in small() {
        let HardSheet { case, answer, .. } = HardSheet::of(&name, solved);
        is_answered(&case, &answer);
        met[match families(&case, &answer) {
            Some(count @ 0..=1) => count,
            Some(_) => 2,
            None => 3,
        }] += 1;
    }
    assert!(met.iter().all(|&count| count > 0), "{met:?}");
}

/// The families at the last table of T, if the answer is a sheet.
fn families(case: &Case, answer: &Result<Vec<u8>, u8>) -> Option<usize> {
    let t = Schema::accept(&case.sheets[1]).expect("a schema");
    let result = Instance::accept(&t, answer.as_ref().ok()?).expect("an instance");
    result.rows.last().copied()
}

/// What the seeds give: sheets that are accepted, and so many families.
#[test]
fn the_seeds_give_so_many_families() {
    let expected = [
        ("7 free components of 2 rows, 5 words by 5 of 250", 128),
        ("15 idle components of 4 rows, 5 points in 4 colours", 0),
        ("16 sums of 3 of 16 numbers modulo 20", 20),
        ("15 sums of 3 of 17 numbers modulo 15", 225),
        ("16 sums of 3 of 17 numbers modulo 19", 19),
        ("7 points, 19 pairs by chance, 24 of 5 colours", 0),
        ("ring of 27, each row forced, 250 rows by chance", 3),
        ("28 edges between 14 vertices modulo 3", 0),
    ];
    let sheets = hard_sheets();
    for (name, count) in expected {
        let sheet = sheets.iter().find(|sheet| sheet.case.name == name).expect(name);
        let [s, t, f, run] = &sheet.case.sheets[..] else { unreachable!("a call of pi") };
        let (s, t) = (Schema::accept(s).expect("S"), Schema::accept(t).expect("T"));
        Mapping::accept(&s, &t, f).expect("the mapping");
        Instance::accept(&s, run).expect("the run");
        assert_eq!(families(&sheet.case, &sheet.answer), Some(count), "{name}");
    }
}
