//! Puzzles for Pi, and their sheets.
//!
//! A puzzle asks for a value at each of some places such that each of its rules
//! holds: the places of a rule together have one of the rows that are allowed.
//! S has tables of values and a table of allowed rows with a link to each of their
//! values.  T has one table more, with an edge to the allowed rows for each rule,
//! and equations that make the ends of rules at one place one.  A row there is a
//! solution, with a row of a table of its own at each free component, which no rule
//! is about and which comes before every place.

use crate::build::*;
use crate::call::{Call, Case};
use reference::plain::*;

/// A puzzle.
#[derive(Debug, Clone)]
pub struct Puzzle {
    /// How many values each table has.
    pub values: Vec<usize>,
    /// For each end of a rule the table of its values.
    pub ends: Vec<usize>,
    /// The rows that every rule allows, ascending, each with a value for each end.
    pub allowed: Vec<Vec<usize>>,
    /// The places that each rule is about, one for each end; a place has values of
    /// one table.
    pub rules: Vec<Vec<usize>>,
    /// How many components are free, and how many rows each of them has.
    pub free: (usize, usize),
    /// The puzzle is asked in so many tables of T, each linked to the one before.
    pub tables: usize,
}

impl Puzzle {
    /// A puzzle with one table of values and no free components, asked in one table.
    pub fn new(values: usize, mut allowed: Vec<Vec<usize>>, rules: Vec<Vec<usize>>) -> Self {
        allowed.sort();
        allowed.dedup();
        let ends = vec![0; rules[0].len()];
        Puzzle { values: vec![values], ends, allowed, rules, free: (0, 0), tables: 1 }
    }

    /// The places with their tables, in the order of their components: by the
    /// table, by the first rule with the place, and there by the first end.
    pub fn places(&self) -> Vec<(usize, usize)> {
        let mut places = Vec::new();
        for table in 0..self.values.len() {
            for (&place, &of) in self.rules.iter().flat_map(|rule| rule.iter().zip(&self.ends)) {
                if of == table && !places.contains(&(table, place)) {
                    places.push((table, place));
                }
            }
        }
        places
    }

    /// Whether each rule holds of the values at the places.
    pub fn holds(&self, values: &[usize]) -> bool {
        self.rules.iter().all(|rule| self.number(rule, values).is_some())
    }

    /// The number of the allowed row at the places of a rule, if there is one.
    fn number(&self, rule: &[usize], values: &[usize]) -> Option<usize> {
        let row: Vec<usize> = rule.iter().map(|&place| values[place]).collect();
        self.allowed.binary_search(&row).ok()
    }

    /// The number of the first table of values: a table for the free components
    /// stands before it.
    fn first(&self) -> usize {
        usize::from(self.free.0 > 0)
    }

    /// The number of the table of allowed rows; the tables that ask follow it.
    fn rows(&self) -> usize {
        self.first() + self.values.len()
    }

    /// The call of Pi.
    pub fn case(&self, name: &str) -> Case {
        let links: Vec<(usize, usize)> =
            self.ends.iter().map(|table| (self.rows(), self.first() + table)).collect();
        let s = graph(self.rows() + 1, &links);
        let f = identity(&s);
        let sheets = [s.to_sheet(), self.schema(links).to_sheet(), f.to_sheet()];
        let sheets = [&sheets[..], &[self.run().to_sheet()]].concat();
        Case::new(name, Call::Pi, sheets).with_tray(Case::MOST_RESULT)
    }

    /// T, with the links of S.
    fn schema(&self, mut links: Vec<(usize, usize)>) -> Schema {
        let asks = self.rows() + 1;
        links.extend((0..self.free.0).map(|_| (asks, 0)));
        links.extend(self.rules.iter().map(|_| (asks, asks - 1)));
        links.extend((1..self.tables).map(|table| (asks + table, asks + table - 1)));
        let mut t = graph(asks + self.tables, &links);
        let places = self.places().into_iter();
        t.equations = places.flat_map(|(_, place)| self.one_place(place)).collect();
        t
    }

    /// Equations that make all ends of rules at a place one.
    fn one_place(&self, place: usize) -> Vec<Equation> {
        let (start, first) = (self.rows() + 1, self.ends.len() + self.free.0);
        let mut ends = Vec::new();
        for (rule, places) in self.rules.iter().enumerate() {
            let at = (0..places.len()).filter(|&end| places[end] == place);
            ends.extend(at.map(|end| [first + rule, end]));
        }
        ends.windows(2).map(|two| equation(start, &two[0], &two[1])).collect()
    }

    /// The instance of S.
    fn run(&self) -> Instance {
        let of_free = (self.first() > 0).then_some(self.free.1);
        let end = |end: usize| self.allowed.iter().map(|row| row[end]).collect();
        let rows = of_free.into_iter().chain(self.values.clone()).chain([self.allowed.len()]);
        let links = (0..self.ends.len()).map(end).collect();
        Instance { rows: rows.collect(), links, values: vec![] }
    }

    /// What Pi gives if these are the solutions, each with the value at each
    /// place: the instance, or the number of the refusal.
    pub fn result(&self, mut solutions: Vec<Vec<usize>>) -> Result<Instance, u8> {
        let (count, rows) = self.free;
        let choices = (rows as u128).pow(count as u32) * solutions.len() as u128;
        let mut result = self.run();
        let before = result.rows.iter().sum::<usize>() as u128;
        if before + choices * self.tables as u128 > Instance::MOST_ROWS as u128 {
            return Err(15);
        }
        let places = self.places();
        solutions.sort_by_key(|values| places.iter().map(|&(_, p)| values[p]).collect::<Vec<_>>());
        // A row is a choice of free rows, the first component's the slowest, then a
        // solution.
        let all = 0..choices as usize;
        for component in 0..count {
            let step = solutions.len() * rows.pow((count - 1 - component) as u32);
            result.links.push(all.clone().map(|row| row / step % rows).collect());
        }
        for rule in &self.rules {
            let target = |row: usize| self.number(rule, &solutions[row % solutions.len()]);
            result.links.push(all.clone().map(|row| target(row).expect("a solution")).collect());
        }
        result.links.extend((1..self.tables).map(|_| all.clone().collect()));
        result.rows.extend((0..self.tables).map(|_| all.len()));
        Ok(result)
    }
}
