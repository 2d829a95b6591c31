//! Linear equations modulo a number, and all their solutions.

use std::collections::BTreeSet;

/// An equation: the sum of the unknowns, each with its factor, is `sum`.
#[derive(Debug, Clone)]
pub struct Linear {
    /// The unknowns that occur, with their factors.
    pub terms: Vec<(usize, i64)>,
    /// What they give.
    pub sum: i64,
}

impl Linear {
    fn at(&self, values: &[i64]) -> i64 {
        self.terms.iter().map(|&(unknown, factor)| factor * values[unknown]).sum()
    }
}

/// All solutions modulo `modulus`, ascending.
///
/// They are kept as one of them and steps: every solution is that one with each
/// step added some number of times.  At first there is a step for each unknown,
/// and each equation takes away the solutions that it does not hold for.
pub fn solutions(equations: &[Linear], unknowns: usize, modulus: i64) -> Vec<Vec<usize>> {
    let mut one = vec![0; unknowns];
    let own = |unknown: usize| (0..unknowns).map(|n| i64::from(n == unknown)).collect();
    let mut steps: Vec<Vec<i64>> = (0..unknowns).map(own).collect();
    for equation in equations {
        let at = |values: &[i64]| equation.at(values).rem_euclid(modulus);
        let turning = lone_step(&mut steps, &at, modulus);
        let change = turning.map_or(0, |step| at(&steps[step]));
        let lacking = equation.sum - at(&one);
        let fits = |count: &i64| (count * change - lacking) % modulus == 0;
        let Some(count) = (0..modulus).find(fits) else { return Vec::new() };
        if let Some(step) = turning {
            one = sum(&one, &steps[step], count, modulus);
            // The least multiple that changes nothing in the equation.
            let multiple = modulus / divisor(change, modulus);
            steps[step] = sum(&vec![0; unknowns], &steps[step], multiple, modulus);
        }
    }
    let mut all = BTreeSet::from([one]);
    for step in &steps {
        let moved = |from: &Vec<i64>| {
            let from = from.clone();
            (0..modulus).map(move |count| sum(&from, step, count, modulus))
        };
        all = all.iter().flat_map(moved).collect();
    }
    all.into_iter().map(|values| values.into_iter().map(|v| v as usize).collect()).collect()
}

/// Exchanges steps for others with the same sums, until at most one of them
/// changes anything: that one.  Of two that do, the one that changes more is
/// lessened by the other, as in Euclid's algorithm.
fn lone_step(steps: &mut [Vec<i64>], at: &dyn Fn(&[i64]) -> i64, modulus: i64) -> Option<usize> {
    loop {
        let changes = |step: usize| at(&steps[step]);
        let mut changing: Vec<usize> = (0..steps.len()).filter(|&s| changes(s) != 0).collect();
        changing.sort_by_key(|&step| changes(step));
        let [least, .., most] = changing[..] else { return changing.first().copied() };
        let count = changes(most) / changes(least);
        steps[most] = sum(&steps[most], &steps[least], -count, modulus);
    }
}

/// Values with a step added so many times.
fn sum(values: &[i64], step: &[i64], count: i64, modulus: i64) -> Vec<i64> {
    values.iter().zip(step).map(|(value, by)| (value + count * by).rem_euclid(modulus)).collect()
}

fn divisor(a: i64, b: i64) -> i64 {
    if b == 0 {
        a
    } else {
        divisor(b, a % b)
    }
}
