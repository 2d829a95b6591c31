//! A query against its three migrations, all by the library: it is accepted exactly
//! where they are, each lent the result of the one before, and gives the same bytes.

use migration::{delta, pi, query, sigma, Refusal};
use vectors::call::{Call, Case};
use vectors::full::{base, full};
use vectors::limits::longest;
use vectors::record::stored_cases;
use vectors::stream::Chance;

/// The answers to a query: by one call, and by three.
fn answers(case: &Case) -> [Result<Vec<u8>, Refusal>; 2] {
    let [s1, s2, s3, s4, f, g, h, run] = &case.sheets[..] else { unreachable!("a query") };
    let in_turn = || {
        let projected = delta(s2, s1, f, run)?;
        let joined = pi(s2, s3, g, &projected)?;
        sigma(s3, s4, h, &joined)
    };
    [query(s1, s2, s3, s4, f, g, h, run), in_turn()]
}

/// Which refusal is given may differ.
#[test]
fn a_query_is_accepted_where_its_migrations_are_and_gives_what_they_give() {
    let fixed = [base(), full(), longest(), stored_cases()].concat();
    let chance = Chance::seeded(3).take(30_000);
    let queries = fixed.into_iter().chain(chance).filter(|case| case.call == Call::Query);
    let (mut accepted, mut refused, mut otherwise) = (0, 0, 0);
    for case in queries {
        match answers(&case) {
            [Ok(one), Ok(other)] => {
                assert!(one == other, "{}: other bytes", case.name);
                accepted += 1;
            }
            [Err(one), Err(other)] => {
                refused += 1;
                otherwise += usize::from((one.number, one.place) != (other.number, other.place));
            }
            [one, other] => panic!("{}: {one:?}; in turn {other:?}", case.name),
        }
    }
    println!("{accepted} accepted, {refused} refused, {otherwise} of them with another refusal");
    assert!(accepted > 500 && refused > 1000 && otherwise > 500);
}
