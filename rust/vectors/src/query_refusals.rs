//! Queries by chance that are made for one refusal at place 0 each.

use crate::answer::result_length;
use crate::call::Case;
use crate::digs::{any_dig, uneven_dig, unpaired_dig, Dig};
use crate::even::Unevenness;
use crate::random::Random;
use reference::plain::Instance;
use reference::{migrate, refusal};

/// Cases for 12, 13, 15 of Delta, 15 of Pi and 16, each with its number; those for 14
/// are among the limits.
pub fn for_no_single_sheet(random: &mut Random) -> Vec<(u8, Case)> {
    let mut cases = Vec::new();
    for reason in Unevenness::ALL {
        let dig = uneven_dig(random, reason, 3);
        cases.push((12, dig.case(format!("{reason:?}")).with_tray(random.below(64))));
    }
    for (column, name) in [(true, "a column more in the third"), (false, "two columns over one")] {
        cases.push((13, unpaired_dig(random, column, 3).case(name).with_tray(99)));
    }
    let pulled = first(random, 400, |dig| delta(dig) == Err(refusal::OVERFULL));
    cases.push((15, pulled.case("too many rows pulled back").with_tray(600)));
    let joined = first(random, 30, |dig| pi(dig) == Some(Err(refusal::OVERFULL)));
    cases.push((15, joined.case("too many families").with_tray(600)));
    for _ in 0..3 {
        let dig = first(random, 3, |dig| matches!(pi(dig), Some(Ok(_))));
        let case = dig.case("a small tray");
        let needed = result_length(&case).expect("an accepted query");
        cases.push((16, case.clone().with_tray(needed - 1)));
        cases.push((16, case.with_tray(0)));
    }
    cases
}

/// The first dig by chance that is as wanted.
fn first(random: &mut Random, generators: usize, wanted: impl Fn(&Dig) -> bool) -> Dig {
    loop {
        let dig = any_dig(random, generators);
        if wanted(&dig) {
            return dig;
        }
    }
}

/// Delta's rows of a dig.
fn delta(dig: &Dig) -> Result<Instance, u8> {
    migrate::delta(&dig.schemas[1], &dig.f, &dig.run)
}

/// Pi's rows of a dig, where Delta has a result.
fn pi(dig: &Dig) -> Option<Result<Instance, u8>> {
    let pulled = delta(dig).ok()?;
    Some(migrate::pi(&dig.schemas[1], &dig.schemas[2], &dig.g, &pulled))
}
