//! Compositions by chance that are made for one refusal each.

use crate::answer::result_length;
use crate::call::{Call, Case};
use crate::composable::Composable;
use crate::damage::Damage;
use crate::random::Random;
use crate::stream::Expected;
use reference::Refusal;

/// For each place and damage a case with that damage; then those for 16.
pub fn for_each_refusal(random: &mut Random) -> Vec<Expected> {
    let mut cases = Vec::new();
    for (sheet, &kind) in Call::Compose.sheets().iter().enumerate() {
        for damage in Damage::of(kind) {
            let case = damaged(random, sheet, damage);
            let refusal = Refusal { number: damage.number(), place: Call::Compose.place(sheet) };
            cases.push(Expected { case, refusal });
        }
    }
    let small = Refusal { number: 16, place: 0 };
    for _ in 0..3 {
        let case = Composable::any(random, 2).case("a small tray");
        let needed = result_length(&case).expect("accepted sheets");
        for tray in [needed - 1, 0] {
            cases.push(Expected { case: case.clone().with_tray(tray), refusal: small });
        }
    }
    cases
}

/// A case with a damaged sheet, from the first mappings that allow it.
fn damaged(random: &mut Random, sheet: usize, damage: Damage) -> Case {
    let name = format!("place {}, {damage:?}", sheet + 1);
    for _ in 0..10_000 {
        let lent = Composable::any(random, 2).lent();
        if let Some(sheets) = damage.done_to(random, Call::Compose, &lent, sheet) {
            return Case::new(name, Call::Compose, sheets).with_tray(random.below(32));
        }
    }
    panic!("{name}: no mappings allow it");
}
