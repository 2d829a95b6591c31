//! The header's constants: for refusals, by the papers' words; for sizes; and for
//! stacks, by the wrapper's names.

use reference::refusal;

/// Names and the reference's numbers of them.
macro_rules! numbers {
    ($($name:ident)*) => { [$((stringify!($name), refusal::$name)),*] };
}

/// The papers' words "cut" to "still held" as they stand in names of constants,
/// each with its number.
pub const REFUSALS: [(&str, u8); 19] = numbers! {
    CUT TAIL COUNT STRAY RING CROWD MISFIT BROKEN_RULE DANGLING OFF_SCALE BENT_ROW UNEVEN UNPAIRED
    WIDE OVERFULL SMALL_TRAY NO_MATCH ABSENT STILL_HELD
};

/// The header's constant for a refusal.
pub fn constant(number: u8) -> Option<String> {
    let found = REFUSALS.iter().find(|(_, of)| *of == number);
    found.map(|(name, _)| format!("MIGRATION_{name}"))
}

/// The most bytes of an instance sheet.
pub const INSTANCE_BYTES: &str = "MIGRATION_INSTANCE_BYTES";

/// The most bytes of a matching sheet.
pub const MATCHING_BYTES: &str = "MIGRATION_MATCHING_BYTES";

/// The most bytes of a path sheet.
pub const PATH_BYTES: &str = "MIGRATION_PATH_BYTES";

/// The most bytes of a chain sheet.
pub const CHAIN_BYTES: &str = "MIGRATION_CHAIN_BYTES";

/// The most bytes of a mapping sheet.
pub const MAPPING_BYTES: &str = "MIGRATION_MAPPING_BYTES";

/// Names of the header and the wrapper's numbers of them.
macro_rules! stacks {
    ($($name:ident)*) => { [$((concat!("MIGRATION_", stringify!($name)), migration::$name)),*] };
}

/// The bytes of stack that the calls need, which are tried where the wrapper is.
pub const STACKS: [(&str, usize); 12] = stacks! {
    STACK_CHECK_SCHEMA STACK_CHECK_MAPPING STACK_CHECK_INSTANCE STACK_FIRST_PATH STACK_PATH_CHAIN
    STACK_DELTA STACK_SIGMA STACK_PI STACK_QUERY STACK_COMPOSE STACK_MATCHINGS STACK_CHANGES
};

/// The constants that are compared with the wrapper's numbers, since no call tells
/// them: the stacks, and the bytes of a chain of 255 steps, which no chain has.
pub fn compared() -> impl Iterator<Item = (&'static str, usize)> {
    [(CHAIN_BYTES, migration::MOST_CHAIN_BYTES)].into_iter().chain(STACKS)
}
