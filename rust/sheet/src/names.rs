//! Names of nodes, links and columns, and lists of them for messages.

/// Whether a word can be a name: letters, digits, `_` and `-`, the first a
/// letter or `_`.  A table's name is also its file's name, so nothing else is
/// taken.
///
/// ```
/// assert!(sheet::names::is_name("Metal-Loss_2"));
/// assert!(!sheet::names::is_name("2nd"));
/// assert!(!sheet::names::is_name("a.b"));
/// ```
pub fn is_name(word: &str) -> bool {
    let mut letters = word.chars();
    let starts_well = letters.next().is_some_and(|first| first.is_alphabetic() || first == '_');
    starts_well && letters.all(|letter| letter.is_alphanumeric() || letter == '_' || letter == '-')
}

/// What a name is made of, for messages.
pub(crate) const NAME_RULE: &str =
    "a name has letters, digits, _ and -, and begins with a letter or _";

/// The header of the row numbers in a CSV file, which no link or column may
/// have as its name.
pub(crate) const ROW: &str = "row";

/// Names in a list for messages, or `none`.
pub(crate) fn listed<S: AsRef<str>>(names: impl IntoIterator<Item = S>) -> String {
    let names: Vec<String> = names.into_iter().map(|name| name.as_ref().to_string()).collect();
    match names.is_empty() {
        true => "none".to_string(),
        false => names.join(", "),
    }
}
