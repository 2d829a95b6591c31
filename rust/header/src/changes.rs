//! Headers with a mistake, each of which the program must find.

use crate::read::{Constant, Function, Header, Parameter, Word};

/// A header's text with a mistake.
#[derive(Debug, Clone)]
pub struct Change {
    /// The mistake.
    pub name: String,
    /// The text.
    pub text: String,
}

/// A word of the text, and what is written in its place.
type Edit<'a> = (&'a Word, &'a str);

impl Change {
    fn new(name: String, text: &str, edits: &[Edit]) -> Self {
        let mut edits: Vec<&Edit> = edits.iter().collect();
        edits.sort_by_key(|(word, _)| word.at.start);
        let mut changed = text.to_string();
        for (word, other) in edits.into_iter().rev() {
            changed.replace_range(word.at.clone(), other);
        }
        Change { name, text: changed }
    }
}

/// Two words, each in the other's place.
fn exchange<'a>(one: &'a Word, other: &'a Word) -> [Edit<'a>; 2] {
    [(one, other.text.as_str()), (other, one.text.as_str())]
}

/// All pairs of a list, the earlier first.
fn pairs<T>(list: &[T]) -> impl Iterator<Item = (&T, &T)> {
    list.iter()
        .enumerate()
        .flat_map(|(place, one)| list[place + 1..].iter().map(move |other| (one, other)))
}

/// Each constant with a number one larger, and with one smaller.
pub fn other_numbers(text: &str, header: &Header) -> Vec<Change> {
    let mut changes = Vec::new();
    for constant in &header.constants {
        let name = &constant.name.text;
        let value = header.value(name).expect("a constant with a number");
        for other in [value + 1, value - 1].map(|other| other.to_string()) {
            let edit = (&constant.value, other.as_str());
            changes.push(Change::new(format!("{name} = {other}"), text, &[edit]));
        }
    }
    changes
}

/// Each pair of constants with the numbers of each other, where these differ.
pub fn exchanged_numbers(text: &str, header: &Header) -> Vec<Change> {
    let change = |(one, other): (&Constant, &Constant)| {
        let name = format!("{} and {}", one.name.text, other.name.text);
        Change::new(name, text, &exchange(&one.value, &other.value))
    };
    let differ = |(one, other): &(&Constant, &Constant)| !have_one_number(header, one, other);
    pairs(&header.constants).filter(differ).map(change).collect()
}

fn have_one_number(header: &Header, one: &Constant, other: &Constant) -> bool {
    header.value(&one.name.text) == header.value(&other.name.text)
}

/// The names of each pair of constants that have one number.
pub fn equal_numbers(header: &Header) -> Vec<[&str; 2]> {
    let alike = pairs(&header.constants).filter(|(one, other)| have_one_number(header, one, other));
    alike.map(|(one, other)| [one.name.text.as_str(), other.name.text.as_str()]).collect()
}

/// Each pair of a prototype's parameters of one type with the names of each
/// other; and each pair of its sheets, with the names of their lengths.
pub fn exchanged_parameters(text: &str, prototype: &Function) -> Vec<Change> {
    let parameters = &prototype.parameters;
    let change = |one: &Parameter, other: &Parameter, edits: &[Edit]| {
        let (one, other) = (&one.name.text, &other.name.text);
        Change::new(format!("{}: {one} and {other}", prototype.name.text), text, edits)
    };
    let length = |sheet: &Parameter| {
        let name = format!("{}_len", sheet.name.text);
        parameters.iter().find(|parameter| parameter.name.text == name)
    };
    let mut changes = Vec::new();
    for (one, other) in pairs(parameters).filter(|(one, other)| one.kind == other.kind) {
        let names = exchange(&one.name, &other.name);
        changes.push(change(one, other, &names));
        if let (Some(first), Some(second)) = (length(one), length(other)) {
            let lengths = exchange(&first.name, &second.name);
            changes.push(change(one, other, &[names, lengths].concat()));
        }
    }
    changes
}

/// Each pair of prototypes with the names of each other, but for pairs with the
/// same parameters: there the declarations stay the same.
pub fn exchanged_functions(text: &str, header: &Header) -> Vec<Change> {
    let names = |function: &Function| {
        function.parameters.iter().map(|p| p.name.text.clone()).collect::<Vec<_>>()
    };
    let differ = |(one, other): &(&Function, &Function)| names(one) != names(other);
    let change = |(one, other): (&Function, &Function)| {
        let name = format!("{} and {}", one.name.text, other.name.text);
        Change::new(name, text, &exchange(&one.name, &other.name))
    };
    pairs(&header.prototypes).filter(differ).map(change).collect()
}
