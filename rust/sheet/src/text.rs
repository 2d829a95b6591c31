//! What all text forms share: lines with comments, and where a text is wrong.

use std::fmt;

/// A place in a text where something else was expected.
#[derive(Debug, Clone, PartialEq, Eq)]
pub struct TextError {
    /// The file, as it was named.
    pub file: String,
    /// The line, counted from 1; none where the whole file is meant.
    pub line: Option<usize>,
    /// What is there and what was expected.
    pub what: String,
}

impl TextError {
    /// An error at a line.
    pub(crate) fn at(file: &str, line: usize, what: impl Into<String>) -> Self {
        TextError { file: file.to_string(), line: Some(line), what: what.into() }
    }

    /// An error about the whole file.
    pub(crate) fn of(file: &str, what: impl Into<String>) -> Self {
        TextError { file: file.to_string(), line: None, what: what.into() }
    }
}

impl fmt::Display for TextError {
    fn fmt(&self, out: &mut fmt::Formatter<'_>) -> fmt::Result {
        match self.line {
            Some(line) => write!(out, "{} line {line}: {}", self.file, self.what),
            None => write!(out, "{}: {}", self.file, self.what),
        }
    }
}

impl std::error::Error for TextError {}

/// The lines on which a text states its facts, by the facts' numbers.
#[derive(Debug, Clone, Default, PartialEq, Eq)]
pub struct Lines {
    /// The line of each node, or of each node's image.
    pub nodes: Vec<usize>,
    /// The line of each link, or of each link's image.
    pub links: Vec<usize>,
    /// The line of each column, or of each column's image.
    pub columns: Vec<usize>,
    /// The line of each equation.
    pub equations: Vec<usize>,
    /// For each table, the line of each row of a matching.
    pub rows: Vec<Vec<usize>>,
}

/// A line that states something.
pub(crate) struct Line<'a> {
    pub(crate) number: usize,
    pub(crate) text: &'a str,
}

/// The lines that state something: a byte order mark, comments from `#` to the
/// line's end, blanks around a line and empty lines are left out.
pub(crate) fn stating_lines(text: &str) -> impl Iterator<Item = Line<'_>> {
    let lines = without_mark(text).lines().enumerate();
    lines.filter_map(|(place, line)| {
        let text = line.split('#').next().unwrap_or_default().trim();
        (!text.is_empty()).then_some(Line { number: place + 1, text })
    })
}

/// The text without a byte order mark.
pub(crate) fn without_mark(text: &str) -> &str {
    text.strip_prefix('\u{feff}').unwrap_or(text)
}

#[cfg(test)]
mod tests {
    use super::*;

    #[test]
    fn comments_blanks_marks_and_carriage_returns_state_nothing() {
        let text = "\u{feff}# head\r\n\r\n  node A # first\r\n#\nnode B\n";
        let lines: Vec<(usize, &str)> =
            stating_lines(text).map(|line| (line.number, line.text)).collect();
        assert_eq!(lines, [(3, "node A"), (5, "node B")]);
    }

    #[test]
    fn errors_name_file_and_line() {
        assert_eq!(TextError::at("a.schema", 3, "odd").to_string(), "a.schema line 3: odd");
        assert_eq!(TextError::of("a.schema", "empty").to_string(), "a.schema: empty");
    }
}
