//! The header taken apart: its constants, prototypes and inline functions, and
//! where each of their names stands in the text.
//!
//! Whatever else a header can have is an error, so that nothing in it is passed
//! over.

use std::ops::Range;

/// A word of the header's text.
#[derive(Debug, Clone, PartialEq, Eq)]
pub struct Word {
    /// The word.
    pub text: String,
    /// The bytes of the header's text where it stands.
    pub at: Range<usize>,
}

/// A constant of an enum.
#[derive(Debug, Clone)]
pub struct Constant {
    /// Its name.
    pub name: Word,
    /// Its number, as it is written.
    pub value: Word,
}

/// A parameter of a function.
#[derive(Debug, Clone)]
pub struct Parameter {
    /// Its C type.
    pub kind: String,
    /// Its name.
    pub name: Word,
}

/// A function's name and types.
#[derive(Debug, Clone)]
pub struct Function {
    /// The C type of what it gives.
    pub gives: String,
    /// Its name.
    pub name: Word,
    /// Its parameters, in order.
    pub parameters: Vec<Parameter>,
}

/// What a header declares.
#[derive(Debug, Clone, Default)]
pub struct Header {
    /// The constants of all enums.
    pub constants: Vec<Constant>,
    /// The functions that are declared only.
    pub prototypes: Vec<Function>,
    /// The functions that are defined in the header.
    pub inlines: Vec<Function>,
}

impl Header {
    /// Takes a header's text apart.
    pub fn read(text: &str) -> Result<Self, String> {
        let words = words(&bare(text)?);
        let mut rest = Rest { words: &words };
        let mut header = Header::default();
        while let Some(first) = rest.words.first() {
            match first.text.as_str() {
                "enum" => header.constants.extend(rest.constants()?),
                "static" => header.inlines.push(rest.inline()?),
                _ => header.prototypes.push(rest.prototype()?),
            }
        }
        Ok(header)
    }

    /// The number of a constant.
    pub fn value(&self, constant: &str) -> Option<u64> {
        let found = self.constants.iter().find(|found| found.name.text == constant)?;
        found.value.text.parse().ok()
    }

    /// The prototype of a function.
    pub fn prototype(&self, name: &str) -> Option<&Function> {
        self.prototypes.iter().find(|function| function.name.text == name)
    }
}

/// The directives that a header has.  None of them makes a constant.
const DIRECTIVES: [&str; 6] = [
    "#ifndef MIGRATION_H",
    "#define MIGRATION_H",
    "#include <stddef.h>",
    "#include <stdint.h>",
    "#ifdef __cplusplus",
    "#endif",
];

/// The text with blanks in place of comments, of directives and of what is for
/// C++ alone; all else stands where it stood.
fn bare(text: &str) -> Result<String, String> {
    let mut bare = String::new();
    let mut for_c_plus_plus = false;
    for line in without_comments(text)?.split_inclusive('\n') {
        let directive = line.trim();
        let is_directive = directive.starts_with('#');
        if is_directive && !DIRECTIVES.contains(&directive) {
            return Err(format!("the header has {directive}, which is not tried"));
        }
        match directive {
            "#ifdef __cplusplus" => for_c_plus_plus = true,
            "#endif" => for_c_plus_plus = false,
            _ => {}
        }
        let keep = !is_directive && !for_c_plus_plus;
        bare.push_str(&if keep { line.to_string() } else { blanks(line) });
    }
    Ok(bare)
}

/// The text with blanks in place of comments.
fn without_comments(text: &str) -> Result<String, String> {
    let mut bare = String::new();
    let mut rest = text;
    while let Some(open) = rest.find("/*") {
        let end = rest[open..].find("*/").ok_or("the header has a comment without an end")?;
        let end = open + end + "*/".len();
        bare.push_str(&rest[..open]);
        bare.push_str(&blanks(&rest[open..end]));
        rest = &rest[end..];
    }
    Ok(bare + rest)
}

/// As many blanks as the text has bytes, in as many lines.
fn blanks(text: &str) -> String {
    text.bytes().map(|byte| if byte == b'\n' { '\n' } else { ' ' }).collect()
}

/// The words of a text: names and numbers, and each other sign by itself.
fn words(text: &str) -> Vec<Word> {
    let in_name = |sign: char| sign.is_ascii_alphanumeric() || sign == '_';
    let mut words: Vec<Word> = Vec::new();
    for (at, sign) in text.char_indices().filter(|(_, sign)| !sign.is_whitespace()) {
        match words.last_mut() {
            Some(last) if last.at.end == at && in_name(sign) && last.text.ends_with(in_name) => {
                last.text.push(sign);
                last.at.end += 1;
            }
            _ => words.push(Word { text: sign.to_string(), at: at..at + sign.len_utf8() }),
        }
    }
    words
}

/// The words that are not read yet.
struct Rest<'a> {
    words: &'a [Word],
}

impl<'a> Rest<'a> {
    /// The words before the next `end`, which is passed over too.
    fn until(&mut self, end: &str) -> Result<&'a [Word], String> {
        let found = self.words.iter().position(|word| word.text == end);
        let (before, after) =
            self.words.split_at(found.ok_or(format!("the header lacks a '{end}'"))?);
        self.words = &after[1..];
        Ok(before)
    }

    /// Passes over the next word, which must be this one.
    fn pass(&mut self, word: &str) -> Result<(), String> {
        match self.until(word)? {
            [] => Ok(()),
            before => Err(format!("the header has '{}', which is not tried", joined(before))),
        }
    }

    /// `enum { NAME = NUMBER, .. };`
    fn constants(&mut self) -> Result<Vec<Constant>, String> {
        self.pass("enum")?;
        self.pass("{")?;
        let inside = self.until("}")?;
        self.pass(";")?;
        let constant = |words: &[Word]| match words {
            [name, sign, value] if sign.text == "=" => {
                Ok(Constant { name: name.clone(), value: value.clone() })
            }
            _ => Err(format!("'{}' is not a constant with its number", joined(words))),
        };
        inside.split(|word| word.text == ",").map(constant).collect()
    }

    /// `TYPE NAME(PARAMETERS);`
    fn prototype(&mut self) -> Result<Function, String> {
        let function = self.function()?;
        self.pass(";")?;
        Ok(function)
    }

    /// `static inline TYPE NAME(PARAMETERS) { .. }`
    fn inline(&mut self) -> Result<Function, String> {
        self.pass("static")?;
        self.pass("inline")?;
        let function = self.function()?;
        self.pass("{")?;
        self.until("}")?;
        Ok(function)
    }

    /// `TYPE NAME(PARAMETERS)`
    fn function(&mut self) -> Result<Function, String> {
        let (gives, name) = typed(self.until("(")?)?;
        let parameter = |words: &[Word]| {
            let (kind, name) = typed(words)?;
            Ok(Parameter { kind, name })
        };
        let parameters = self.until(")")?.split(|word| word.text == ",").map(parameter);
        Ok(Function { gives, name, parameters: parameters.collect::<Result<_, String>>()? })
    }
}

/// A type and the name after it.
fn typed(words: &[Word]) -> Result<(String, Word), String> {
    match words {
        [kind @ .., name] if !kind.is_empty() => Ok((joined(kind), name.clone())),
        _ => Err(format!("'{}' is not a type and a name", joined(words))),
    }
}

fn joined(words: &[Word]) -> String {
    words.iter().map(|word| word.text.as_str()).collect::<Vec<_>>().join(" ")
}

#[cfg(test)]
mod tests {
    use super::*;

    #[test]
    fn a_header_is_taken_apart() {
        let text = "/* enum { NO = 0 }; */\n#include <stdint.h>\nenum { ONE = 1, TWO = 2 };\n\
                    static inline int low(uint64_t a) { return a < 7; }\n\
                    uint64_t call(const uint8_t *s, size_t s_len);\n";
        let header = Header::read(text).expect("a header");
        assert_eq!(header.constants.len(), 2);
        assert_eq!(
            [header.value("ONE"), header.value("TWO"), header.value("NO")],
            [Some(1), Some(2), None]
        );
        assert_eq!(header.inlines[0].name.text, "low");
        let call = header.prototype("call").expect("a prototype");
        let parameters: Vec<_> =
            call.parameters.iter().map(|p| (p.kind.as_str(), p.name.text.as_str())).collect();
        assert_eq!(parameters, [("const uint8_t *", "s"), ("size_t", "s_len")]);
        assert_eq!(call.gives, "uint64_t");
        for word in [&call.name, &call.parameters[1].name, &header.constants[1].value] {
            assert_eq!(text[word.at.clone()], word.text);
        }
    }

    #[test]
    fn what_is_not_known_is_an_error() {
        let unknown = [
            "#define LIMIT 7\n",
            "enum { ONE };",
            "enum { ONE = 1, };",
            "enum numbers { ONE = 1 };",
            "extern const int one;",
            "uint64_t call(void);",
            "/* no end",
        ];
        for text in unknown {
            assert!(Header::read(text).is_err(), "{text}");
        }
    }
}
