//! What several test programs share: the examples, folders to write in, and
//! running the command.

#![allow(dead_code, unused_imports)]

pub mod generate;

pub use vectors::build::hex;

use sheet::Question;
use std::fs;
use std::path::{Path, PathBuf};
use std::process::{Command, Output, Stdio};

/// The folder of an example.
pub fn example(name: &str) -> PathBuf {
    repository().join("examples").join(name)
}

/// The folder of the tool's documentation.
pub fn documentation() -> PathBuf {
    repository().join("docs/sheet")
}

/// The repository's folder.
pub fn repository() -> PathBuf {
    Path::new(env!("CARGO_MANIFEST_DIR")).join("../..")
}

/// A folder of a test's own, new at each run.
pub struct Folder(PathBuf);

impl Folder {
    pub fn new(name: &str) -> Self {
        let path = Path::new(env!("CARGO_TARGET_TMPDIR")).join(name);
        let _ = fs::remove_dir_all(&path);
        fs::create_dir_all(&path).expect("a new folder");
        Folder(path)
    }

    /// A folder with a copy of an example.
    pub fn with_example(name: &str, example_name: &str) -> Self {
        let folder = Folder::new(name);
        copy(&example(example_name), &folder.0);
        folder
    }

    pub fn path(&self) -> &Path {
        &self.0
    }

    pub fn join(&self, name: &str) -> PathBuf {
        self.0.join(name)
    }

    /// Writes a file, and the folder it stands in.
    pub fn write(&self, name: &str, content: impl AsRef<[u8]>) {
        let path = self.join(name);
        fs::create_dir_all(path.parent().expect("a folder")).expect("the folder");
        fs::write(path, content).expect("a written file");
    }

    pub fn read(&self, name: &str) -> Vec<u8> {
        fs::read(self.join(name)).expect("a file")
    }

    /// The names of everything in this folder, sorted.
    pub fn names(&self) -> Vec<String> {
        names_in(&self.0)
    }

    /// Every file below this folder with its bytes, and every folder, ending in `/`.
    pub fn files(&self) -> Vec<(String, Vec<u8>)> {
        let mut files = Vec::new();
        let mut folders = vec![String::new()];
        while let Some(folder) = folders.pop() {
            for name in names_in(&self.join(&folder)) {
                let name = format!("{folder}{name}");
                match self.join(&name).is_dir() {
                    true => {
                        files.push((format!("{name}/"), Vec::new()));
                        folders.push(format!("{name}/"));
                    }
                    false => files.push((name.clone(), self.read(&name))),
                }
            }
        }
        files.sort();
        files
    }

    /// Runs the command in this folder.
    pub fn sheet(&self, line: &str) -> Ran {
        let words: Vec<&str> = line.split_whitespace().collect();
        self.run(&words, b"")
    }

    /// Runs the command in this folder with words that may have blanks, and
    /// standard input.
    pub fn run(&self, words: &[&str], input: &[u8]) -> Ran {
        let mut command = command(&self.0);
        let mut child = command.args(words).spawn().expect("a started command");
        let mut stdin = child.stdin.take().expect("standard input");
        // A command that does not read its input may have ended already.
        let _ = std::io::Write::write_all(&mut stdin, input);
        drop(stdin);
        Ran(child.wait_with_output().expect("an ended command"))
    }
}

/// The command in a folder, everything piped.
pub fn command(folder: &Path) -> Command {
    let mut command = Command::new(env!("CARGO_BIN_EXE_sheet"));
    command.current_dir(folder);
    command.stdin(Stdio::piped()).stdout(Stdio::piped()).stderr(Stdio::piped());
    command
}

pub fn names_in(folder: &Path) -> Vec<String> {
    let entries = fs::read_dir(folder).expect("a folder");
    let mut names: Vec<String> = entries
        .map(|entry| entry.expect("an entry").file_name().to_string_lossy().into_owned())
        .collect();
    names.sort();
    names
}

pub fn copy(from: &Path, to: &Path) {
    for name in names_in(from) {
        let (from, to) = (from.join(&name), to.join(&name));
        if from.is_dir() {
            fs::create_dir_all(&to).expect("a new folder");
            copy(&from, &to);
        } else {
            fs::copy(&from, &to).expect("a copied file");
        }
    }
}

/// What a command left behind.
pub struct Ran(pub Output);

impl Ran {
    pub fn status(&self) -> i32 {
        self.0.status.code().expect("an exit status")
    }

    pub fn out(&self) -> String {
        String::from_utf8_lossy(&self.0.stdout).into_owned()
    }

    pub fn err(&self) -> String {
        String::from_utf8_lossy(&self.0.stderr).into_owned()
    }

    /// Done: nothing on standard error, and this on standard output.
    pub fn printed(&self, expected: &str) {
        assert_eq!(self.err(), "");
        assert_eq!(self.out(), expected);
        assert_eq!(self.status(), 0);
    }

    /// Done with nothing printed.
    pub fn silent(&self) {
        self.printed("");
    }

    /// Refused: nothing on standard output, and this on standard error.
    pub fn refused(&self, expected: &str) {
        assert_eq!(self.err(), expected);
        assert_eq!(self.out(), "");
        assert_eq!(self.status(), 1);
    }

    /// Bad usage or bad text: nothing on standard output, and this on standard
    /// error.
    pub fn bad(&self, expected: &str) {
        assert_eq!(self.err(), expected);
        assert_eq!(self.out(), "");
        assert_eq!(self.status(), 2);
    }
}

/// S, T and mapping of the base and book examples.
pub const MAPPED: &str = "vendor.schema operator.schema vendor-to-operator.mapping";

/// The four schemas of the dig example.
pub const DIG_SCHEMAS: &str = "vendor.schema needed.schema joined.schema digs.schema";

/// F, G and H of the dig example.
pub const DIG_MAPPINGS: &str =
    "needed-to-vendor.mapping needed-to-joined.mapping joined-to-digs.mapping";

/// S, T and U of the exchange example.
pub const EXCHANGE_SCHEMAS: &str = "vendor.schema exchange.schema operator.schema";

/// F and G of the exchange example.
pub const EXCHANGE_MAPPINGS: &str = "vendor-to-exchange.mapping exchange-to-operator.mapping";

/// Document 01's case 7, with a link before a and one after f.
pub const RULED: [&str; 15] = [
    "node S",
    "node A",
    "node B",
    "node C",
    "node D",
    "node E",
    "node G",
    "link S.s -> A",
    "link A.a -> B",
    "link B.b -> D",
    "link A.c -> C",
    "link C.d -> D",
    "link D.f -> E",
    "link E.g -> G",
    "equation A.a.b = A.c.d",
];

/// The sentence of 7 about a mapping to a schema.
pub fn misfit(to: &str) -> String {
    format!(
        "an image is missing in {to}, does not join, has the wrong end, or an attribute's image \
         has another kind or sits at another node than its node's image"
    )
}

/// Facts, one a line.
pub fn lines(facts: &[&str]) -> String {
    facts.iter().map(|fact| format!("{fact}\n")).collect()
}

/// So many links from A to B, each equal to the next by an equation.
pub fn equal_links(name: &str, count: usize) -> String {
    let links = (0..count).map(|number| format!("link A.{name}{number} -> B\n"));
    let next = |number: usize| format!("equation A.{name}{number} = A.{name}{}\n", number + 1);
    links.chain((0..count - 1).map(next)).collect()
}

/// A table with only row numbers.
pub fn bare_rows(count: usize) -> String {
    let rows = (0..count).map(|row| format!("{row}\n"));
    format!("row\n{}", rows.collect::<String>())
}

/// The number of the refusal, whose cause is found and told; 0 if accepted.
pub fn cause_is_found(question: &Question, seed: u64) -> usize {
    let Err(refusal) = question.ask() else { return 0 };
    let explanation = question.explain(refusal);
    let text = explanation.to_string();
    assert!(!explanation.causes.is_empty(), "seed {seed}: {text}");
    assert_eq!(explanation.refusal, refusal);
    let tag = format!("({}, {})", refusal.number, refusal.word());
    assert!(text.lines().next().unwrap().ends_with(&tag), "seed {seed}: {text}");
    usize::from(refusal.number)
}
