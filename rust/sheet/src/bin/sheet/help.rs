//! The help texts.

use crate::commands;
use crate::failure::Failure;
use crate::output;

/// Prints the overview, or a command's help.
pub fn print(command: Option<&str>) -> Result<(), Failure> {
    match command {
        None | Some("help") => output::print(OVERVIEW),
        Some(name) => match text(name) {
            Some(text) => output::print(text),
            None => {
                let names = commands::names();
                Err(Failure::usage("", format!("no command is named `{name}`; expected {names}")))
            }
        },
    }
}

fn text(command: &str) -> Option<&'static str> {
    Some(match command {
        "pack" => PACK,
        "show" => SHOW,
        "check" => CHECK,
        "delta" => DELTA,
        "sigma" => SIGMA,
        "pi" => PI,
        "query" => QUERY,
        "compose" => COMPOSE,
        "add-row" => ADD_ROW,
        "withdraw-row" => WITHDRAW_ROW,
        "match" => MATCH,
        "turn" => TURN,
        "first-path" => FIRST_PATH,
        "same-path" => SAME_PATH,
        "why" => WHY,
        "draw" => DRAW,
        "version" => VERSION,
        _ => return None,
    })
}

/// What `sheet help` prints.
pub const OVERVIEW: &str = "\
sheet: inspection run records from text and CSV to the proved calls and back

  sheet pack schema|mapping|instance|matching|path|row ..
                                                       text to a sheet
  sheet show schema|mapping|instance|matching|path ..  a sheet to text or tables
  sheet check schema|mapping|instance ..               ask the proved check
  sheet delta S T MAPPING BOOK                         pull a book back to S
  sheet sigma S T MAPPING RUN                          push a run, tables joined
  sheet pi S T MAPPING RUN                             push a run, rows fitted
  sheet query S1 S2 S3 S4 F G H RUN                    project, join, unite
  sheet compose S T U F G                              two mappings as one
  sheet add-row S T MAPPING RUN TABLE NAME=VALUE ..    add a row to a run
  sheet withdraw-row S T MAPPING RUN TABLE ROW         take a row out of a run
  sheet match pushed|raw S T MAPPING RUN BOOK LIST     check a list of partners
  sheet turn pushed-to-raw|raw-to-pushed S T MAPPING RUN BOOK LIST
                                                       turn it to the other side
  sheet first-path SCHEMA PATH                         the first equal path
  sheet same-path SCHEMA PATH PATH                     are two paths equal?
  sheet why SCHEMA PATH PATH                           by which equations?
  sheet draw schema|mapping ..                         Graphviz text
  sheet help COMMAND                                   more on a command

What is read: a schema or mapping is a text file, an instance (RUN, BOOK) a
folder with one CSV file for each table, a LIST a CSV file, a PATH a text like
Dent.joint. Each may be a sheet instead: a file ending in .sheet, sheet:FILE, or
- for a sheet on standard input. text:FILE is text whatever its name.

What is written: -o PATH writes a sheet where PATH ends in .sheet or begins with
sheet:, else text; without it the result goes to standard output. Existing files
are kept unless --force is given.

Exit status: 0 done, for same-path equal; 1 refused by the proved call, with
number, word and cause on standard error, for same-path also unequal; 2 bad
usage, bad text, or a file that cannot be read or written. Nothing is written on
1 and 2 but the `unequal` of same-path.
";

const PACK: &str = "\
sheet pack schema SCHEMA
sheet pack mapping S T MAPPING
sheet pack instance SCHEMA INSTANCE
sheet pack matching SCHEMA LIST
sheet pack path SCHEMA PATH
sheet pack row SCHEMA TABLE NAME=VALUE ..

Writes text as a sheet. The proved check is asked first, and nothing is written
if it refuses. Of a matching and of a row only the schema is checked: which list
is a matching is a question for `sheet match`, and which row fits a run one for
`sheet add-row`.

  -o FILE       write the sheet to FILE instead of standard output
  --force       replace FILE if it exists
  --hex         write hexadecimal bytes as text
  --unchecked   do not ask the proved check

Example: sheet pack --hex schema vendor.schema
";

const SHOW: &str = "\
sheet show schema SCHEMA
sheet show mapping S T MAPPING
sheet show instance SCHEMA INSTANCE
sheet show matching SCHEMA INSTANCE LIST
sheet show path SCHEMA PATH

Writes a sheet as text: a schema, mapping, matching or path in its text form, an
instance as aligned tables, or with -o as a folder of CSV files. The sheet is
one that the proved check accepts. A schema sheet has no names; node0, link0,
column0 and so on are used. The INSTANCE of a matching is the one whose rows it
gives partners to: Sigma's result on the pushed side, the run on the raw side.

  -o PATH       write to a file, or to a folder for an instance
  --force       replace PATH if it exists

Example: sheet show instance vendor.schema run.sheet -o run
";

const CHECK: &str = "\
sheet check schema SCHEMA
sheet check mapping S T MAPPING
sheet check instance SCHEMA INSTANCE

Asks the proved check. For an accepted mapping it also tells whether sigma (with
match and turn) and pi take it, and if not, why.

Example: sheet check mapping vendor.schema operator.schema vendor-to-operator.mapping
";

const DELTA: &str = "\
sheet delta S T MAPPING BOOK

Pulls an instance of T back to S: the table at a node of S is a copy of the
table at its image, a link follows its image path, a column copies its image.

  -o PATH       write a folder of CSV files, or a sheet if PATH ends in .sheet
  --force       replace PATH if it exists
  --tray BYTES  lend the call a tray of BYTES (refusal 16 if it is too small)

Example: sheet delta vendor.schema operator.schema vendor-to-operator.mapping book
";

const SIGMA: &str = "\
sheet sigma S T MAPPING RUN

Pushes an instance of S to T along an even mapping: the table at a node of T is
the joined list of the tables that go there, in the order of S.

  -o PATH       write a folder of CSV files, or a sheet if PATH ends in .sheet
  --force       replace PATH if it exists
  --tray BYTES  lend the call a tray of BYTES (refusal 16 if it is too small)

Example: sheet sigma vendor.schema operator.schema vendor-to-operator.mapping run -o pushed
";

const PI: &str = "\
sheet pi S T MAPPING RUN

Pushes an instance of S to T by fitting choices: a row at a node of T is one row
for each way from there to a table of S, such that the links agree.

  -o PATH       write a folder of CSV files, or a sheet if PATH ends in .sheet
  --force       replace PATH if it exists
  --tray BYTES  lend the call a tray of BYTES (refusal 16 if it is too small)

Example: sheet pi parts.schema pairs.schema parts-to-pairs.mapping run
";

const QUERY: &str = "\
sheet query S1 S2 S3 S4 F G H RUN

Asks a run for a list, in three steps: projects it by delta along F, joins what
is left by pi along G, and unites the joined tables by sigma along H. RUN is an
instance of S1, the result one of S4. F goes from S2 to S1, G from S2 to S3, and
H from S3 to S4; G is a mapping that pi takes, H one that sigma takes.

S2 says what is asked for: which tables go into a line of the list, and by which
links they belong together. A row that finds no partner is in no line, and one
that finds several is in several.

  -o PATH       write a folder of CSV files, or a sheet if PATH ends in .sheet
  --force       replace PATH if it exists
  --tray BYTES  lend the call a tray of BYTES (refusal 16 if it is too small)

Example: sheet query vendor.schema needed.schema joined.schema digs.schema \\
             needed-to-vendor.mapping needed-to-joined.mapping \\
             joined-to-digs.mapping run -o digs
";

const COMPOSE: &str = "\
sheet compose S T U F G

Writes the mapping that F and then G make, as one: F goes from S to T, G from T to
U, the result from S to U. Each table and column goes to its image's image, each
link to the images of its image's links, joined as they are. To pull a book back
along the result by delta is to pull it back along G and then along F.

The text has the names of S on the left and those of U on the right, table by
table in the order of S. It has no comments; those of F and G stay with them.

  -o FILE       write to FILE, a sheet if FILE ends in .sheet
  --force       replace FILE if it exists
  --tray BYTES  lend the call a tray of BYTES (refusal 16 if it is too small)

Example: sheet compose vendor.schema exchange.schema operator.schema \\
             vendor-to-exchange.mapping exchange-to-operator.mapping
";

const ADD_ROW: &str = "\
sheet add-row S T MAPPING RUN TABLE NAME=VALUE ..

Adds a row at the end of a table of RUN, an instance of S, and pushes the changed
run to T as sigma does. Each link and each column of the table has its word, in
any order: joint=1 leads to row 1 of the link's table, station=650 is a value. A
row sheet, sheet:FILE, may stand for these words.

Tells the new row's number and prints the pushed tables. No file changes unless
-o or --pushed names it; where both do, both files change or none does.

  -o PATH        write the changed run to a folder of CSV files, or to a sheet if
                 PATH ends in .sheet; RUN itself is changed by -o RUN --force
  --pushed PATH  write the pushed tables to PATH instead of printing them
  --force        replace what exists
  --tray BYTES   lend the call trays of BYTES (refusal 16 if one is too small);
                 that of the run is never shorter than the run

Example: sheet add-row vendor.schema operator.schema vendor-to-operator.mapping \\
             run Dent joint=0 station=650 -o run --pushed pushed --force
";

const WITHDRAW_ROW: &str = "\
sheet withdraw-row S T MAPPING RUN TABLE ROW

Takes a row, by its number, out of a table of RUN, an instance of S, and pushes
the changed run to T as sigma does. No link may lead to the row. Later rows of the
table move down by one, and the links that lead to them are renumbered.

Tells which rows have moved and which links were renumbered, and prints the pushed
tables. No file changes unless -o or --pushed names it; where both do, both files
change or none does.

  -o PATH        write the changed run to a folder of CSV files, or to a sheet if
                 PATH ends in .sheet; RUN itself is changed by -o RUN --force
  --pushed PATH  write the pushed tables to PATH instead of printing them
  --force        replace what exists
  --tray BYTES   lend the call trays of BYTES (refusal 16 if one is too small);
                 that of the run is never shorter than the run

Example: sheet withdraw-row vendor.schema operator.schema \\
             vendor-to-operator.mapping run Dent 0 -o run --pushed pushed --force
";

const MATCH: &str = "\
sheet match pushed S T MAPPING RUN BOOK LIST
sheet match raw S T MAPPING RUN BOOK LIST

Checks a list of partners along an even mapping. On the pushed side it leads
from Sigma of the run to the book, its tables being those of T; on the raw side
from the run to Delta of the book, its tables being those of S.

Example: sheet match raw vendor.schema operator.schema vendor-to-operator.mapping run book raw.csv
";

const TURN: &str = "\
sheet turn pushed-to-raw S T MAPPING RUN BOOK LIST
sheet turn raw-to-pushed S T MAPPING RUN BOOK LIST

Turns a matching of one side into the one of the other side in which each row of
the run meets the same row of the book. Turning back gives the first list again.

  -o FILE       write FILE, ending in .csv or .sheet, instead of standard output
  --force       replace FILE if it exists
  --tray BYTES  lend the call a tray of BYTES (refusal 16 if it is too small)

Example: sheet turn pushed-to-raw vendor.schema operator.schema \\
             vendor-to-operator.mapping run book pushed.csv -o raw.csv
";

const FIRST_PATH: &str = "\
sheet first-path SCHEMA PATH

Prints the first of the paths that the schema's equations make equal to PATH, in
the order of paths: by length, then start node, then link numbers from the left.
Two paths are equal exactly where this is the same for both. A path is
NODE.LINK.LINK, or the node alone; sheet:FILE is a path sheet.

  -o FILE       write to FILE, a sheet if FILE ends in .sheet
  --force       replace FILE if it exists
  --tray BYTES  lend the call a tray of BYTES (refusal 16 if it is too small)

Example: sheet first-path operator.schema Anomaly.joint.upstream
";

const SAME_PATH: &str = "\
sheet same-path SCHEMA PATH PATH

Prints `equal` or `unequal`: whether the schema's equations make two paths
equal. A path is NODE.LINK.LINK, or the node alone; sheet:FILE is a path sheet.

Exit status: 0 equal; 1 unequal or refused; 2 as for every command.

Example: sheet same-path operator.schema Anomaly.joint.upstream Anomaly.reference
";

const WHY: &str = "\
sheet why SCHEMA PATH PATH

Tells by which equations two paths are equal: the steps from the first path to
the second, as few as there can be. Each step has a line: the path before it and
after it, with brackets around what is replaced, then the equation by its number
and which side is replaced, the left by the right or the right by the left.

For unequal paths it tells which starts or ends differ, if any do, and lists the
paths that are equal to each of the two. The exit status is 0 for these too,
unlike that of same-path.

Example: sheet why operator.schema Anomaly.joint.upstream Anomaly.reference
";

const DRAW: &str = "\
sheet draw schema SCHEMA
sheet draw mapping S T MAPPING

Writes Graphviz text. `dot -Tpng` makes a picture of it.

  -o FILE       write to FILE instead of standard output
  --force       replace FILE if it exists

Example: sheet draw schema vendor.schema | dot -Tpng -o vendor.png
";

const VERSION: &str = "\
sheet version

Prints the version.
";
