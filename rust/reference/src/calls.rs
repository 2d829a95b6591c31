//! The public calls.  "Sheets are judged in the order S, T, mapping, instance
//! or instances, path or paths; of transposition's two instances the run over S
//! comes first. ... Then 12, 13, 14, 15; then the matching sheet (1, 2, 17);
//! last 16. A refusal is the number and the sheet's place counted from 1 (0 for
//! 12 to 16)."  The calls of requests C-11 and C-14 of document 02 keep to that
//! order; the query of C-15, the changes of C-16 and the composing of C-17 have
//! orders of their own.

use crate::chains::Chain;
use crate::composed::composed;
use crate::instance::Instance;
use crate::mapping::Mapping;
use crate::matching::Matching;
use crate::migrate::{self, Gathering, Pushing};
use crate::paths::Path;
use crate::refusal::{demand, Judged, Refusal, SMALL_TRAY};
use crate::rows;
use crate::schema::Schema;

/// A judgement with the place of the sheet it is about.
fn at<T>(place: u8, judged: Judged<T>) -> Result<T, Refusal> {
    judged.map_err(|number| Refusal { number, place })
}

/// Checks a schema sheet (place 1).
pub fn check_schema(s: &[u8]) -> Result<(), Refusal> {
    at(1, Schema::accept(s)).map(|_| ())
}

/// Checks a mapping sheet (place 3) of schema S to schema T.
pub fn check_mapping(s: &[u8], t: &[u8], f: &[u8]) -> Result<(), Refusal> {
    Mapped::accept(s, t, f).map(|_| ())
}

/// Checks an instance sheet (place 2) over a schema.
pub fn check_instance(s: &[u8], i: &[u8]) -> Result<(), Refusal> {
    let schema = at(1, Schema::accept(s))?;
    at(2, Instance::accept(&schema, i)).map(|_| ())
}

/// "The path question now takes one path and yields, as a path sheet, the first
/// path equal to it in document 01's order": the answer's whole sheet.  Paths
/// with other starts or ends are unequal and have other answers.
pub fn first_path(s: &[u8], p: &[u8]) -> Result<Vec<u8>, Refusal> {
    let (schema, p) = accept_path(s, p)?;
    Ok(p.first_equal(&schema).to_sheet())
}

/// "For two equal paths they want the chain from the first lent path to the
/// second": the written chain.  "Unequal paths give "none", and that is given in
/// no other case."  Equal lists have the chain of 0 steps.
pub fn path_chain(s: &[u8], p: &[u8], q: &[u8]) -> Result<Option<Vec<u8>>, Refusal> {
    let (schema, p) = accept_path(s, p)?;
    let q = at(3, Path::accept(&schema, q))?;
    Ok(Chain::between(&schema, &p, &q).map(|chain| chain.to_sheet()))
}

/// Accepted S (place 1) and the path (2), of two paths the first.
fn accept_path(s: &[u8], p: &[u8]) -> Result<(Schema, Path), Refusal> {
    let schema = at(1, Schema::accept(s))?;
    let p = at(2, Path::accept(&schema, p))?;
    Ok((schema, p))
}

/// Delta of a T-instance (place 4): the result's whole sheet.
pub fn delta(s: &[u8], t: &[u8], f: &[u8], j: &[u8]) -> Result<Vec<u8>, Refusal> {
    let mapped = Mapped::accept(s, t, f)?;
    let j = at(4, Instance::accept(&mapped.t, j))?;
    mapped.delta(&j).map(|result| result.to_sheet())
}

/// Sigma of an S-instance (place 4): the result's whole sheet.
pub fn sigma(s: &[u8], t: &[u8], f: &[u8], i: &[u8]) -> Result<Vec<u8>, Refusal> {
    sigma_decoded(s, t, f, i).map(|(_, result)| result.to_sheet())
}

/// Sigma of an S-instance (place 4), decoded, with T.
pub(crate) fn sigma_decoded(
    s: &[u8],
    t: &[u8],
    f: &[u8],
    i: &[u8],
) -> Result<(Schema, Instance), Refusal> {
    let mapped = Mapped::accept(s, t, f)?;
    let i = at(4, Instance::accept(&mapped.s, i))?;
    let result = mapped.sigma(&i)?;
    Ok((mapped.t, result))
}

/// Pi of an S-instance (place 4): the result's whole sheet.
pub fn pi(s: &[u8], t: &[u8], f: &[u8], i: &[u8]) -> Result<Vec<u8>, Refusal> {
    let mapped = Mapped::accept(s, t, f)?;
    let i = at(4, Instance::accept(&mapped.s, i))?;
    let result = at(0, migrate::pi(&mapped.s, &mapped.t, &mapped.f, &i))?;
    Ok(result.to_sheet())
}

/// The query of request C-15 of document 02: it "takes four schemas, three
/// mappings F, G, H and a run, and gives Sigma along H of Pi along G of Delta
/// along F, as in definition 2 of source document 000. F goes from the second
/// schema to the first, G from the second to the third, H from the third to the
/// fourth."  The run is over the first schema, the result over the fourth: its
/// whole sheet.
#[expect(clippy::too_many_arguments, reason = "the request has eight sheets")]
pub fn query(
    s1: &[u8],
    s2: &[u8],
    s3: &[u8],
    s4: &[u8],
    f: &[u8],
    g: &[u8],
    h: &[u8],
    run: &[u8],
) -> Result<Vec<u8>, Refusal> {
    query_decoded([s1, s2, s3, s4, f, g, h, run]).map(|(_, result)| result.to_sheet())
}

/// The query of eight sheets in the order of their places, decoded, with the
/// fourth schema.
///
/// "Sheets are judged schemas first, then F, G, H, then the run; then 13 and 14
/// for G, 12 for H, and 15 after each migration in turn."  So 13, 14 and 12 come
/// before the first migration.
pub(crate) fn query_decoded(sheets: [&[u8]; 8]) -> Result<(Schema, Instance), Refusal> {
    let [s1, s2, s3, s4, f, g, h, run] = sheets;
    let s1 = at(1, Schema::accept(s1))?;
    let s2 = at(2, Schema::accept(s2))?;
    let s3 = at(3, Schema::accept(s3))?;
    let s4 = at(4, Schema::accept(s4))?;
    let f = at(5, Mapping::accept(&s2, &s1, f))?;
    let g = at(6, Mapping::accept(&s2, &s3, g))?;
    let h = at(7, Mapping::accept(&s3, &s4, h))?;
    let run = at(8, Instance::accept(&s1, run))?;
    let joining = at(0, Gathering::along(&s2, &s3, &g))?;
    let uniting = at(0, Pushing::along(&s3, &s4, &h))?;
    let projected = at(0, migrate::delta(&s2, &f, &run))?;
    let joined = at(0, joining.of(&projected))?;
    let united = at(0, uniting.of(&joined))?;
    Ok((s4, united))
}

/// The composed mapping of request C-17 of document 02: "For mappings F from S to T
/// and G from T to U, provide the composed mapping".  The result is the whole sheet
/// of a mapping from S to U.
///
/// "The composing call is lent S, T, U, F, G, judged in that order": places 1 to 5.
pub fn compose(s: &[u8], t: &[u8], u: &[u8], f: &[u8], g: &[u8]) -> Result<Vec<u8>, Refusal> {
    let s = at(1, Schema::accept(s))?;
    let t = at(2, Schema::accept(t))?;
    let u = at(3, Schema::accept(u))?;
    let f = at(4, Mapping::accept(&s, &t, f))?;
    let g = at(5, Mapping::accept(&t, &u, g))?;
    Ok(composed(&s, &f, &g).to_sheet())
}

/// The pushed side's checker: the list (place 6) is a matching from Sigma of
/// the run (place 4) to the book (place 5).
pub fn check_pushed(
    s: &[u8],
    t: &[u8],
    f: &[u8],
    run: &[u8],
    book: &[u8],
    list: &[u8],
) -> Result<(), Refusal> {
    Sides::accept(s, t, f, run, book)?.pushed_matching(list).map(|_| ())
}

/// The raw side's checker: the list (place 6) is a matching from the run (place
/// 4) to Delta of the book (place 5).
pub fn check_raw(
    s: &[u8],
    t: &[u8],
    f: &[u8],
    run: &[u8],
    book: &[u8],
    list: &[u8],
) -> Result<(), Refusal> {
    Sides::accept(s, t, f, run, book)?.raw_matching(list).map(|_| ())
}

/// Turns a matching of the pushed side into one of the raw side: the result's
/// whole sheet.
pub fn pushed_to_raw(
    s: &[u8],
    t: &[u8],
    f: &[u8],
    run: &[u8],
    book: &[u8],
    list: &[u8],
) -> Result<Vec<u8>, Refusal> {
    let sides = Sides::accept(s, t, f, run, book)?;
    let pushed = sides.pushed_matching(list)?;
    Ok(pushed.to_raw(&sides.mapped.f, &sides.run).to_sheet())
}

/// Turns a matching of the raw side into one of the pushed side: the result's
/// whole sheet.
pub fn raw_to_pushed(
    s: &[u8],
    t: &[u8],
    f: &[u8],
    run: &[u8],
    book: &[u8],
    list: &[u8],
) -> Result<Vec<u8>, Refusal> {
    let sides = Sides::accept(s, t, f, run, book)?;
    let raw = sides.raw_matching(list)?;
    Ok(raw.to_pushed(&sides.mapped.t, &sides.mapped.f).to_sheet())
}

/// The whole sheets after an accepted change of request C-16 of document 02.
#[derive(Debug, Clone, PartialEq, Eq)]
pub struct ChangedSheets {
    /// The changed run.
    pub run: Vec<u8>,
    /// "After each accepted change the pushed sheet equals a fresh Sigma of the
    /// changed run".
    pub pushed: Vec<u8>,
}

/// "Adding puts a row at its table's end with its links and values": both sheets
/// afterwards.
///
/// `run` is "the run in a tray with its byte length", `row` "an added row as a
/// sheet (links 9 bits, then values)".  The pushed tray's "old bytes are not
/// read", so that it is not lent before [`into_trays`].
pub fn add_row(
    s: &[u8],
    t: &[u8],
    f: &[u8],
    run: &[u8],
    run_length: usize,
    table: usize,
    row: &[u8],
) -> Result<ChangedSheets, Refusal> {
    changed([s, t, f, run_sheet(run, run_length)], |s, run| rows::added(s, run, table, row))
}

/// "withdrawing takes a row out and moves later rows of that table down by one,
/// links included": both sheets afterwards.  `row` is the row's number.
pub fn withdraw_row(
    s: &[u8],
    t: &[u8],
    f: &[u8],
    run: &[u8],
    run_length: usize,
    table: usize,
    row: usize,
) -> Result<ChangedSheets, Refusal> {
    changed([s, t, f, run_sheet(run, run_length)], |s, run| rows::withdrawn(s, run, table, row))
}

/// "the run in a tray with its byte length (one beyond the tray means the whole
/// tray)": the sheet of the run.
fn run_sheet(tray: &[u8], length: usize) -> &[u8] {
    tray.get(..length).unwrap_or(tray)
}

/// A change of the run, over S: "S, T, mapping, run and 12 are judged first",
/// then "the tests of the change itself have place 0".
fn changed(
    sheets: [&[u8]; 4],
    change: impl FnOnce(&Schema, &Instance) -> Judged<Instance>,
) -> Result<ChangedSheets, Refusal> {
    let [s, t, f, run] = sheets;
    let Mapped { s, t, f } = Mapped::accept(s, t, f)?;
    let run = at(4, Instance::accept(&s, run))?;
    let pushing = at(0, Pushing::along(&s, &t, &f))?;
    let run = at(0, change(&s, &run))?;
    let pushed = at(0, pushing.of(&run))?;
    Ok(ChangedSheets { run: run.to_sheet(), pushed: pushed.to_sheet() })
}

/// Writes both sheets of a change into the lent trays, of which the run's is the
/// one that the run stood in, and gives their byte lengths, the run's first: "16,
/// for either tray, comes last in both changes; a refused change leaves run and
/// pushed sheet unchanged."  The room is the whole tray, whatever length the run
/// had; bytes beyond each result keep their values.
pub fn into_trays(
    result: Result<ChangedSheets, Refusal>,
    run: &mut [u8],
    pushed: &mut [u8],
) -> Result<(usize, usize), Refusal> {
    let sheets = result?;
    let fit = sheets.run.len() <= run.len() && sheets.pushed.len() <= pushed.len();
    at(0, demand(fit, SMALL_TRAY))?;
    run[..sheets.run.len()].copy_from_slice(&sheets.run);
    pushed[..sheets.pushed.len()].copy_from_slice(&sheets.pushed);
    Ok((sheets.run.len(), sheets.pushed.len()))
}

/// Writes a result into a lent tray: 16 at place 0 where "the result needs more
/// bytes than were lent".  "No lent byte changes then. ... An accepted result
/// gives its byte length; bytes beyond it keep their values."
pub fn into_tray(result: Result<Vec<u8>, Refusal>, tray: &mut [u8]) -> Result<usize, Refusal> {
    let sheet = result?;
    let room = tray.get_mut(..sheet.len()).ok_or(SMALL_TRAY);
    at(0, room)?.copy_from_slice(&sheet);
    Ok(sheet.len())
}

/// Writes a result or none into a lent tray.  None writes nothing and is never
/// refused, however small the tray; its length is 0, which no written chain
/// has.
pub fn into_tray_or_none(
    result: Result<Option<Vec<u8>>, Refusal>,
    tray: &mut [u8],
) -> Result<usize, Refusal> {
    match result? {
        Some(sheet) => into_tray(Ok(sheet), tray),
        None => Ok(0),
    }
}

/// Accepted S, T and mapping: places 1 to 3 of most calls.
struct Mapped {
    s: Schema,
    t: Schema,
    f: Mapping,
}

impl Mapped {
    fn accept(s: &[u8], t: &[u8], f: &[u8]) -> Result<Self, Refusal> {
        let s = at(1, Schema::accept(s))?;
        let t = at(2, Schema::accept(t))?;
        let f = at(3, Mapping::accept(&s, &t, f))?;
        Ok(Mapped { s, t, f })
    }

    fn delta(&self, j: &Instance) -> Result<Instance, Refusal> {
        at(0, migrate::delta(&self.s, &self.f, j))
    }

    fn sigma(&self, i: &Instance) -> Result<Instance, Refusal> {
        at(0, migrate::sigma(&self.s, &self.t, &self.f, i))
    }
}

/// The two sides of checkers and turnings: "The pushed side goes from Sigma's
/// result to the book, the raw side from the run to Delta's result."
struct Sides {
    mapped: Mapped,
    run: Instance,
    book: Instance,
    sigma_of_run: Instance,
    delta_of_book: Instance,
}

impl Sides {
    /// "Both checkers and both turnings take S, T, mapping, run, book, matching
    /// and make the same tests, 15 for either migrated table."
    fn accept(s: &[u8], t: &[u8], f: &[u8], run: &[u8], book: &[u8]) -> Result<Self, Refusal> {
        let mapped = Mapped::accept(s, t, f)?;
        let run = at(4, Instance::accept(&mapped.s, run))?;
        let book = at(5, Instance::accept(&mapped.t, book))?;
        let sigma_of_run = mapped.sigma(&run)?;
        let delta_of_book = mapped.delta(&book)?;
        Ok(Sides { mapped, run, book, sigma_of_run, delta_of_book })
    }

    /// The list as a matching of the pushed side: 1, 2, 17 at place 6.
    fn pushed_matching(&self, list: &[u8]) -> Result<Matching, Refusal> {
        at(6, Matching::accept(&self.mapped.t, &self.sigma_of_run, &self.book, list))
    }

    /// The list as a matching of the raw side: 1, 2, 17 at place 6.
    fn raw_matching(&self, list: &[u8]) -> Result<Matching, Refusal> {
        at(6, Matching::accept(&self.mapped.s, &self.run, &self.delta_of_book, list))
    }
}
