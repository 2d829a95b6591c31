//! Changes of a run with one fault and with two, of which the first is told.

use crate::build::*;
use crate::call::{Call, Case, FILLING};
use crate::mappings::Mapped;
use crate::trays::{Change, Trays};
use reference::plain::*;

/// What is wrong with a change, in the order in which it is told.
#[derive(Debug, Clone, Copy, PartialEq, Eq, PartialOrd, Ord)]
pub enum Fault {
    /// The mapping is not even.
    Uneven,
    /// There is no such table.
    NoTable,
    /// There is no such row to be withdrawn.
    NoRow,
    /// The row's sheet lacks a byte.
    RowCut,
    /// The row's sheet has a byte more.
    RowTail,
    /// A link of the row leads to a row that is not there.
    Dangling,
    /// A value of the row is off scale.
    OffScale,
    /// The row breaks an equation.
    Bent,
    /// The run has 512 rows already.
    Overfull,
    /// A link leads to the row that is to be withdrawn.
    Held,
    /// The run's tray is too small by a byte.
    SmallRunTray,
    /// The pushed tray is too small by a byte.
    SmallPushedTray,
}

use Fault::*;

impl Fault {
    /// The faults that a change can have, in order.
    pub fn of(call: Call) -> &'static [Fault] {
        match call {
            Call::AddRow => &[
                Uneven,
                NoTable,
                RowCut,
                RowTail,
                Dangling,
                OffScale,
                Bent,
                Overfull,
                SmallRunTray,
                SmallPushedTray,
            ],
            _ => &[Uneven, NoTable, NoRow, Held, SmallPushedTray],
        }
    }

    /// Its number.
    pub fn number(self) -> u8 {
        match self {
            RowCut => 1,
            RowTail => 2,
            Dangling => 9,
            OffScale => 10,
            Bent => 11,
            Uneven => 12,
            Overfull => 15,
            SmallRunTray | SmallPushedTray => 16,
            NoTable | NoRow => 18,
            Held => 19,
        }
    }

    /// Whether a change can have both.
    pub fn goes_with(self, other: Fault) -> bool {
        let apart = [(RowCut, RowTail), (NoTable, NoRow), (NoTable, Held), (NoRow, Held)];
        !apart.contains(&(self, other))
    }
}

/// Two links from table 0 to table 1, which are equal, and a clock on table 0; to itself,
/// or to the same with a link more.
fn mapped(uneven: bool) -> Mapped {
    let mut s = graph(3, &[(0, 1), (0, 1)]);
    s.attributes.push(Attribute { node: 0, kind: 2 });
    s.equations.push(equation(0, &[0], &[1]));
    let (mut t, f) = (s.clone(), identity(&s));
    if uneven {
        t.edges.push(Edge { source: 0, target: 2 });
    }
    Mapped { s, t, f }
}

/// A change with these faults.
fn faulty(call: Call, faults: &[Fault]) -> Case {
    let has = |fault: Fault| faults.contains(&fault);
    let third = if has(Overfull) { 509 } else { 3 };
    let run = Instance {
        rows: vec![1, 2, third],
        links: vec![vec![0], vec![0]],
        values: vec![vec![720]],
    };
    let table = |table: u64| if has(NoTable) { 3 } else { table };
    let change = if call == Call::AddRow {
        Change::Add { table: table(0), row: added(&has) }
    } else {
        let row = if has(NoRow) { 2 } else { u64::from(!has(Held)) };
        Change::Withdraw { table: table(1), row }
    };
    // 80 bits of the run become 130 with the row, those of the pushed sheet too; without a
    // row they stay 80.
    let needed = if call == Call::AddRow { 17 } else { 10 };
    let [run_tray, pushed_tray] =
        [SmallRunTray, SmallPushedTray].map(|fault| needed - usize::from(has(fault)));
    let behind = vec![FILLING; run_tray - 10];
    let name = format!("faults {faults:?}");
    Trays::new(&mapped(has(Uneven)), &run, &behind, pushed_tray).case(name, change)
}

/// The sheet of a row with those faults that are the row's.
fn added(has: &dyn Fn(Fault) -> bool) -> Vec<u8> {
    let first = if has(Dangling) { 2 } else { 0 };
    let second = usize::from(has(Bent));
    let clock = if has(OffScale) { 0 } else { 1 };
    let mut sheet = Row { links: vec![first, second], values: vec![clock] }.to_sheet();
    if has(RowCut) {
        sheet.pop();
    }
    if has(RowTail) {
        sheet.push(0);
    }
    sheet
}

/// No fault, each fault, each two that go together; and each with a run that is cut, which
/// is told before.
pub fn fault_by_fault() -> Vec<Case> {
    let mut cases = Vec::new();
    for call in Call::CHANGES {
        cases.push(faulty(call, &[]));
        let faults = Fault::of(call);
        for (place, &one) in faults.iter().enumerate() {
            cases.push(faulty(call, &[one]));
            let others = faults[place + 1..].iter().filter(|&&other| one.goes_with(other));
            cases.extend(others.map(|&other| faulty(call, &[one, other])));
            let mut cut = faulty(call, &[one]);
            cut.numbers[0] -= 1;
            cases.push(Case { name: format!("{one:?} and a cut run"), ..cut });
        }
    }
    cases
}
