//! Each call needs no more stack than the wrapper's constants say: measured on a
//! painted stack, and made in a thread whose stack is just so large.

mod painted;

use migration::*;
use reference::plain::{Edge, Instance, Mapping, Schema};
use std::collections::BTreeMap;
use std::env;
use std::process::Command;
use std::thread;
use vectors::build::*;
use vectors::call::{Call, Case};
use vectors::changes::Streams;
use vectors::digs::Dig;
use vectors::full::{base, full};
use vectors::hard::hard_sheets;
use vectors::random::Random;
use vectors::stream::{fixed_and_refused, fixed_and_refused_changes};

/// What a call may need.
fn stack(call: Call) -> usize {
    match call {
        Call::CheckSchema => STACK_CHECK_SCHEMA,
        Call::CheckMapping => STACK_CHECK_MAPPING,
        Call::CheckInstance => STACK_CHECK_INSTANCE,
        Call::FirstPath => STACK_FIRST_PATH,
        Call::PathChain => STACK_PATH_CHAIN,
        Call::Delta => STACK_DELTA,
        Call::Sigma => STACK_SIGMA,
        Call::Pi => STACK_PI,
        Call::Query => STACK_QUERY,
        Call::Compose => STACK_COMPOSE,
        Call::CheckPushed | Call::CheckRaw | Call::PushedToRaw | Call::RawToPushed => {
            STACK_MATCHINGS
        }
        Call::AddRow | Call::WithdrawRow => STACK_CHANGES,
    }
}

/// The cases that a call may need most for: the base example, full size, each
/// limit, each refusal, the longest sheets, the schemas with the longest paths; for
/// Pi, and for the query between identities, the hard sheets that are soon answered, and
/// 64 components; for the changes a hundred by chance.
fn cases(call: Call) -> Vec<Case> {
    let fixed = if call.is_change() {
        let by_chance = Streams::seeded(1).filter(|case| case.call == call).take(100);
        fixed_and_refused_changes(&mut Random::seeded(1)).into_iter().chain(by_chance).collect()
    } else {
        fixed_and_refused(&mut Random::seeded(1))
    };
    let mut cases = [base(), full(), fixed, longest_paths()].concat();
    let soon = hard_sheets().into_iter().filter(|sheet| sheet.most.as_secs() <= 1);
    let hard = soon.map(|sheet| sheet.case).chain(deep());
    match call {
        Call::Pi => cases.extend(hard),
        Call::Query => cases.extend(hard.map(|case| dug(&case))),
        _ => {}
    }
    cases.retain(|case| case.call == call);
    cases
}

/// The query that joins by a call of Pi: F and H are identities.
fn dug(pi: &Case) -> Case {
    let [s, t, g, run] = &pi.sheets[..] else { unreachable!("a call of pi") };
    let [s, t] = [s, t].map(|sheet| Schema::accept(sheet).expect("an accepted schema"));
    let g = Mapping::accept(&s, &t, g).expect("an accepted mapping");
    let run = Instance::accept(&s, run).expect("an accepted run");
    let (f, h) = (identity(&s), identity(&t));
    Dig { schemas: [s.clone(), s, t.clone(), t], f, g, h, run }.case(pi.name.clone())
}

/// Schemas of 16 nodes one behind the other: doubled edges, which make too many
/// paths, and doubled edges that close to a ring.
fn longest_paths() -> Vec<Case> {
    let mut closed = doubled_chain(16);
    closed.edges.push(Edge { source: 15, target: 0 });
    let path = path(0, &[]).to_sheet();
    let calls = |schema: Schema| {
        let sheet = schema.to_sheet();
        let asked = vec![sheet.clone(), path.clone()];
        let between = vec![sheet.clone(), path.clone(), path.clone()];
        [
            Case::new("a chain of 16 nodes", Call::CheckSchema, vec![sheet]),
            Case::new("a chain of 16 nodes", Call::FirstPath, asked),
            Case::new("a chain of 16 nodes", Call::PathChain, between),
        ]
    };
    [doubled_chain(16), closed].into_iter().flat_map(calls).collect()
}

/// Pi over 64 components with as many rows as there can be, so that the search goes as
/// deep as it can: without rules, and with a rule for every two components that
/// leaves both of them a choice.
fn deep() -> Vec<Case> {
    let pi = |name: &str, links: &[(usize, usize)], chain: usize, rows: &[usize]| {
        let s = graph(rows.len(), links);
        let (t, last) = (doubled_chain(chain), chain - 1);
        let f = mapping(&vec![last; rows.len()], &vec![&[][..]; links.len()]);
        let targets: Vec<usize> = (0..rows[0]).map(|row| row % rows[rows.len() - 1]).collect();
        let run = instance(rows, &vec![&targets[..]; links.len()]);
        let sheets = vec![s.to_sheet(), t.to_sheet(), f.to_sheet(), run.to_sheet()];
        Case::new(name, Call::Pi, sheets).with_tray(Case::MOST_RESULT)
    };
    vec![
        pi("64 components of 512 rows", &[], 7, &[512]),
        pi("64 components of 2 rows", &[], 7, &[2]),
        pi("64 components of 1 row", &[], 7, &[1]),
        pi("32 components of 510 rows that lead to 32 of 2", &[(0, 1)], 6, &[510, 2]),
        pi("32 components of 450 rows that lead to 32 of 62", &[(0, 1)], 6, &[450, 62]),
        pi("32 components of 4 rows that lead to 32 of 2", &[(0, 1)], 6, &[4, 2]),
        pi("32 components of 256 rows that lead to 32 of 256", &[(0, 1)], 6, &[256, 256]),
    ]
}

/// The most that a call needs, and for which case.
fn most_needed(call: Call) -> (usize, String) {
    let mut most = (0, String::new());
    for case in cases(call) {
        let mut tray = vec![0; case.tray];
        let mut run = case.run_before().unwrap_or_default();
        let need = painted::need(&mut || {
            // What it answers is compared elsewhere.
            let _ = differential::make(&case, &mut run, &mut tray);
        });
        most = most.max((need, case.name));
    }
    most
}

#[test]
fn each_call_needs_no_more_stack_than_is_said() {
    let needs: BTreeMap<Call, (usize, String)> =
        Call::ALL.into_iter().map(|call| (call, most_needed(call))).collect();
    for (call, (need, case)) in &needs {
        let (name, most) = (call.name(), stack(*call));
        println!("{name:<16} {need:>8} bytes of stack, of {most:>8}; most for: {case}");
    }
    for (call, (need, case)) in &needs {
        let (name, most) = (call.name(), stack(*call));
        assert!(*need <= most, "{name} ({case}) needs {need} bytes of stack; {most} are said");
    }
}

/// What the start of a thread and the frame of the test take of a stack.
const ALLOWANCE: usize = 16 * 1024;

/// In a process of its own, the call that this variable names is made in threads with
/// just the stack that is said.
const IN_A_CHILD: &str = "MIGRATION_STACK_CALL";

/// A thread that needs more than its stack ends its process.
#[test]
fn each_call_ends_in_a_thread_with_the_stack_that_is_said() {
    let fault = |call: Call| {
        let mut child = Command::new(env::current_exe().expect("this test"));
        child.args(["--exact", "the_child", "--nocapture"]).env(IN_A_CHILD, call.name());
        let output = child.output().expect("a child");
        let told = String::from_utf8_lossy(&output.stderr).into_owned();
        let stack = stack(call) + ALLOWANCE;
        (!output.status.success()).then(|| format!("{}, in {stack} bytes: {told}", call.name()))
    };
    let faults: Vec<String> = Call::ALL.into_iter().filter_map(fault).collect();
    assert!(faults.is_empty(), "{}", faults.join("\n"));
}

#[test]
fn the_child() {
    let Ok(named) = env::var(IN_A_CHILD) else { return };
    let call = Call::ALL.into_iter().find(|call| call.name() == named).expect("a call");
    for case in cases(call) {
        eprintln!("{}", case.name); // The last is the one that fails.
        let made = thread::Builder::new().stack_size(stack(call) + ALLOWANCE).spawn(move || {
            let mut tray = vec![0; case.tray];
            let mut run = case.run_before().unwrap_or_default();
            let _ = differential::make(&case, &mut run, &mut tray);
        });
        made.expect("a thread").join().expect("a call that ends");
    }
}
