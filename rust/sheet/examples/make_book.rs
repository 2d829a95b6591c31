//! Makes the data of the book example: the folders `run` and `book` and the
//! lists `pushed.csv` and `raw.csv`, beside the schemas and the mapping that
//! are written by hand.
//!
//! ```text
//! cargo run -p sheet --example make_book -- FOLDER
//! ```
//!
//! FOLDER holds `vendor.schema`, `operator.schema` and
//! `vendor-to-operator.mapping`; the data in it are replaced.  The numbers come
//! from a generator with a fixed seed, so every run writes the same files.
//!
//! The line has 146 joints in 6 sections.  The vendor numbers joints and welds
//! with the flow and lists features by depth; the operator's book counts
//! against the flow and lists anomalies by station, with those of earlier runs
//! among them.  One dent with metal loss in it stands in both vendor tables and
//! once in the book.

use sheet::{Answer, Call, Instance, Lent, LentSchema, Matching, Question, Schema};
use std::error::Error;
use std::fs;
use std::path::Path;

const JOINTS: usize = 146;
const SECTIONS: usize = 6;
const DENTS: usize = 21;
const LOSSES: usize = 58;
const EARLIER: usize = 26;

/// Marsaglia's xorshift generator with this example's seed.
struct Random(u64);

impl Random {
    fn between(&mut self, least: u32, most: u32) -> u32 {
        self.0 ^= self.0 << 13;
        self.0 ^= self.0 >> 7;
        self.0 ^= self.0 << 17;
        least + ((self.0 >> 16) % u64::from(most - least + 1)) as u32
    }
}

/// The line as it lies in the ground, joints in flow order; joint n begins at
/// weld n, and the last weld ends the line.
struct Line {
    welds: Vec<u32>,
    lengths: Vec<u32>,
    walls: Vec<u32>,
    sections: Vec<usize>,
}

/// Something found in a joint: station, clock, depth, length, width.
#[derive(Clone, PartialEq)]
struct Feature {
    joint: usize,
    values: [u32; 5],
}

fn lay_line(random: &mut Random) -> Line {
    let mut line =
        Line { welds: vec![84_250_000], lengths: vec![], walls: vec![], sections: vec![] };
    for joint in 0..JOINTS {
        let section = joint * SECTIONS / JOINTS;
        let length = random.between(11_350, 12_480);
        line.welds.push(line.welds[joint] + length);
        line.lengths.push(length);
        line.walls.push([950, 1110, 950, 1270, 950, 1110][section]);
        line.sections.push(section);
    }
    line
}

/// Minutes after twelve; twelve o'clock is written 720.
fn clock(random: &mut Random) -> u32 {
    match random.between(0, 719) {
        0 => 720,
        minutes => minutes,
    }
}

/// A feature whose station nothing found so far has.
fn find(random: &mut Random, line: &Line, found: &[Feature], depth: (u32, u32)) -> Feature {
    loop {
        let joint = random.between(0, JOINTS as u32 - 1) as usize;
        let station = line.welds[joint] + random.between(150, line.lengths[joint] - 150);
        if found.iter().all(|feature| feature.values[0] != station) {
            let values = [
                station,
                clock(random),
                random.between(depth.0, depth.1),
                random.between(18, 260),
                random.between(15, 180),
            ];
            return Feature { joint, values };
        }
    }
}

/// The columns of some features, one after the other.
fn columns(features: &[Feature]) -> Vec<Vec<u32>> {
    (0..5).map(|value| features.iter().map(|feature| feature.values[value]).collect()).collect()
}

/// The vendor's tables: Dent, Metal_Loss, Spool, Girth_Weld, Section.
fn vendor_run(line: &Line, dents: &[Feature], losses: &[Feature]) -> Instance {
    let joints = |features: &[Feature]| features.iter().map(|feature| feature.joint).collect();
    let mut values = columns(dents);
    values.extend(columns(losses));
    values.extend([line.lengths.clone(), line.walls.clone(), vec![610; JOINTS]]);
    values.extend([line.welds.clone(), (0..SECTIONS as u32).map(|n| 7010 + n).collect()]);
    Instance {
        rows: vec![dents.len(), losses.len(), JOINTS, JOINTS + 1, SECTIONS],
        links: vec![
            joints(dents),
            joints(losses),
            joints(losses),
            (0..JOINTS).collect(),
            line.sections.clone(),
        ],
        values,
    }
}

/// The operator's tables: Anomaly, Joint, Weld, Section; everything but the
/// anomalies is numbered against the flow.
fn operator_book(line: &Line, anomalies: &[Feature]) -> Instance {
    let back = |list: &[u32]| list.iter().rev().copied().collect::<Vec<u32>>();
    let joint = |feature: &Feature| JOINTS - 1 - feature.joint;
    let weld = |feature: &Feature| JOINTS - feature.joint;
    let mut values = columns(anomalies);
    values.extend([back(&line.lengths), back(&line.walls), vec![610; JOINTS]]);
    values.extend([back(&line.welds), (0..SECTIONS as u32).map(|n| 7010 + n).rev().collect()]);
    Instance {
        rows: vec![anomalies.len(), JOINTS, JOINTS + 1, SECTIONS],
        links: vec![
            anomalies.iter().map(joint).collect(),
            anomalies.iter().map(weld).collect(),
            (0..JOINTS).map(|joint| joint + 1).collect(),
            line.sections.iter().rev().map(|section| SECTIONS - 1 - section).collect(),
        ],
        values,
    }
}

/// Each pushed row's partner in the book: for an anomaly the one with its
/// values, for everything else the same thing counted against the flow.
fn partners(pushed: &[Feature], book: &[Feature]) -> Result<Matching, Box<dyn Error>> {
    let partner = |feature: &Feature| book.iter().position(|other| other == feature);
    let anomalies: Option<Vec<usize>> = pushed.iter().map(partner).collect();
    Ok(Matching {
        partners: vec![
            anomalies.ok_or("a feature of the run is missing in the book")?,
            (0..JOINTS).rev().collect(),
            (0..=JOINTS).rev().collect(),
            (0..SECTIONS).rev().collect(),
        ],
    })
}

fn write_instance(folder: &Path, schema: &Schema, instance: &Instance) -> std::io::Result<()> {
    fs::create_dir_all(folder)?;
    for (name, text) in instance.to_folder(schema) {
        fs::write(folder.join(name), text)?;
    }
    Ok(())
}

fn schema(folder: &Path, name: &str) -> Result<LentSchema, Box<dyn Error>> {
    let text = fs::read_to_string(folder.join(name))?;
    LentSchema::from_text(name, &text).map_err(|errors| errors[0].clone().into())
}

fn main() -> Result<(), Box<dyn Error>> {
    let folder = std::env::args().nth(1).ok_or("expected the example's folder")?;
    let (run, book) = make(Path::new(&folder))?;
    println!("run {run} rows, book {book} rows");
    Ok(())
}

/// Makes the data in the example's folder; the numbers of rows of run and book.
pub fn make(folder: &Path) -> Result<(usize, usize), Box<dyn Error>> {
    let random = &mut Random(0x0D1C_C4E3);
    let line = lay_line(random);

    let mut found = Vec::new();
    for count in 0..DENTS + LOSSES + EARLIER - 1 {
        let depth = if count < DENTS { (12, 68) } else { (105, 540) };
        found.push(find(random, &line, &found, depth));
    }
    let deepest_first =
        |feature: &Feature| std::cmp::Reverse((feature.values[2], feature.values[0]));
    let mut dents = found[..DENTS].to_vec();
    let mut losses = found[DENTS..DENTS + LOSSES - 1].to_vec();
    losses.push(dents[4].clone()); // the dent with metal loss in it
    dents.sort_by_key(deepest_first);
    losses.sort_by_key(deepest_first);
    let mut book = found.clone();
    book.sort_by_key(|feature| feature.values[0]);

    let (s, t) = (schema(folder, "vendor.schema")?, schema(folder, "operator.schema")?);
    let (s_schema, t_schema) = (s.schema.clone()?, t.schema.clone()?);
    let run = vendor_run(&line, &dents, &losses);
    let operator = operator_book(&line, &book);
    let pushed = partners(&[dents, losses].concat(), &book)?;
    write_instance(&folder.join("run"), &s_schema, &run)?;
    write_instance(&folder.join("book"), &t_schema, &operator)?;
    fs::write(folder.join("pushed.csv"), pushed.to_csv(&t_schema))?;

    let name = "vendor-to-operator.mapping";
    let text = fs::read_to_string(folder.join(name))?;
    let mapping = Lent::mapping(name, &text, &s_schema, &t_schema);
    let mut question = Question::new(Call::PushedToRaw);
    question.mapping = Some(mapping.map_err(|errors| errors[0].clone())?);
    (question.s, question.t) = (Some(s), Some(t));
    question.run = Some(Lent::from_sheet("run", run.to_sheet()?));
    question.book = Some(Lent::from_sheet("book", operator.to_sheet()?));
    question.list = Some(Lent::from_sheet("pushed.csv", pushed.to_sheet()?));
    match question.ask() {
        Ok(Answer::Sheet(sheet)) => {
            let raw = Matching::from_sheet(&s_schema, &run.rows, &sheet)?;
            fs::write(folder.join("raw.csv"), raw.to_csv(&s_schema))?;
        }
        Ok(_) => return Err("the turning gave no sheet".into()),
        Err(refusal) => return Err(question.explain(refusal).to_string().into()),
    }
    Ok((run.total_rows(), operator.total_rows()))
}
