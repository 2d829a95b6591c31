//! Damaged sheets: decoding agrees with the proved calls, every refusal's cause
//! is found, and nothing panics.

mod common;

use common::cause_is_found;
use common::generate::{self, Random};
use sheet::{
    Answer, Call, Fault, Instance, Lent, LentSchema, Mapping, Matching, Path, Question, Role,
    Schema,
};

/// A question in which everything is accepted: an even mapping of copies of T,
/// a run, the pushed run as the book, and each row its own partner.
fn accepted(random: &mut Random, call: Call) -> Question {
    loop {
        let t = generate::schema(random);
        let (s, f) = generate::copies(&t, 1 + random.below(2));
        let s_sheet = s.to_sheet().unwrap();
        if migration::check_schema(&s_sheet).is_err() {
            continue;
        }
        let run = generate::instance(random, &s, 4);
        let (t_sheet, f_sheet) = (t.to_sheet().unwrap(), f.to_sheet().unwrap());
        let run_sheet = run.to_sheet().unwrap();
        let book = migration::sigma(&s_sheet, &t_sheet, &f_sheet, &run_sheet).unwrap();
        let pushed = Instance::from_sheet(&t, &book).unwrap();
        let own =
            Matching { partners: pushed.rows.iter().map(|&rows| (0..rows).collect()).collect() };
        let mut question = Question::new(Call::PushedToRaw);
        question.s = Some(LentSchema::from_sheet("s.sheet", s_sheet));
        question.t = Some(LentSchema::from_sheet("t.sheet", t_sheet));
        question.mapping = Some(Lent::from_sheet("f.sheet", f_sheet));
        question.run = Some(Lent::from_sheet("run.sheet", run_sheet));
        question.book = Some(Lent::from_sheet("book.sheet", book));
        question.list = Some(Lent::from_sheet("list.sheet", own.to_sheet().unwrap()));
        question.u = question.t.clone();
        let same = generate::copies(&t, 1).1.to_sheet().unwrap();
        question.g = Some(Lent::from_sheet("g.sheet", same));
        let Ok(Answer::Sheet(raw)) = question.ask() else { continue };
        if call == Call::Query {
            route(&mut question, &s);
        }
        if matches!(call, Call::CheckRaw | Call::RawToPushed) {
            question.list = Some(Lent::from_sheet("list.sheet", raw));
        }
        let path = Path::trivial(0).to_sheet().unwrap();
        question.p = Some(Lent::from_sheet("p.sheet", path.clone()));
        question.q = Some(Lent::from_sheet("q.sheet", path));
        question.call = call;
        return question;
    }
}

/// The query that pulls the book back along the mapping, joins each table with
/// itself alone, and pushes along the mapping again.
fn route(question: &mut Question, s: &Schema) {
    let (s_lent, t_lent) = (question.s.clone(), question.t.clone());
    let same = generate::copies(s, 1).1.to_sheet().unwrap();
    let (f, same) = (question.mapping.clone(), Lent::from_sheet("same.sheet", same));
    question.route.schemas = [t_lent.clone(), s_lent.clone(), s_lent, t_lent];
    question.route.mappings = [f.clone(), Some(same), f];
    question.run = question.book.clone();
}

fn damage(random: &mut Random, sheet: &mut Vec<u8>) {
    match random.below(6) {
        0 => sheet.truncate(random.below(sheet.len() + 1)),
        1 => sheet.push(random.bits() as u8),
        _ => {
            if !sheet.is_empty() {
                let place = random.below(sheet.len());
                sheet[place] ^= 1 << random.below(8);
            }
        }
    }
}

fn set(question: &mut Question, role: Role, sheet: Vec<u8>) {
    let file = question.lent(role).unwrap().file.clone();
    let lent = Some(Lent::from_sheet(&file, sheet.clone()));
    match role {
        Role::S | Role::T | Role::U | Role::Schema(_) => {
            question.lend_schema(role, LentSchema::from_sheet(&file, sheet));
        }
        Role::Mapping => question.mapping = lent,
        Role::G => question.g = lent,
        Role::Run => question.run = lent,
        Role::Book => question.book = lent,
        Role::P => question.p = lent,
        Role::Q => question.q = lent,
        Role::List => question.list = lent,
        Role::Along(stage) => question.route.mappings[stage as usize] = lent,
    }
}

/// Changes are asked without their rows, which have tests of their own.
const CALLS: [Call; 17] = [
    Call::CheckSchema,
    Call::CheckMapping,
    Call::CheckInstance,
    Call::FirstPath,
    Call::SamePath,
    Call::PathChain,
    Call::Delta,
    Call::Sigma,
    Call::Pi,
    Call::Query,
    Call::AddRow,
    Call::WithdrawRow,
    Call::CheckPushed,
    Call::CheckRaw,
    Call::PushedToRaw,
    Call::RawToPushed,
    Call::Compose,
];

#[test]
fn the_cause_is_found_along_mappings_at_random() {
    let mut met = [0; 20];
    for seed in 0..400 {
        let random = &mut Random::seeded(seed);
        let (mut s, t) = (generate::schema(random), generate::schema(random));
        let mut f = generate::mapping(random, &mut s, &t);
        if random.below(3) == 0 {
            s.columns.clear();
            f.columns.clear();
        }
        let (run, book) =
            (generate::linked_instance(random, &s, 4), generate::instance(random, &t, 4));
        let mut question = Question::new(Call::CheckMapping);
        question.s = Some(LentSchema::from_sheet("s.sheet", s.to_sheet().unwrap()));
        question.t = Some(LentSchema::from_sheet("t.sheet", t.to_sheet().unwrap()));
        question.mapping = Some(Lent::from_sheet("f.sheet", f.to_sheet().unwrap()));
        question.run = Some(Lent::from_sheet("run.sheet", run.to_sheet().unwrap()));
        question.book = Some(Lent::from_sheet("book.sheet", book.to_sheet().unwrap()));
        question.list = Some(Lent::from_sheet("list.sheet", vec![0; random.below(6)]));
        let others = |call: &Call| {
            !matches!(call, Call::Query | Call::Compose) && !call.roles().contains(&Role::P)
        };
        for call in CALLS.into_iter().filter(others) {
            question.call = call;
            met[cause_is_found(&question, seed)] += 1;
        }
    }
    for number in [1, 2, 7, 9, 11, 12, 13] {
        assert!(met[number] > 0, "refusal {number} was not met: {met:?}");
    }
    assert_eq!(met[10], 0, "the values are on scale");
}

/// Mappings F and G at random from one schema, from which the links without an
/// image are taken out.
fn span(random: &mut Random, s2: &mut Schema, s1: &Schema, s3: &Schema) -> [Mapping; 2] {
    loop {
        let f = generate::mapping(random, s2, s1);
        let links = s2.links.len();
        let g = generate::mapping(random, s2, s3);
        if s2.links.len() == links {
            return [f, g];
        }
    }
}

#[test]
fn the_cause_is_found_along_routes_at_random() {
    let mut met = [0; 20];
    for seed in 0..600 {
        let random = &mut Random::seeded(seed);
        let [s1, mut s2, mut s3, s4] = [(); 4].map(|()| generate::schema(random));
        s2.columns.clear();
        s3.columns.clear();
        let mut h = generate::mapping(random, &mut s3, &s4);
        if random.below(2) == 0 {
            // An even one, along which there may be columns.
            (s3, h) = generate::copies(&s4, 1 + random.below(2));
        }
        let mappings = span(random, &mut s2, &s1, &s3);
        let run = generate::instance(random, &s1, 40);
        let mut question = Question::new(Call::Query);
        question.route.schemas = [s1, s2, s3, s4]
            .map(|schema| Some(LentSchema::from_sheet("schema", schema.to_sheet().unwrap())));
        let [f, g] = mappings;
        question.route.mappings =
            [f, g, h].map(|along| Some(Lent::from_sheet("mapping", along.to_sheet().unwrap())));
        question.run = Some(Lent::from_sheet("run", run.to_sheet().unwrap()));
        met[cause_is_found(&question, seed)] += 1;
    }
    for number in [0, 8, 12, 13, 15] {
        assert!(met[number] > 0, "refusal {number} was not met: {met:?}");
    }
}

#[test]
fn the_cause_of_every_refusal_is_found() {
    let mut met = [0; 20];
    for seed in 0..160 {
        let random = &mut Random::seeded(seed);
        for call in CALLS {
            let mut question = accepted(random, call);
            if !matches!(call, Call::Pi | Call::Query) {
                assert!(question.ask().is_ok());
            }
            for _ in 0..1 + random.below(2) {
                let role = *random.one_of(call.roles());
                let mut sheet = question.lent(role).unwrap().sheet.clone();
                damage(random, &mut sheet);
                set(&mut question, role, sheet);
            }
            if random.below(20) == 0 {
                question.tray = Some(random.below(3));
            }
            met[cause_is_found(&question, seed)] += 1;
        }
    }
    // Rare ones have examples of their own.
    for number in [1, 2, 3, 4, 5, 7, 9, 10, 12, 13, 17] {
        assert!(met[number] > 0, "refusal {number} was not met: {met:?}");
    }
}

/// The number that decoding gives, if it fails.
fn number<T>(decoded: Result<T, Fault>) -> Option<u8> {
    decoded.err().map(|fault| fault.number())
}

#[test]
fn decoding_fails_where_the_proved_calls_send_back_by_1_2_and_3() {
    let first_three = |refusal: Result<(), migration::Refusal>| {
        refusal.err().map(|refusal| refusal.number).filter(|&number| number <= 3)
    };
    for seed in 0..3000 {
        let random = &mut Random::seeded(seed);
        let schema = generate::schema(random);
        let mut sheet = schema.to_sheet().unwrap();
        let instance = generate::instance(random, &schema, 5);
        let mut instance_sheet = instance.to_sheet().unwrap();
        damage(random, &mut instance_sheet);
        let judged = first_three(migration::check_instance(&sheet, &instance_sheet));
        assert_eq!(number(Instance::from_sheet(&schema, &instance_sheet)), judged, "seed {seed}");
        damage(random, &mut sheet);
        let judged = first_three(migration::check_schema(&sheet));
        assert_eq!(number(Schema::from_sheet(&sheet)), judged, "seed {seed}");
        let noise: Vec<u8> = (0..random.below(40)).map(|_| random.bits() as u8).collect();
        let judged = first_three(migration::check_schema(&noise));
        assert_eq!(number(Schema::from_sheet(&noise)), judged, "seed {seed}");
    }
}

#[test]
fn text_of_noise_is_bad_text_and_no_panic() {
    let letters: Vec<char> =
        "node link column equation A B a b . -> : = # , ; \" \r\n\t0 1 9".chars().collect();
    let (schema, _) = Schema::parse("a.schema", "node A\nnode B\nlink A.b -> B\n").unwrap();
    for seed in 0..3000 {
        let random = &mut Random::seeded(seed);
        let text: String = (0..random.below(60)).map(|_| *random.one_of(&letters)).collect();
        let _ = Schema::parse("a.schema", &text);
        let _ = Mapping::parse("a.mapping", &text, &schema, &schema);
        let _ = Matching::parse("a.csv", &text, &schema);
        let _ = Path::parse(&schema, &text);
        let tables =
            [0, 1].map(|_| sheet::TableText { file: "A.csv".to_string(), text: text.clone() });
        let _ = Instance::parse(&tables, &schema);
    }
}
