//! Loading what a call is lent, and asking it.

use crate::arguments::Arguments;
use crate::failure::Failure;
use crate::input::{is_standard_input, Inputs};
use sheet::{Answer, Call, Lent, Question, Role, Schema};

/// Loads what a call is lent, in the order of its places, and asks the call.
pub fn ask(
    command: &'static str,
    call: Call,
    words: &[String],
    arguments: &Arguments,
) -> Result<(Question, Answer), Failure> {
    let question = judged(command, call, words, arguments, &mut Inputs::default())?;
    let answer = answer(&question)?;
    Ok((question, answer))
}

/// Loads what a call is lent, in the order of its places.
///
/// The call is asked after each file, with nothing for the files to come: since
/// it judges sheets in the order of their places, a sheet that it sends back then
/// is the one it sends back in the end, and the files to come need not be read.
pub fn judged(
    command: &'static str,
    call: Call,
    words: &[String],
    arguments: &Arguments,
    inputs: &mut Inputs,
) -> Result<Question, Failure> {
    let mut question = Question::new(call);
    question.tray = arguments.tray;
    for (place, (role, word)) in roles_of(command, call, words)?.into_iter().enumerate() {
        lend(&mut question, role, word, inputs)?;
        if let Some(error) = question.misread_list() {
            return Err(Failure::Text(vec![error]));
        }
        match question.ask() {
            Err(refusal) if usize::from(refusal.place) <= place + 1 => {
                return Err(refused(&question, refusal));
            }
            _ => {}
        }
    }
    Ok(question)
}

/// Loads what a call is lent without asking it, but for a schema sheet that
/// cannot be decoded.
pub fn load(
    command: &'static str,
    call: Call,
    words: &[String],
    inputs: &mut Inputs,
) -> Result<Question, Failure> {
    let mut question = Question::new(call);
    for (role, word) in roles_of(command, call, words)? {
        lend(&mut question, role, word, inputs)?;
    }
    Ok(question)
}

/// The call's answer, or its refusal with the causes.
pub fn answer(question: &Question) -> Result<Answer, Failure> {
    question.ask().map_err(|refusal| refused(question, refusal))
}

fn refused(question: &Question, refusal: migration::Refusal) -> Failure {
    Failure::Refused(Box::new(question.explain(refusal)))
}

/// Each word with its role.
fn roles_of<'a>(
    command: &'static str,
    call: Call,
    words: &'a [String],
) -> Result<Vec<(Role, &'a str)>, Failure> {
    let roles = call.roles();
    if words.len() != roles.len() {
        let expected: Vec<&str> = roles.iter().map(|&role| word_for(call, role)).collect();
        let what = format!("expected {}; {} given", expected.join(" "), words.len());
        return Err(Failure::usage(command, what));
    }
    let lent: Vec<(Role, &str)> =
        roles.iter().copied().zip(words.iter().map(String::as_str)).collect();
    if lent.iter().filter(|(role, word)| is_standard_input(*role, word)).count() > 1 {
        return Err(Failure::usage(command, "standard input can be lent only once"));
    }
    Ok(lent)
}

/// Adds one file to what is lent.
fn lend(
    question: &mut Question,
    role: Role,
    word: &str,
    inputs: &mut Inputs,
) -> Result<(), Failure> {
    match role {
        Role::S | Role::T | Role::U | Role::Schema(_) => {
            question.lend_schema(role, inputs.schema(word)?);
            schema(question, role)?;
        }
        Role::Mapping => {
            question.mapping = Some(mapping(question, [Role::S, Role::T], word, inputs)?);
        }
        Role::G => question.g = Some(mapping(question, [Role::T, Role::U], word, inputs)?),
        Role::Run => {
            let over = schema(question, question.call.run_schema())?;
            question.run = Some(inputs.instance(word, over)?);
        }
        Role::Book => question.book = Some(inputs.instance(word, schema(question, Role::T)?)?),
        Role::P => question.p = Some(inputs.path(word, schema(question, Role::S)?)?),
        Role::Q => question.q = Some(inputs.path(word, schema(question, Role::S)?)?),
        Role::List => {
            let over = if question.call.is_pushed() { Role::T } else { Role::S };
            question.list = Some(inputs.matching(word, schema(question, over)?)?);
        }
        Role::Along(stage) => {
            let between = stage.schemas().map(Role::Schema);
            let lent = mapping(question, between, word, inputs)?;
            question.route.mappings[stage as usize] = Some(lent);
        }
    }
    Ok(())
}

/// The mapping in a file, between the schemas with two roles.
fn mapping(
    question: &Question,
    [from, to]: [Role; 2],
    word: &str,
    inputs: &mut Inputs,
) -> Result<Lent, Failure> {
    inputs.mapping(word, schema(question, from)?, schema(question, to)?)
}

/// The schema with a role; where its sheet cannot be decoded, the call's
/// refusal of it.
pub fn schema(question: &Question, role: Role) -> Result<&Schema, Failure> {
    match question.lent_schema(role).map(|lent| &lent.schema) {
        Some(Ok(schema)) => Ok(schema),
        Some(Err(fault)) => Err(match question.ask() {
            Err(refusal) => refused(question, refusal),
            Ok(_) => Failure::Trouble(format!("an accepted schema sheet: {fault}")),
        }),
        None => Err(Failure::Trouble("a schema is missing".to_string())),
    }
}

/// What a word of the command line is called in usage messages.
fn word_for(call: Call, role: Role) -> &'static str {
    match (call, role) {
        (_, Role::S) if !call.roles().contains(&Role::T) => "SCHEMA",
        (_, Role::S) => "S",
        (Call::CheckInstance, Role::Run) => "INSTANCE",
        (_, Role::T) => "T",
        (_, Role::U) => "U",
        (Call::Compose, Role::Mapping) => "F",
        (_, Role::G) => "G",
        (_, Role::Mapping) => "MAPPING",
        (_, Role::Run) => "RUN",
        (_, Role::Book) => "BOOK",
        (_, Role::P | Role::Q) => "PATH",
        (_, Role::List) => "LIST",
        (_, Role::Schema(number)) => ["S1", "S2", "S3", "S4"][number - 1],
        (_, Role::Along(stage)) => stage.mapping_name(),
    }
}

/// A sheet that a call has accepted or given is always decoded; if not, the
/// program and the library do not fit together.
pub fn decoded<T, E: std::fmt::Display>(what: &str, result: Result<T, E>) -> Result<T, Failure> {
    result.map_err(|fault| Failure::Trouble(format!("{what} cannot be decoded: {fault}")))
}
