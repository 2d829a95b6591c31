//! The stored questions about two paths, each answered by two first paths: by the
//! library, and by the reference.

use vectors::path_questions::{path_questions, Answer, PathQuestion};

/// A first path, or the number and the place of a refusal.
type First = Result<Vec<u8>, (u8, u8)>;

/// The answer that the first paths of the two lent paths give; nothing where no two
/// refusals of one schema go together.
fn by_two(first: First, second: First) -> Option<Answer> {
    let refused = |number: u8, place: u8| Some(Answer::Refused { number, place });
    match (first, second) {
        (Ok(one), Ok(other)) if one == other => Some(Answer::Equal),
        (Ok(_), Ok(_)) => Some(Answer::Unequal),
        (Err(one @ (number, 1)), Err(other)) if one == other => refused(number, 1),
        (Err((number, 2)), Ok(_) | Err((_, 2))) => refused(number, 2),
        (Ok(_), Err((number, 2))) => refused(number, 3),
        _ => None,
    }
}

/// The questions that two first paths answer as they were answered, and the others.
fn answered(first: impl Fn(&[u8], &[u8]) -> First) -> (Vec<PathQuestion>, Vec<PathQuestion>) {
    path_questions().into_iter().partition(|question| {
        let [s, p, q] = &question.sheets;
        by_two(first(s, p), first(s, q)) == Some(question.answer)
    })
}

/// All 358 are answered as they were: 100 equal, 48 unequal, 210 refused.
fn all_are_answered(first: impl Fn(&[u8], &[u8]) -> First) {
    let (same, others) = answered(first);
    assert!(others.is_empty(), "{} answered otherwise, first {:?}", others.len(), others[0]);
    let count = |answer: fn(&Answer) -> bool| same.iter().filter(|q| answer(&q.answer)).count();
    assert_eq!(same.len(), 358);
    assert_eq!(count(|answer| *answer == Answer::Equal), 100);
    assert_eq!(count(|answer| *answer == Answer::Unequal), 48);
    assert_eq!(count(|answer| matches!(answer, Answer::Refused { .. })), 210);
}

fn of_the_reference(s: &[u8], p: &[u8]) -> First {
    reference::first_path(s, p).map_err(|refusal| (refusal.number, refusal.place))
}

#[test]
fn the_library_answers_the_stored_questions() {
    all_are_answered(|s, p| {
        migration::first_path(s, p).map_err(|refusal| (refusal.number, refusal.place))
    });
}

#[test]
fn the_reference_answers_the_stored_questions() {
    all_are_answered(of_the_reference);
}

/// Calls that take every path for its own first, or all with one start for equal, or
/// that say another number or place, are found out.
#[test]
fn other_answers_are_found() {
    let others = |first: &dyn Fn(&[u8], &[u8]) -> First| answered(first).1;
    let itself = others(&|s, p| of_the_reference(s, p).map(|_| p.to_vec()));
    assert!(itself.iter().all(|question| question.answer == Answer::Equal));
    let start = others(&|s, p| of_the_reference(s, p).map(|first| vec![first[0] & 0xF0]));
    assert!(start.iter().all(|question| question.answer == Answer::Unequal));
    let number = others(&|s, p| of_the_reference(s, p).map_err(|(number, at)| (number + 1, at)));
    let place = others(&|s, p| of_the_reference(s, p).map_err(|(number, at)| (number, 3 - at)));
    let counts = [itself, start, number, place].map(|others| others.len());
    assert_eq!(counts, [28, 15, 210, 210]);
}
