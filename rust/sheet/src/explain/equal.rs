//! Notes on paths: what a path is equal to, and by which steps.

use crate::bits::counted;
use crate::classes::{self, Classes};
use crate::lent::LentSchema;
use crate::path::Path;
use crate::schema::Schema;

/// The most paths, and the most steps, that a note shows.
const MOST_SHOWN: usize = 5;

/// The other paths that are equal to a path of S or T.
pub(super) fn equal_to(schema: &Schema, classes: &Classes, path: &Path, of: &str) -> String {
    let others: Vec<String> = classes.others(path).map(|other| other.text(schema)).collect();
    let shown = match others.split_at_checked(MOST_SHOWN) {
        Some((shown, rest)) if !rest.is_empty() => {
            format!("{} and {} more", shown.join(", "), rest.len())
        }
        _ if others.is_empty() => "no other path".to_string(),
        _ => others.join(", "),
    };
    format!("equal to {} in {of}: {shown}", path.text(schema))
}

/// That a path goes to its image, and the steps by which that is equal to another
/// path of T, which is called `of`.  None where it is that path itself.
pub(super) fn goes_to(
    t: &LentSchema,
    of: &str,
    path: &str,
    image: &Path,
    other: &Path,
) -> Option<Vec<String>> {
    let schema = t.schema.as_ref().ok()?;
    let chain = classes::chain(&t.lent.sheet, image, other)?;
    let steps = chain.to_lines(t, image)?;
    if steps.is_empty() {
        return None;
    }
    let (image, other) = (image.text(schema), other.text(schema));
    let count = counted(steps.len(), "step");
    let mut notes = vec![format!("{path} goes to {image}, equal to {other} in {of} by {count}")];
    notes.extend(steps.iter().take(MOST_SHOWN).map(|step| format!("  {step}")));
    if steps.len() > MOST_SHOWN {
        notes.push(format!("  and {} more", counted(steps.len() - MOST_SHOWN, "step")));
    }
    Some(notes)
}
