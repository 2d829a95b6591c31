//! Why two paths are equal or unequal, in words.

use crate::bits::counted;
use crate::call::Role;
use crate::chain::Chain;
use crate::classes::Classes;
use crate::path::Path;
use crate::question::{Answer, Question};
use crate::schema::Schema;

impl Question {
    /// What the call for a chain has answered.  For equal paths the steps from the
    /// first to the second, one a line; for unequal ones which starts or ends
    /// differ, and what each path is equal to.  None where the answer is not one
    /// to this question.
    ///
    /// ```
    /// use sheet::{Call, Lent, LentSchema, Question};
    /// # let text = "node A\nnode B\nlink A.x -> B\nlink A.y -> B\nequation A.x = A.y\n";
    /// let s = LentSchema::from_text("ruled.schema", text).unwrap();
    /// let path = |text| Lent::path(text, s.schema.as_ref().unwrap()).ok();
    /// let mut question = Question::new(Call::PathChain);
    /// (question.p, question.q) = (path("A.x"), path("A.y"));
    /// question.s = Some(s);
    /// let answer = question.ask().unwrap();
    /// assert_eq!(
    ///     question.why(&answer).unwrap(),
    ///     "equal by 1 step\n  1  A.[x] = A.[y]  equation 0, left to right (ruled.schema line 5)\n"
    /// );
    /// ```
    pub fn why(&self, answer: &Answer) -> Option<String> {
        let p = Path::from_sheet(self.sheet(Role::P)).ok()?;
        let q = Path::from_sheet(self.sheet(Role::Q)).ok()?;
        match answer {
            Answer::Sheet(sheet) => self.equal(&p, &Chain::from_sheet(sheet).ok()?),
            Answer::Equal(false) => self.unequal(&p, &q),
            _ => None,
        }
    }

    fn equal(&self, p: &Path, chain: &Chain) -> Option<String> {
        if chain.steps.is_empty() {
            return Some("equal by 0 steps: both are the same list of links\n".to_string());
        }
        let steps = chain.to_lines(self.s.as_ref()?, p)?;
        let lines = steps.iter().map(|step| format!("  {step}\n"));
        Some(format!("equal by {}\n", counted(steps.len(), "step")) + &lines.collect::<String>())
    }

    fn unequal(&self, p: &Path, q: &Path) -> Option<String> {
        let schema = self.s_schema()?;
        let classes = Classes::of(schema, self.sheet(Role::S))?;
        let mut text = format!("unequal: {}\n", difference(schema, p, q)?);
        for path in [p, q] {
            text.push_str(&format!("equal to {}:", path.text(schema)));
            let others: Vec<String> =
                classes.others(path).map(|other| format!("\n  {}", other.text(schema))).collect();
            match others.is_empty() {
                true => text.push_str(" no other path\n"),
                false => text.push_str(&(others.concat() + "\n")),
            }
        }
        Some(text)
    }
}

/// Where two unequal paths start or end at other nodes; else that no steps lead
/// from one to the other.
fn difference(schema: &Schema, p: &Path, q: &Path) -> Option<String> {
    let (first, second) = (p.text(schema), q.text(schema));
    let nodes = [("starts", p.start, q.start), ("ends", p.end(schema)?, q.end(schema)?)];
    let other = nodes.into_iter().filter(|(_, here, there)| here != there);
    let told = other.map(|(verb, here, there)| {
        let (here, there) = (schema.node_name(here), schema.node_name(there));
        format!("{first} {verb} at {here}, {second} at {there}")
    });
    let told: Vec<String> = told.collect();
    Some(match told.is_empty() {
        true => format!("no equations lead from {first} to {second}"),
        false => told.join("; "),
    })
}
