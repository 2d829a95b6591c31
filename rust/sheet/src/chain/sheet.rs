//! Chains as sheets.

use super::{Chain, Step};
use crate::bits::{BitReader, Fault};

impl Chain {
    /// Decodes a chain sheet: "the number of steps in 8 bits, then 5, 1 and 4 bits
    /// for each", the equation, the direction and the edges before.
    ///
    /// ```
    /// let chain = sheet::Chain::from_sheet(&[0x01, 0x0C, 0x80]).unwrap();
    /// assert_eq!(chain.steps, [sheet::Step { equation: 1, back: true, before: 2 }]);
    /// ```
    ///
    /// # Errors
    /// The first fault: 1 or 2.
    pub fn from_sheet(sheet: &[u8]) -> Result<Self, Fault> {
        let mut reader = BitReader::new(sheet);
        let count = reader.number(8, || "the number of steps".to_string())?;
        let steps =
            (0..count).map(|number| read_step(&mut reader, number)).collect::<Result<_, _>>()?;
        reader.finish()?;
        Ok(Chain { steps })
    }
}

fn read_step(reader: &mut BitReader, number: usize) -> Result<Step, Fault> {
    let equation = reader.number(5, || format!("the equation of step {number}"))?;
    let direction = reader.number(1, || format!("the direction of step {number}"))?;
    let before = reader.number(4, || format!("the links before step {number}"))?;
    Ok(Step { equation, back: direction == 1, before })
}
