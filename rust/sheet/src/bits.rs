//! Bit fields: "Each sheet is bytes read as bit fields, most significant bit
//! first, then 0 bits to the byte's end, then nothing."

use std::fmt;

/// Why a sheet cannot be read, in the words of its fields.
#[derive(Debug, Clone, PartialEq, Eq)]
pub enum Fault {
    /// The bits end inside a field.
    Cut {
        /// The field.
        field: String,
        /// The bytes that the sheet has.
        bytes: usize,
    },
    /// A bit after the last field is 1.
    FillingBit {
        /// The byte that holds it, counted from 1.
        byte: usize,
    },
    /// Bytes follow the one with the last field.
    Follows {
        /// How many.
        bytes: usize,
        /// The bytes that the fields take.
        needed: usize,
    },
    /// A count is beyond its limit.
    Count {
        /// The count and its limit.
        what: String,
    },
}

impl Fault {
    /// Document 01's number for it: 1, 2 or 3.
    pub fn number(&self) -> u8 {
        match self {
            Fault::Cut { .. } => 1,
            Fault::FillingBit { .. } | Fault::Follows { .. } => 2,
            Fault::Count { .. } => 3,
        }
    }
}

impl fmt::Display for Fault {
    fn fmt(&self, out: &mut fmt::Formatter<'_>) -> fmt::Result {
        match self {
            Fault::Cut { bytes: 0, .. } => out.write_str("the sheet is empty"),
            Fault::Cut { field, bytes } => {
                write!(out, "the sheet ends after {}, inside {field}", counted(*bytes, "byte"))
            }
            Fault::FillingBit { byte } => {
                write!(out, "byte {byte} has a bit 1 after the last field")
            }
            Fault::Follows { bytes, needed } => {
                let verb = if *bytes == 1 { "follows" } else { "follow" };
                let extra = counted(*bytes, "byte");
                write!(out, "{extra} {verb} the last field, which ends in byte {needed}")
            }
            Fault::Count { what } => out.write_str(what),
        }
    }
}

impl std::error::Error for Fault {}

/// A count with its noun: `1 row`, `2 rows`.
pub(crate) fn counted(count: usize, noun: &str) -> String {
    match count {
        1 => format!("1 {noun}"),
        _ => format!("{count} {noun}s"),
    }
}

/// Reads fields from a sheet.
pub(crate) struct BitReader<'a> {
    sheet: &'a [u8],
    position: usize,
}

impl<'a> BitReader<'a> {
    pub(crate) fn new(sheet: &'a [u8]) -> Self {
        BitReader { sheet, position: 0 }
    }

    fn bit(&mut self) -> Option<u32> {
        let byte = self.sheet.get(self.position / 8)?;
        let bit = (byte >> (7 - self.position % 8)) & 1;
        self.position += 1;
        Some(u32::from(bit))
    }

    /// The next field of `width` bits, at most 32; `name` says which it is.
    pub(crate) fn field(&mut self, width: u32, name: impl Fn() -> String) -> Result<u32, Fault> {
        let mut value = 0;
        for _ in 0..width {
            let cut = || Fault::Cut { field: name(), bytes: self.sheet.len() };
            value = match self.bit() {
                Some(bit) => (value << 1) | bit,
                None => return Err(cut()),
            };
        }
        Ok(value)
    }

    /// The next field as the number of something.
    pub(crate) fn number(&mut self, width: u32, name: impl Fn() -> String) -> Result<usize, Fault> {
        self.field(width, name).map(|value| value as usize)
    }

    /// Nothing may follow but 0 bits to the byte's end.
    pub(crate) fn finish(mut self) -> Result<(), Fault> {
        let needed = self.position.div_ceil(8);
        while !self.position.is_multiple_of(8) {
            if self.bit() == Some(1) {
                return Err(Fault::FillingBit { byte: needed });
            }
        }
        match self.sheet.len().saturating_sub(needed) {
            0 => Ok(()),
            bytes => Err(Fault::Follows { bytes, needed }),
        }
    }
}

/// A number that its field in a sheet cannot hold.
#[derive(Debug, Clone, PartialEq, Eq)]
pub struct Unwritable {
    /// The number and the field, in words.
    pub what: String,
}

impl fmt::Display for Unwritable {
    fn fmt(&self, out: &mut fmt::Formatter<'_>) -> fmt::Result {
        out.write_str(&self.what)
    }
}

impl std::error::Error for Unwritable {}

/// Writes fields into a sheet.
pub(crate) struct BitWriter {
    bytes: Vec<u8>,
    position: usize,
    low_bits: bool,
}

impl BitWriter {
    pub(crate) fn new() -> Self {
        BitWriter { bytes: Vec::new(), position: 0, low_bits: false }
    }

    /// From here on a number that does not fit is written by its low bits.  It
    /// is used where a count already makes the sheet be sent back.
    pub(crate) fn allow_low_bits(&mut self) {
        self.low_bits = true;
    }

    fn bit(&mut self, bit: u8) {
        if self.position.is_multiple_of(8) {
            self.bytes.push(0);
        }
        if let Some(last) = self.bytes.last_mut() {
            *last |= bit << (7 - self.position % 8);
        }
        self.position += 1;
    }

    /// Adds a field of `width` bits, at most 32.
    pub(crate) fn field(&mut self, width: u32, value: u32) {
        for place in (0..width).rev() {
            self.bit(((value >> place) & 1) as u8);
        }
    }

    /// Adds the number of something, if its field of `width` bits holds it.
    pub(crate) fn number(
        &mut self,
        width: u32,
        value: usize,
        name: impl Fn() -> String,
    ) -> Result<(), Unwritable> {
        let largest = (1usize << width) - 1;
        if value > largest && !self.low_bits {
            let what = format!("{} is {value}, but its field holds at most {largest}", name());
            return Err(Unwritable { what });
        }
        self.field(width, (value & largest) as u32);
        Ok(())
    }

    pub(crate) fn finish(self) -> Vec<u8> {
        self.bytes
    }
}

#[cfg(test)]
mod tests {
    use super::*;

    fn nameless() -> String {
        "a field".to_string()
    }

    #[test]
    fn fields_of_every_width_come_back() {
        for width in 1..=32u32 {
            let largest = u32::MAX >> (32 - width);
            for value in [0, 1, largest / 3, largest] {
                let mut writer = BitWriter::new();
                writer.field(3, 5);
                writer.field(width, value);
                let sheet = writer.finish();
                let mut reader = BitReader::new(&sheet);
                assert_eq!(reader.field(3, nameless), Ok(5));
                assert_eq!(reader.field(width, nameless), Ok(value));
                assert_eq!(reader.finish(), Ok(()));
            }
        }
    }

    #[test]
    fn a_cut_names_the_field() {
        let fault = BitReader::new(&[1]).field(9, nameless).unwrap_err();
        assert_eq!(fault.number(), 1);
        assert_eq!(fault.to_string(), "the sheet ends after 1 byte, inside a field");
    }

    #[test]
    fn a_tail_is_a_bit_or_bytes() {
        let finish = |sheet: &[u8]| {
            let mut reader = BitReader::new(sheet);
            reader.field(3, nameless).unwrap();
            reader.finish()
        };
        assert_eq!(finish(&[0xA0]), Ok(()));
        assert_eq!(finish(&[0xA1]), Err(Fault::FillingBit { byte: 1 }));
        assert_eq!(finish(&[0xA0, 0, 0]), Err(Fault::Follows { bytes: 2, needed: 1 }));
    }

    #[test]
    fn a_number_too_wide_is_told_or_cut_to_its_low_bits() {
        let mut writer = BitWriter::new();
        let told = writer.number(4, 16, || "the node".to_string()).unwrap_err();
        assert_eq!(told.to_string(), "the node is 16, but its field holds at most 15");
        writer.allow_low_bits();
        assert_eq!(writer.number(4, 17, nameless), Ok(()));
        assert_eq!(writer.finish(), [0x10]);
    }
}
