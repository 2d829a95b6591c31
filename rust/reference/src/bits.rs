//! Bit fields: "Each sheet is bytes read as bit fields, most significant bit
//! first, then 0 bits to the byte's end, then nothing."

use crate::refusal::{Judged, CUT, TAIL};

/// "The reader holds one lent sheet and a bit position."
pub struct BitReader<'a> {
    sheet: &'a [u8],
    position: usize,
}

impl<'a> BitReader<'a> {
    /// A reader at the first bit of `sheet`.
    pub fn new(sheet: &'a [u8]) -> Self {
        BitReader { sheet, position: 0 }
    }

    /// The bit at the position, which then moves on; nothing at the end.
    fn bit(&mut self) -> Option<u32> {
        let byte = self.sheet.get(self.position / 8)?;
        let bit = (byte >> (7 - self.position % 8)) & 1;
        self.position += 1;
        Some(u32::from(bit))
    }

    /// The next field of `width` bits (0 to 32); 1 where "the bits end before
    /// the last field does".
    pub fn field(&mut self, width: u32) -> Judged<u32> {
        let mut value = 0;
        for _ in 0..width {
            value = (value << 1) | self.bit().ok_or(CUT)?;
        }
        Ok(value)
    }

    /// The next field of `width` bits as a count or a number of something.
    pub fn number(&mut self, width: u32) -> Judged<usize> {
        self.field(width).map(|value| value as usize)
    }

    /// `count` fields of `width` bits as numbers.
    pub fn numbers(&mut self, count: usize, width: u32) -> Judged<Vec<usize>> {
        (0..count).map(|_| self.number(width)).collect()
    }

    /// The end of the sheet: 2 where "a filling bit is 1, or a byte follows".
    pub fn finish(mut self) -> Judged<()> {
        while !self.position.is_multiple_of(8) {
            if self.bit() == Some(1) {
                return Err(TAIL);
            }
        }
        if self.position / 8 < self.sheet.len() {
            return Err(TAIL);
        }
        Ok(())
    }
}

/// Writes bit fields, most significant bit first.
#[derive(Default)]
pub struct BitWriter {
    bytes: Vec<u8>,
    position: usize,
}

impl BitWriter {
    /// A writer of an empty sheet.
    pub fn new() -> Self {
        Self::default()
    }

    fn bit(&mut self, bit: u32) {
        if self.position.is_multiple_of(8) {
            self.bytes.push(0);
        }
        if bit == 1 {
            let last = self.bytes.len() - 1;
            self.bytes[last] |= 1 << (7 - self.position % 8);
        }
        self.position += 1;
    }

    /// Adds a field: the low `width` bits (0 to 32) of `value`.
    pub fn field(&mut self, width: u32, value: u32) {
        for place in (0..width).rev() {
            self.bit((value >> place) & 1);
        }
    }

    /// Adds a count or a number of something: its low `width` bits.
    pub fn number(&mut self, width: u32, value: usize) {
        for place in (0..width).rev() {
            self.bit(((value >> place) & 1) as u32);
        }
    }

    /// The sheet, the last byte filled with 0 bits.
    pub fn finish(self) -> Vec<u8> {
        self.bytes
    }
}

#[cfg(test)]
mod tests {
    use super::*;

    #[test]
    fn fields_of_every_width_come_back() {
        for width in 0..=32 {
            let largest = ((1u64 << width) - 1) as u32;
            for value in [0, 1, largest / 3, largest] {
                let value = value & largest;
                let mut writer = BitWriter::new();
                writer.field(3, 5);
                writer.field(width, value);
                let sheet = writer.finish();
                assert_eq!(sheet.len(), (3 + width as usize).div_ceil(8));
                let mut reader = BitReader::new(&sheet);
                assert_eq!(reader.field(3), Ok(5));
                assert_eq!(reader.field(width), Ok(value));
                assert_eq!(reader.finish(), Ok(()));
            }
        }
    }

    #[test]
    fn the_end_is_cut_or_has_a_tail() {
        let mut reader = BitReader::new(&[0xA0]);
        assert_eq!(reader.field(9), Err(CUT));
        let mut reader = BitReader::new(&[0xA0]);
        assert_eq!(reader.field(3), Ok(5));
        assert_eq!(reader.finish(), Ok(()));
        let mut reader = BitReader::new(&[0xA1]);
        assert_eq!(reader.field(3), Ok(5));
        assert_eq!(reader.finish(), Err(TAIL));
        let mut reader = BitReader::new(&[0xA0, 0x00]);
        assert_eq!(reader.field(3), Ok(5));
        assert_eq!(reader.finish(), Err(TAIL));
        assert_eq!(BitReader::new(&[]).finish(), Ok(()));
        assert_eq!(BitReader::new(&[0]).finish(), Err(TAIL));
    }
}
