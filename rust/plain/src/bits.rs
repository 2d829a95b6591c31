//! Bit fields, most significant bit first.

use crate::Judged;

const CUT: u8 = 1;
const TAIL: u8 = 2;

/// Reads fields of at most 32 bits.
pub struct Reader<'a> {
    bytes: &'a [u8],
    at: usize,
}

impl<'a> Reader<'a> {
    pub fn new(bytes: &'a [u8]) -> Self {
        Reader { bytes, at: 0 }
    }

    /// Whether so many bits are left.
    pub fn need(&self, bits: usize) -> Judged<()> {
        if self.at + bits <= 8 * self.bytes.len() {
            Ok(())
        } else {
            Err(CUT)
        }
    }

    /// The next field, of at least one bit.  It is there.
    #[inline]
    pub fn take(&mut self, width: u32) -> u32 {
        let first = self.at / 8;
        let word = match self.bytes.get(first..first + 8) {
            Some(eight) => u64::from_be_bytes(eight.try_into().expect("eight bytes")),
            None => {
                let mut eight = [0; 8];
                let rest = &self.bytes[first..];
                eight[..rest.len()].copy_from_slice(rest);
                u64::from_be_bytes(eight)
            }
        };
        let field = word << (self.at % 8) >> (64 - width);
        self.at += width as usize;
        field as u32
    }

    /// The next field, if it is there.
    pub fn field(&mut self, width: u32) -> Judged<u32> {
        self.need(width as usize)?;
        Ok(self.take(width))
    }

    /// The end: 0 bits to the byte's end, then nothing.
    pub fn finish(self) -> Judged<()> {
        let (whole, rest) = (self.at / 8, self.at % 8);
        let used = whole + usize::from(rest > 0);
        if used < self.bytes.len() || (rest > 0 && self.bytes[whole] & (0xFF >> rest) != 0) {
            return Err(TAIL);
        }
        Ok(())
    }
}

/// Writes fields of at most 32 bits into a tray that holds them.
pub struct Writer<'a> {
    tray: &'a mut [u8],
    next: usize,
    waiting: u64,
    count: u32,
}

impl<'a> Writer<'a> {
    pub fn new(tray: &'a mut [u8]) -> Self {
        Writer { tray, next: 0, waiting: 0, count: 0 }
    }

    #[inline]
    pub fn put(&mut self, width: u32, value: u32) {
        self.waiting = self.waiting << width | u64::from(value);
        self.count += width;
        while self.count >= 8 {
            self.count -= 8;
            self.tray[self.next] = (self.waiting >> self.count) as u8;
            self.next += 1;
        }
    }

    /// Fills the last byte with 0 bits; the number of bytes written.
    pub fn finish(mut self) -> usize {
        if self.count > 0 {
            self.put(8 - self.count, 0);
        }
        self.next
    }
}
