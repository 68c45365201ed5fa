//! Fields of bits, most significant bit first, no alignment: written and read.

/// Collects fields into bytes.
#[derive(Default)]
pub struct Writer {
    bytes: Vec<u8>,
    used: usize,
}

impl Writer {
    /// Appends the `width` low bits of `value`; what does not fit in the width is cut off.
    pub fn put(&mut self, value: u64, width: usize) {
        for place in (0..width).rev() {
            if self.used.is_multiple_of(8) {
                self.bytes.push(0);
            }
            let last = self.bytes.len() - 1;
            self.bytes[last] |= ((value >> place & 1) as u8) << (7 - self.used % 8);
            self.used += 1;
        }
    }

    pub fn bits(&self) -> usize {
        self.used
    }

    /// The bytes so far; the last one is filled up with zero bits.
    pub fn bytes(self) -> Vec<u8> {
        self.bytes
    }
}

/// Reads fields of bits from the front of `bytes`.
pub struct Reader<'a> {
    bytes: &'a [u8],
    at: usize,
}

impl<'a> Reader<'a> {
    pub fn new(bytes: &'a [u8]) -> Self {
        Reader { bytes, at: 0 }
    }

    /// How many bits are left.
    pub fn left(&self) -> usize {
        self.bytes.len() * 8 - self.at
    }

    /// The next field of at most 64 bits, or nothing if the input ends before it does.
    pub fn field(&mut self, width: usize) -> Option<u64> {
        if self.left() < width {
            return None;
        }
        let mut value = 0;
        for _ in 0..width {
            let bit = self.bytes[self.at / 8] >> (7 - self.at % 8) & 1;
            value = value << 1 | u64::from(bit);
            self.at += 1;
        }
        Some(value)
    }
}
