//! Fields of bits, most significant bit first, no alignment.

/// Collects fields into bytes.
#[derive(Default)]
pub(crate) struct Writer {
    bytes: Vec<u8>,
    used: usize,
}

impl Writer {
    /// Appends the `width` low bits of `value`.
    pub(crate) fn put(&mut self, value: u64, width: usize) {
        for place in (0..width).rev() {
            if self.used % 8 == 0 {
                self.bytes.push(0);
            }
            if let Some(last) = self.bytes.last_mut() {
                *last |= ((value >> place & 1) as u8) << (7 - self.used % 8);
            }
            self.used += 1;
        }
    }

    /// How many bits were put.
    pub(crate) fn bits(&self) -> usize {
        self.used
    }

    /// The bytes, the last one filled up with zero bits.
    pub(crate) fn into_bytes(self) -> Vec<u8> {
        self.bytes
    }
}

/// Takes fields from the front of bytes.
pub(crate) struct Reader<'a> {
    bytes: &'a [u8],
    at: usize,
}

impl<'a> Reader<'a> {
    pub(crate) fn new(bytes: &'a [u8]) -> Self {
        Reader { bytes, at: 0 }
    }

    /// The bit at which the next field begins.
    pub(crate) fn at(&self) -> usize {
        self.at
    }

    /// How many bits are left.
    pub(crate) fn left(&self) -> usize {
        self.bytes.len() * 8 - self.at
    }

    /// The next field of at most 64 bits, or nothing if the input ends before it does.
    pub(crate) fn take(&mut self, width: usize) -> Option<u64> {
        if self.left() < width {
            return None;
        }
        let mut value = 0;
        for _ in 0..width {
            let byte = self.bytes.get(self.at / 8)?;
            value = value << 1 | u64::from(byte >> (7 - self.at % 8) & 1);
            self.at += 1;
        }
        Some(value)
    }
}
