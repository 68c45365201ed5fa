//! The proved library through its C boundary (include/needlevale.h).

unsafe extern "C" {
    fn needlevale_answer(input: *const u8, input_length: usize, output: *mut u8, output_length: usize) -> i64;
    fn needlevale_add_literal_flat(
        records: *mut u64,
        records_length: usize,
        literals: *mut i64,
        literals_length: usize,
        names: *const u8,
        names_length: usize,
        terms: usize,
        symbols: usize,
        value: i64,
    ) -> i64;
}

/// The length of the text at the start of `output`, or minus a refusal's number.
pub fn answer(input: &[u8], output: &mut [u8]) -> i64 {
    // SAFETY: the slices are valid for their lengths, and a `&mut` slice overlaps nothing.
    unsafe { needlevale_answer(input.as_ptr(), input.len(), output.as_mut_ptr(), output.len()) }
}

/// A term store as it is lent, with room for all that document 01 allows.
pub struct Store {
    records: Vec<u64>,
    literals: Vec<i64>,
    names: Vec<u8>,
    pub terms: usize,
}

impl Store {
    pub fn new() -> Self {
        Store { records: vec![0; 11 * 1024], literals: vec![0; 1024], names: vec![0; 32 * 128], terms: 0 }
    }

    /// The number of the literal's term, or minus a refusal's number.
    pub fn add(&mut self, value: i64) -> i64 {
        let Store { records, literals, names, terms } = self;
        // SAFETY: three vectors valid for their lengths, none of which overlap.
        let number = unsafe {
            needlevale_add_literal_flat(
                records.as_mut_ptr(),
                records.len(),
                literals.as_mut_ptr(),
                literals.len(),
                names.as_ptr(),
                names.len(),
                *terms,
                0,
                value,
            )
        };
        if usize::try_from(number) == Ok(*terms) {
            *terms += 1;
        }
        number
    }
}
