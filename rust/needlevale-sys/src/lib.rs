//! `include/needlevale.h` in Rust: the functions of `libneedlevale_c.a`, x86-64 code.
//!
//! All declarations of the boundary stand in this file. What is proved of the functions and what is the caller's part is
//! in the header; the crate `needlevale` keeps that part, so that its own callers need no `unsafe`.
#![no_std]

use core::mem::size_of;

/// The longest input that is not refused: three bytes of query, then the longest table file.
pub const LONGEST_INPUT: usize = 3 + LONGEST_FILE;

/// The longest table file.
pub const LONGEST_FILE: usize = 21_385;

/// The room that document 01's program has for its output. The call itself takes any.
pub const PROGRAM_OUTPUT: usize = 16_384;

/// The most terms that a store can have.
pub const MOST_TERMS: usize = 1_024;

/// The most names that a store can have.
pub const MOST_NAMES: usize = 128;

/// The stack of a thread that is to make a call, in bytes, by the call's name: the header's `NEEDLEVALE_STACK_`.
/// Measured and tested, not proved; `scripts/stacks write` writes these lines.
pub mod stack {
    pub const ANSWER: usize = 618496;
    pub const READ: usize = 139264;
    pub const ADD_LITERAL_FLAT: usize = 32768;
    pub const BEST: usize = 716800;
    pub const VARIANTS: usize = 585728;
    pub const PLAIN_TEXT: usize = 307200;
    pub const LET_TEXT: usize = 344064;
    pub const SIZE: usize = 147456;
    pub const GET: usize = 147456;
    pub const COMPARE: usize = 147456;
    pub const SORT: usize = 172032;
    pub const FIND_LITERAL: usize = 147456;
    pub const FIND_VARIABLE: usize = 147456;
    pub const FIND_APPLICATION: usize = 147456;
    pub const ADD_LITERAL: usize = 253952;
    pub const ADD_VARIABLE: usize = 258048;
    pub const ADD_APPLICATION: usize = 258048;
}

/// Numbers of a store's record: kind, symbol, count, eight children.
pub const RECORD: usize = 11;

/// Bytes of a store's name: length, bytes, zeros.
pub const NAME: usize = 32;

/// A term record: its kind (0 literal, 1 variable, 2 application), the number of its symbol, the count of its children,
/// its literal, and child numbers. What its kind does not use is zero.
#[repr(C)]
#[derive(Clone, Copy, Debug, Default, PartialEq, Eq)]
pub struct Term {
    pub kind: u64,
    pub symbol: u64,
    pub count: u64,
    pub literal: i64,
    pub children: [u64; 8],
}

/// A name's entry: its length, its bytes, and zeros.
pub type Entry = [u8; NAME];

/// The length of a let text, or minus a refusal's number; and the next unused count, or 0.
#[repr(C)]
#[derive(Clone, Copy, Debug, PartialEq, Eq)]
pub struct LetLength {
    pub length: i64,
    pub next: u64,
}

/// Status 0, the cost, the term's number and the passes; or minus a refusal's number, and zeros. Then the store's
/// counts.
#[repr(C)]
#[derive(Clone, Copy, Debug, PartialEq, Eq)]
pub struct BestTerm {
    pub status: i64,
    pub cost: u64,
    pub term: usize,
    pub passes: u64,
    pub term_count: usize,
    pub name_count: usize,
}

/// Status 0, how many variants are kept and the passes; or minus a refusal's number, and zeros. Then the store's
/// counts.
#[repr(C)]
#[derive(Clone, Copy, Debug, PartialEq, Eq)]
pub struct Kept {
    pub status: i64,
    pub count: usize,
    pub passes: u64,
    pub term_count: usize,
    pub name_count: usize,
}

/// Status 0 and a count or a term's number; or minus a refusal's number, and 0.
#[repr(C)]
#[derive(Clone, Copy, Debug, PartialEq, Eq)]
pub struct Number {
    pub status: i64,
    pub number: usize,
}

/// Status 0 and a term's record; or minus a refusal's number, and a record of zeros.
#[repr(C)]
#[derive(Clone, Copy, Debug, PartialEq, Eq)]
pub struct Got {
    pub status: i64,
    pub term: Term,
}

/// Status 0 and how many sorts, literals, functions and rows there are; or minus a refusal's number, and zeros.
#[repr(C)]
#[derive(Clone, Copy, Debug, PartialEq, Eq)]
pub struct Shape {
    pub status: i64,
    pub sorts: usize,
    pub literals: usize,
    pub functions: usize,
    pub rows: usize,
}

/// Status 0 and a term's number; or minus a refusal's number, and 0. Then the store's counts.
#[repr(C)]
#[derive(Clone, Copy, Debug, PartialEq, Eq)]
pub struct Added {
    pub status: i64,
    pub term: usize,
    pub term_count: usize,
    pub name_count: usize,
}

/// Status 0, and -1, 0 or 1 as the first term is less than the second, the same or more; or minus a refusal's number,
/// and 0.
#[repr(C)]
#[derive(Clone, Copy, Debug, PartialEq, Eq)]
pub struct Order {
    pub status: i64,
    pub order: i64,
}

// The sizes that tests/c/calls.c holds the header's structs to.
const _: () = assert!(size_of::<Term>() == 96 && size_of::<Entry>() == 32);
const _: () = assert!(size_of::<Got>() == 104 && size_of::<Shape>() == 40);
const _: () = assert!(size_of::<BestTerm>() == 48 && size_of::<Kept>() == 40);
const _: () = assert!(size_of::<Added>() == 32 && size_of::<Number>() == 16);
const _: () = assert!(size_of::<Order>() == 16 && size_of::<LetLength>() == 16);

extern "C" {
    /// The version as one number: the first * 1,000,000 + the second * 1,000 + the third.
    ///
    /// # Safety
    ///
    /// None is asked.
    pub fn needlevale_version() -> u64;

    /// The answer to the query and table file at `input`: the length of the text at the start of `output`, or minus a
    /// refusal's number.
    ///
    /// # Safety
    ///
    /// Each pointer stands for as many readable bytes as its length says, `output` for writable ones; the two buffers do
    /// not overlap; no length is over 2^63-1; the thread has [`stack::ANSWER`] bytes of stack.
    pub fn needlevale_answer(input: *const u8, input_length: usize, output: *mut u8, output_length: usize) -> i64;

    /// Whether a table file is accepted, and how much it holds.
    ///
    /// # Safety
    ///
    /// As above, with the call's own stack.
    pub fn needlevale_read(file: *const u8, file_length: usize) -> Shape;

    /// The number of a literal's term in a lent store, added if it is not there; or minus a refusal's number.
    ///
    /// # Safety
    ///
    /// As above, and the lengths count elements.
    pub fn needlevale_add_literal_flat(
        records: *mut u64,
        records_length: usize,
        literals: *mut i64,
        literals_length: usize,
        names: *const u8,
        names_length: usize,
        terms: usize,
        symbols: usize,
        value: i64,
    ) -> i64;

    /// The plain text of a term of a store of structs: the length of the text at the start of `output`, or minus a
    /// refusal's number.
    ///
    /// # Safety
    ///
    /// As above, with the call's own stack.
    pub fn needlevale_plain_text(
        terms: *const Term,
        terms_length: usize,
        names: *const Entry,
        names_length: usize,
        term_count: usize,
        name_count: usize,
        term: usize,
        output: *mut u8,
        output_length: usize,
    ) -> i64;

    /// The let text of a term of a store of structs.
    ///
    /// # Safety
    ///
    /// As above.
    pub fn needlevale_let_text(
        terms: *const Term,
        terms_length: usize,
        names: *const Entry,
        names_length: usize,
        term_count: usize,
        name_count: usize,
        term: usize,
        prefix: *const u8,
        prefix_length: usize,
        hint: *const u8,
        hint_length: usize,
        start: u64,
        bare: bool,
        output: *mut u8,
        output_length: usize,
    ) -> LetLength;

    /// The best term of a root of the table file at `file`, built in a store of structs.
    ///
    /// # Safety
    ///
    /// As above.
    pub fn needlevale_best(
        file: *const u8,
        file_length: usize,
        sort: u64,
        value: u64,
        terms: *mut Term,
        terms_length: usize,
        names: *mut Entry,
        names_length: usize,
        term_count: usize,
        name_count: usize,
    ) -> BestTerm;

    /// At most `most` variants of a root of the table file at `file`, built in a store of structs: their costs and term
    /// numbers at the start of `costs` and `found`.
    ///
    /// # Safety
    ///
    /// As above.
    pub fn needlevale_variants(
        file: *const u8,
        file_length: usize,
        sort: u64,
        value: u64,
        most: usize,
        terms: *mut Term,
        terms_length: usize,
        names: *mut Entry,
        names_length: usize,
        term_count: usize,
        name_count: usize,
        costs: *mut u64,
        costs_length: usize,
        found: *mut u64,
        found_length: usize,
    ) -> Kept;

    /// How many terms there are.
    ///
    /// # Safety
    ///
    /// As above.
    pub fn needlevale_size(
        terms: *const Term,
        terms_length: usize,
        names: *const Entry,
        names_length: usize,
        term_count: usize,
        name_count: usize,
    ) -> Number;

    /// The record of a term.
    ///
    /// # Safety
    ///
    /// As above.
    pub fn needlevale_get(
        terms: *const Term,
        terms_length: usize,
        names: *const Entry,
        names_length: usize,
        term_count: usize,
        name_count: usize,
        term: usize,
    ) -> Got;

    /// How two terms stand in the order of terms.
    ///
    /// # Safety
    ///
    /// As above.
    pub fn needlevale_compare(
        terms: *const Term,
        terms_length: usize,
        names: *const Entry,
        names_length: usize,
        term_count: usize,
        name_count: usize,
        first: usize,
        second: usize,
    ) -> Order;

    /// Sorts a list of term numbers, and keeps repeats: 0, or minus a refusal's number.
    ///
    /// # Safety
    ///
    /// As above.
    pub fn needlevale_sort(
        terms: *const Term,
        terms_length: usize,
        names: *const Entry,
        names_length: usize,
        term_count: usize,
        name_count: usize,
        list: *mut u64,
        list_length: usize,
    ) -> i64;

    /// The number of a literal's term.
    ///
    /// # Safety
    ///
    /// As above.
    pub fn needlevale_find_literal(
        terms: *const Term,
        terms_length: usize,
        names: *const Entry,
        names_length: usize,
        term_count: usize,
        name_count: usize,
        literal: i64,
    ) -> Number;

    /// The number of a variable's term.
    ///
    /// # Safety
    ///
    /// As above.
    pub fn needlevale_find_variable(
        terms: *const Term,
        terms_length: usize,
        names: *const Entry,
        names_length: usize,
        term_count: usize,
        name_count: usize,
        name: *const u8,
        name_length: usize,
    ) -> Number;

    /// The number of an application's term.
    ///
    /// # Safety
    ///
    /// As above.
    pub fn needlevale_find_application(
        terms: *const Term,
        terms_length: usize,
        names: *const Entry,
        names_length: usize,
        term_count: usize,
        name_count: usize,
        name: *const u8,
        name_length: usize,
        children: *const u64,
        children_length: usize,
    ) -> Number;

    /// The number of a literal's term, added if it is not there.
    ///
    /// # Safety
    ///
    /// As above.
    pub fn needlevale_add_literal(
        terms: *mut Term,
        terms_length: usize,
        names: *const Entry,
        names_length: usize,
        term_count: usize,
        name_count: usize,
        literal: i64,
    ) -> Added;

    /// The number of a variable's term, added if it is not there.
    ///
    /// # Safety
    ///
    /// As above.
    pub fn needlevale_add_variable(
        terms: *mut Term,
        terms_length: usize,
        names: *mut Entry,
        names_length: usize,
        term_count: usize,
        name_count: usize,
        name: *const u8,
        name_length: usize,
    ) -> Added;

    /// The number of an application's term, added if it is not there.
    ///
    /// # Safety
    ///
    /// As above.
    pub fn needlevale_add_application(
        terms: *mut Term,
        terms_length: usize,
        names: *mut Entry,
        names_length: usize,
        term_count: usize,
        name_count: usize,
        name: *const u8,
        name_length: usize,
        children: *const u64,
        children_length: usize,
    ) -> Added;
}
