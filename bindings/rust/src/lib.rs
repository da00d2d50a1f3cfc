//! A tracematch monitor, proved in Rattle, for programs in Rust. A *book* declares variables, symbols that pick out events, and
//! one regular pattern; every 20-byte event is taken as it comes, and after each the watch lists the valuations for which the
//! pattern has just been completed. Numbers, places and formats are those of document 01 with change 1 of document 02.
//!
//! [`Book`], [`State`] and [`Tally`] own what they hold; [`lent`] has the same calls over arrays of words that the caller keeps.
//! Any text, words, bytes and places may be given: what cannot be used is refused by its [`Answer`], and then state and rows are
//! as they were. Words can be saved and loaded: all of them are safe, and those that no watch can use are answered with
//! [`Answer::Unsound`]. The calls of [`lent`] allocate and keep nothing; a [`Book`] and a [`State`] have their words in a box of their
//! own. One book may serve many states at once.
//!
//! A call needs less than [`STACK_BYTES`] of stack, as was measured; what the calls give and leave is proved.
//!
//! ```
//! use tracematch_watch::{Book, State, Tally, EVENT_ROWS, ROW_BYTES};
//!
//! let book = Book::read(b"vars d\nsym open 1 d\nsym shut 2 d\nmatch open shut\n")?;
//! let (mut state, mut tally, mut buffer) = (State::fresh(), Tally::default(), vec![0; EVENT_ROWS * ROW_BYTES]);
//! let mut record = [1, 1, 0, 0, 9, 0, 0, 0, 0, 0, 0, 0, 0, 0, 0, 0, 0, 0, 0, 0]; // open(9)
//! assert_eq!(state.event(&book, &record, &mut buffer, 0, &mut tally)?.len(), 0);
//! record[0] = 2; // shut(9)
//! let row = state.event(&book, &record, &mut buffer, 0, &mut tally)?.next().expect("open(9), shut(9) is a match");
//! assert_eq!((row.number, row.values()), (2, &[9][..]));
//! # Ok::<(), tracematch_watch::Refusal>(())
//! ```
#![deny(missing_docs)]
#![deny(unsafe_op_in_unsafe_fn)]

use std::fmt;

/// The words of a book.
pub const BOOK_WORDS: usize = 269;
/// The words of a state.
pub const STATE_WORDS: usize = 3715;
/// The first word of a book: the number of its layout.
pub const BOOK_LAYOUT: u32 = 1001;
/// The first word of a state: the number of its layout.
pub const STATE_LAYOUT: u32 = 2001;
/// The bytes of an event record: kind (1 to 255), argument count (0 to 4), two zeros, and four arguments of 32 bits, the least byte
/// first, zero beyond the count.
pub const RECORD_BYTES: usize = 20;
/// The bytes of a row: event number (32 bits, from 1, counting accepted events), variable count (one byte), three zeros, and four
/// values of 32 bits by declaration, zero beyond the count; the least byte first.
pub const ROW_BYTES: usize = 24;
/// The most rows that one event has.
pub const EVENT_ROWS: usize = 16 * 129;
/// The stack that a call needs, at most: measured (bindings/c/stack.c), not proved.
pub const STACK_BYTES: usize = 256 * 1024;

/// What a call answers, by the numbers of document 01.
#[derive(Clone, Copy, Debug, PartialEq, Eq, Hash)]
pub enum Answer {
    /// 0: accepted
    Accepted = 0,
    /// 1: book over 4,096 bytes
    TooLong = 1,
    /// 2: line out of form
    BadLine = 2,
    /// 3: a count or depth above its limit
    AboveLimit = 3,
    /// 4: name already declared
    Redeclared = 4,
    /// 5: name not declared
    Undeclared = 5,
    /// 6: pattern out of form
    BadPattern = 6,
    /// 7: empty word admitted
    EmptyWord = 7,
    /// 8: a word leaves a variable unbound
    Unbound = 8,
    /// 9: unsound book or state, or a row that would leave a variable free
    Unsound = 9,
    /// 10: event record out of form, or not 20 bytes
    OutOfForm = 10,
    /// 11: 1,000,000 events already accepted
    TooMany = 11,
    /// 12: no room
    NoRoom = 12,
    /// 13: row buffer too short, or start place beyond it
    NoSpace = 13,
}

impl Answer {
    /// All answers, by their numbers.
    pub const ALL: [Answer; 14] = [
        Answer::Accepted,
        Answer::TooLong,
        Answer::BadLine,
        Answer::AboveLimit,
        Answer::Redeclared,
        Answer::Undeclared,
        Answer::BadPattern,
        Answer::EmptyWord,
        Answer::Unbound,
        Answer::Unsound,
        Answer::OutOfForm,
        Answer::TooMany,
        Answer::NoRoom,
        Answer::NoSpace,
    ];

    /// The answer with a number, 0 to 13.
    pub fn from_number(number: usize) -> Option<Answer> {
        Answer::ALL.get(number).copied()
    }

    /// The number of an answer.
    pub fn number(self) -> usize {
        self as usize
    }
}

impl fmt::Display for Answer {
    fn fmt(&self, f: &mut fmt::Formatter<'_>) -> fmt::Result {
        f.write_str(match self {
            Answer::Accepted => "accepted",
            Answer::TooLong => "book over 4,096 bytes",
            Answer::BadLine => "line out of form",
            Answer::AboveLimit => "a count or depth above its limit",
            Answer::Redeclared => "name already declared",
            Answer::Undeclared => "name not declared",
            Answer::BadPattern => "pattern out of form",
            Answer::EmptyWord => "empty word admitted",
            Answer::Unbound => "a word leaves a variable unbound",
            Answer::Unsound => "unsound book or state, or a row that would leave a variable free",
            Answer::OutOfForm => "event record out of form, or not 20 bytes",
            Answer::TooMany => "1,000,000 events already accepted",
            Answer::NoRoom => "no room",
            Answer::NoSpace => "row buffer too short, or start place beyond it",
        })
    }
}

/// A text or an event that is refused: why, and where in the text. The answer is never [`Answer::Accepted`].
#[derive(Clone, Copy, Debug, PartialEq, Eq, Hash)]
pub struct Refusal {
    /// Why: one of 1 to 8 for a text, one of 9 to 13 for an event.
    pub answer: Answer,
    /// The first byte (from 0) of what is wrong in a text; 0 for an event.
    pub place: usize,
}

impl fmt::Display for Refusal {
    fn fmt(&self, f: &mut fmt::Formatter<'_>) -> fmt::Result {
        match self.answer.number() {
            1..=8 => write!(f, "{} (at byte {})", self.answer, self.place),
            _ => write!(f, "{}", self.answer),
        }
    }
}

impl std::error::Error for Refusal {}

/// The calls over words that the caller keeps, in any kind of memory: what [`Book`] and [`State`] are made of. Borrows see to it
/// that nothing that a call writes overlaps what else it is lent.
pub mod lent {
    use super::{Answer, Refusal, Rows, Tally, BOOK_WORDS, ROW_BYTES, STATE_WORDS};

    mod archive {
        // liblent.a, as bindings/c/watch.h has it; nothing checks this against the Rattle source but bindings/test
        extern "C" {
            pub fn watch_read(
                text: *const u8,
                text_size: usize,
                book: *mut u32,
                place: *mut usize,
                begins: *mut usize,
                ends: *mut usize,
            ) -> usize;
            pub fn watch_name(text: *const u8, text_size: usize, number: usize, start: *mut usize, size: *mut usize);
            pub fn watch_fresh(state: *mut u32);
            pub fn watch_event(
                book: *const u32,
                state: *mut u32,
                record: *const u8,
                record_size: usize,
                rows: *mut u8,
                rows_size: usize,
                place: usize,
                tally: *mut u64,
                count: *mut usize,
            ) -> usize;
        }
    }

    // The calls answer 0 to 13 and nothing else; another archive than ours may not.
    fn judged(number: usize, place: usize) -> Result<(), Refusal> {
        match Answer::from_number(number) {
            Some(Answer::Accepted) => Ok(()),
            Some(answer) => Err(Refusal { answer, place }),
            None => panic!("liblent.a answered {number}: it is not the archive that this crate is for"),
        }
    }

    /// How many positions of a book begin and how many end a word.
    #[derive(Clone, Copy, Debug, PartialEq, Eq, Hash)]
    pub struct Counts {
        /// Positions that begin a word.
        pub begins: usize,
        /// Positions that end a word.
        pub ends: usize,
    }

    /// Reads a text into all words of a book. A refused text leaves zeros, which no event call takes.
    pub fn read(text: &[u8], book: &mut [u32; BOOK_WORDS]) -> Result<Counts, Refusal> {
        let (mut place, mut begins, mut ends) = (0, 0, 0);
        // SAFETY: pointers with the sizes that the call is stated for, none of which overlaps another
        let number = unsafe { archive::watch_read(text.as_ptr(), text.len(), book.as_mut_ptr(), &mut place, &mut begins, &mut ends) };
        judged(number, place)?;
        Ok(Counts { begins, ends })
    }

    /// The name with a number, variables from 0, then symbols: that very part of the text. Empty for a number that is not
    /// declared and for a text that is refused.
    pub fn name(text: &[u8], number: usize) -> &[u8] {
        let (mut start, mut size) = (0, 0);
        // SAFETY: pointers with the sizes that the call is stated for, none of which overlaps another
        unsafe { archive::watch_name(text.as_ptr(), text.len(), number, &mut start, &mut size) };
        &text[start..start + size]
    }

    /// Makes a fresh state of all words.
    pub fn fresh(state: &mut [u32; STATE_WORDS]) {
        // SAFETY: a pointer with the size that the call is stated for
        unsafe { archive::watch_fresh(state.as_mut_ptr()) }
    }

    /// Takes one event; its rows are written from the place on. On refusal state and rows stay as they were, every word and byte,
    /// and the tally has one refused event more.
    pub fn event<'r>(
        book: &[u32; BOOK_WORDS],
        state: &mut [u32; STATE_WORDS],
        record: &[u8],
        rows: &'r mut [u8],
        place: usize,
        tally: &mut Tally,
    ) -> Result<Rows<'r>, Refusal> {
        let mut count = 0;
        let words: *mut Tally = tally;
        // SAFETY: pointers with the sizes that the call is stated for, none of which overlaps another; a tally is three u64 (repr(C))
        let number = unsafe {
            archive::watch_event(
                book.as_ptr(),
                state.as_mut_ptr(),
                record.as_ptr(),
                record.len(),
                rows.as_mut_ptr(),
                rows.len(),
                place,
                words.cast(),
                &mut count,
            )
        };
        judged(number, 0)?;
        Ok(Rows { bytes: &rows[place..place + count * ROW_BYTES] })
    }
}

// Zeros on the heap: a state is too large to be made on the stack first.
fn zeros<const N: usize>() -> Box<[u32; N]> {
    vec![0; N].into_boxed_slice().try_into().expect("a boxed slice of N words")
}

/// A book: what a text declares.
#[derive(Clone, Debug, PartialEq, Eq)]
pub struct Book {
    words: Box<[u32; BOOK_WORDS]>,
    counts: lent::Counts,
}

impl Book {
    /// Reads a text.
    pub fn read(text: &[u8]) -> Result<Book, Refusal> {
        let mut words = zeros();
        let counts = lent::read(text, &mut words)?;
        Ok(Book { words, counts })
    }

    /// The name with a number, variables from 0, then symbols, in the text of a book: that very part of it. Empty for a number
    /// that is not declared and for a text that is refused. The text is read once more for it: a book keeps no text.
    pub fn name(text: &[u8], number: usize) -> &[u8] {
        lent::name(text, number)
    }

    /// How many positions begin a word.
    pub fn begin_count(&self) -> usize {
        self.counts.begins
    }

    /// How many positions end a word.
    pub fn end_count(&self) -> usize {
        self.counts.ends
    }

    /// How many variables are declared: a name's number below this is a variable's.
    pub fn variables(&self) -> usize {
        self.words[1] as usize
    }

    /// How many symbols are declared: their names' numbers come behind those of the variables.
    pub fn symbols(&self) -> usize {
        self.words[2] as usize
    }

    /// The words, to be saved.
    pub fn words(&self) -> &[u32; BOOK_WORDS] {
        &self.words
    }

    /// The book in words that were saved. Any words are safe; events are refused as [`Answer::Unsound`] where they are no book.
    pub fn from_words(words: &[u32; BOOK_WORDS]) -> Book {
        let mut own = zeros();
        own.copy_from_slice(words);
        // one bit to a position in the words of the two sets, as `read` counts them
        let counts = lent::Counts { begins: words[4].count_ones() as usize, ends: words[5].count_ones() as usize };
        Book { words: own, counts }
    }
}

/// A state: how many events were accepted, and which partial matches are held.
#[derive(Clone, Debug, PartialEq, Eq)]
pub struct State {
    words: Box<[u32; STATE_WORDS]>,
}

impl State {
    /// A fresh state: no event was accepted, and nothing is held.
    pub fn fresh() -> State {
        let mut words = zeros();
        lent::fresh(&mut words);
        State { words }
    }

    /// Takes one event. Accepted, this is the next state, and the rows stand in the buffer from the place on, all its other bytes
    /// as they were; [`EVENT_ROWS`] rows are always enough. Refused, state and buffer are as they were, and the tally has one
    /// refused event more.
    pub fn event<'r>(
        &mut self,
        book: &Book,
        record: &[u8],
        rows: &'r mut [u8],
        place: usize,
        tally: &mut Tally,
    ) -> Result<Rows<'r>, Refusal> {
        lent::event(&book.words, &mut self.words, record, rows, place, tally)
    }

    /// The words, to be saved.
    pub fn words(&self) -> &[u32; STATE_WORDS] {
        &self.words
    }

    /// The state in words that were saved. Any words are safe; events are refused as [`Answer::Unsound`] where they are no state
    /// of the book.
    pub fn from_words(words: &[u32; STATE_WORDS]) -> State {
        let mut own = zeros();
        own.copy_from_slice(words);
        State { words: own }
    }
}

/// What was counted over all calls that were lent it; each counter stops at the largest 64-bit value.
#[derive(Clone, Copy, Debug, Default, PartialEq, Eq, Hash)]
#[repr(C)]
pub struct Tally {
    /// Events accepted.
    pub accepted: u64,
    /// Events refused.
    pub refused: u64,
    /// Rows written.
    pub rows: u64,
}

/// A row: a valuation for which the pattern was completed by an event.
#[derive(Clone, Copy, Debug, PartialEq, Eq, Hash)]
pub struct Row {
    /// The number of the event, from 1, among the accepted ones.
    pub number: u32,
    count: usize,
    values: [u32; 4],
}

impl Row {
    // the format of document 01: event number, variable count, three zeros, four values; numbers have the least byte first
    fn of(bytes: &[u8]) -> Row {
        let at = |i: usize| u32::from_le_bytes([bytes[i], bytes[i + 1], bytes[i + 2], bytes[i + 3]]);
        Row { number: at(0), count: usize::from(bytes[4]), values: [at(8), at(12), at(16), at(20)] }
    }

    /// The values of the variables, by declaration.
    pub fn values(&self) -> &[u32] {
        &self.values[..self.count]
    }
}

/// The rows of one accepted event, ascending by their values: an iterator over the part of the buffer that was written.
#[derive(Clone, Debug)]
pub struct Rows<'r> {
    bytes: &'r [u8],
}

impl<'r> Rows<'r> {
    /// The bytes of the rows that are left, [`ROW_BYTES`] to each.
    pub fn as_bytes(&self) -> &'r [u8] {
        self.bytes
    }
}

impl Iterator for Rows<'_> {
    type Item = Row;

    fn next(&mut self) -> Option<Row> {
        if self.bytes.is_empty() {
            return None;
        }
        let (row, rest) = self.bytes.split_at(ROW_BYTES);
        self.bytes = rest;
        Some(Row::of(row))
    }

    fn size_hint(&self) -> (usize, Option<usize>) {
        let left = self.bytes.len() / ROW_BYTES;
        (left, Some(left))
    }
}

impl ExactSizeIterator for Rows<'_> {}

impl std::iter::FusedIterator for Rows<'_> {}

#[cfg(test)]
mod tests;
