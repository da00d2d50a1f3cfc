//! README's sample in Rust: book B1 of document 01, its six events one by one, and the rows that they complete.
use tracematch_watch::{Book, Refusal, State, Tally, EVENT_ROWS, RECORD_BYTES, ROW_BYTES};

fn main() -> Result<(), Refusal> {
    let book = Book::read(b"vars d s\nsym load 1 d s\nsym drop 2 d\nsym clean 3 d\nmatch load drop+\n")?;
    let (mut state, mut tally, mut buffer) = (State::fresh(), Tally::default(), [0; EVENT_ROWS * ROW_BYTES]);
    let events: [(u8, &[u32]); 6] = [(1, &[1, 7]), (1, &[2, 8]), (2, &[1]), (3, &[2]), (2, &[2]), (2, &[1])];
    for (kind, arguments) in events {
        let mut record = [0; RECORD_BYTES]; // kind, argument count, two zeros, four bytes to an argument
        (record[0], record[1]) = (kind, arguments.len() as u8);
        for (i, argument) in arguments.iter().enumerate() {
            record[4 + 4 * i..8 + 4 * i].copy_from_slice(&argument.to_le_bytes());
        }
        for row in state.event(&book, &record, &mut buffer, 0, &mut tally)? {
            println!("event {}: d {}, s {}", row.number, row.values()[0], row.values()[1]);
        }
    }
    Ok(())
}
