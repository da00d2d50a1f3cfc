//! The listing in Rust, an example for those who write their own: reads `book.txt` in the current folder and event records from
//! standard input. A refused text: `book`, number, place. Otherwise to each record its number, the answer and the row count,
//! then to each row `row` and the values. A last short record is passed as it is.
use std::io::{self, BufRead, BufReader, BufWriter, Read, Write};
use tracematch_watch::{Book, State, Tally, EVENT_ROWS, RECORD_BYTES, ROW_BYTES};

fn list(book: &Book, mut events: impl BufRead, mut out: impl Write) -> io::Result<()> {
    let mut rows = vec![0; EVENT_ROWS * ROW_BYTES];
    let (mut state, mut tally) = (State::fresh(), Tally::default());
    let mut record = Vec::with_capacity(RECORD_BYTES);
    for number in 1u64.. {
        record.clear();
        events.by_ref().take(RECORD_BYTES as u64).read_to_end(&mut record)?;
        if record.is_empty() {
            break;
        }
        match state.event(book, &record, &mut rows, 0, &mut tally) {
            Err(refusal) => writeln!(out, "{number} {} 0", refusal.answer.number())?,
            Ok(written) => {
                writeln!(out, "{number} 0 {}", written.len())?;
                for row in written {
                    write!(out, "row")?;
                    row.values().iter().try_for_each(|value| write!(out, " {value}"))?;
                    writeln!(out)?;
                }
            }
        }
    }
    out.flush()
}

fn main() -> io::Result<()> {
    match Book::read(&std::fs::read("book.txt")?) {
        Ok(book) => list(&book, BufReader::new(io::stdin().lock()), BufWriter::new(io::stdout().lock())),
        Err(refusal) => writeln!(io::stdout(), "book {} {}", refusal.answer.number(), refusal.place),
    }
}
