//! Tests of the wrapper: that what the calls give arrives, on acceptance and on refusal. The calls themselves are proved, and held
//! to a model in bindings/c/damage.c.
use super::*;

const B1: &[u8] = b"vars d s\nsym load 1 d s\nsym drop 2 d\nsym clean 3 d\nmatch load drop+\n";

fn record(kind: u8, arguments: &[u32]) -> [u8; RECORD_BYTES] {
    let mut bytes = [0; RECORD_BYTES];
    bytes[0] = kind;
    bytes[1] = arguments.len() as u8;
    for (i, a) in arguments.iter().enumerate() {
        bytes[4 + 4 * i..8 + 4 * i].copy_from_slice(&a.to_le_bytes());
    }
    bytes
}

// A book, a fresh state, a tally and room for all rows of an event.
struct Setup {
    book: Book,
    state: State,
    tally: Tally,
    rows: Vec<u8>,
}

impl Setup {
    fn new(text: &[u8]) -> Setup {
        Setup {
            book: Book::read(text).expect("a text that is accepted"),
            state: State::fresh(),
            tally: Tally::default(),
            rows: vec![0xEE; EVENT_ROWS * ROW_BYTES],
        }
    }

    fn event(&mut self, kind: u8, arguments: &[u32]) -> Result<Vec<Vec<u32>>, Refusal> {
        let rows = self.state.event(&self.book, &record(kind, arguments), &mut self.rows, 0, &mut self.tally)?;
        Ok(rows.map(|r| r.values().to_vec()).collect())
    }
}

#[test]
fn book_of_b1() {
    let book = Book::read(B1).unwrap();
    assert_eq!((book.begin_count(), book.end_count()), (1, 1));
    assert_eq!((book.variables(), book.symbols()), (2, 3));
    assert_eq!(book.words()[..7], [BOOK_LAYOUT, 2, 3, 2, 2, 4, 0]);
    let again = Book::from_words(book.words());
    assert_eq!(again, book);
    let several = Book::read(b"vars\nsym a 1\nsym b 2\nmatch (a | b | a b)\n").unwrap();
    assert_eq!((several.begin_count(), several.end_count()), (3, 3));
    assert_eq!(Book::from_words(several.words()), several);
    let uneven = Book::read(b"vars\nsym a 1\nsym b 2\nmatch (a | b) a\n").unwrap();
    assert_eq!((uneven.begin_count(), uneven.end_count()), (2, 1));
    assert_eq!(Book::from_words(uneven.words()), uneven);
}

#[test]
fn names_are_parts_of_the_text() {
    let names: Vec<&[u8]> = (0..5).map(|i| Book::name(B1, i)).collect();
    assert_eq!(names, [&b"d"[..], b"s", b"load", b"drop", b"clean"]);
    assert_eq!(Book::name(B1, 2).as_ptr(), B1[13..].as_ptr());
    for number in [5, 20, usize::MAX] {
        assert_eq!(Book::name(B1, number), b"");
    }
    assert_eq!(Book::name(b"vars d s\n", 0), b"");
    assert_eq!(Book::name(b"", 0), b"");
}

#[test]
fn refused_texts() {
    let cases: [(&[u8], usize, usize); 9] = [
        (b"", 2, 0),
        (&[b' '; 4097], 1, 4096),
        (b"vars d\nsym a 0 d\nmatch a\n", 2, 13),
        (b"vars a b c d e\nsym a 1 d\nmatch a\n", 3, 13),
        (b"vars d d\nsym a 1 d\nmatch a\n", 4, 7),
        (b"vars d\nsym a 1 d\nmatch b\n", 5, 23),
        (b"vars d\nsym a 1 d\nmatch (a\n", 6, 25),
        (b"vars d\nsym a 1 d\nmatch a*\n", 7, 23),
        (b"vars d s\nsym a 1 d\nmatch a\n", 8, 25),
    ];
    for (text, number, place) in cases {
        let refusal = Book::read(text).unwrap_err();
        assert_eq!((refusal.answer.number(), refusal.place), (number, place));
        let mut words = [7; BOOK_WORDS];
        assert_eq!(lent::read(text, &mut words), Err(refusal));
        assert_eq!(words, [0; BOOK_WORDS]);
    }
}

#[test]
fn events_of_b1() {
    let mut setup = Setup::new(B1);
    let none: Vec<Vec<u32>> = vec![];
    assert_eq!(setup.event(1, &[1, 7]), Ok(none.clone()));
    assert_eq!(setup.event(1, &[2, 8]), Ok(none.clone()));
    assert_eq!(setup.event(2, &[1]), Ok(vec![vec![1, 7]]));
    assert_eq!(setup.event(3, &[2]), Ok(none.clone()));
    assert_eq!(setup.event(2, &[2]), Ok(none));
    assert_eq!(setup.event(2, &[1]), Ok(vec![vec![1, 7]]));
    assert_eq!(setup.tally, Tally { accepted: 6, refused: 0, rows: 2 });
}

#[test]
fn fixed_argument() {
    let mut setup = Setup::new(b"vars s\nsym load 1 =3 s\nmatch load\n");
    assert_eq!(setup.event(1, &[4, 7]), Ok(vec![]));
    assert_eq!(setup.event(1, &[3, 7]), Ok(vec![vec![7]]));
}

#[test]
fn rows_from_a_place_on() {
    let mut setup = Setup::new(b"vars\nsym a 1\nmatch a\n");
    let rows = setup.state.event(&setup.book, &record(1, &[]), &mut setup.rows, 5, &mut setup.tally).unwrap();
    assert_eq!(rows.len(), 1);
    assert_eq!(rows.as_bytes()[..8], [1, 0, 0, 0, 0, 0, 0, 0]);
    let row = rows.clone().next().unwrap();
    assert_eq!((row.number, row.values()), (1, &[][..]));
    assert_eq!(rows.count(), 1);
    assert!(setup.rows[..5].iter().chain(&setup.rows[5 + ROW_BYTES..]).all(|b| *b == 0xEE));
}

#[test]
fn several_rows_in_order() {
    let mut setup = Setup::new(B1);
    for s in [9, 3, 0xFFFF_FFFF, 5] {
        setup.event(1, &[1, s]).unwrap();
    }
    let mut rows = setup.state.event(&setup.book, &record(2, &[1]), &mut setup.rows, 0, &mut setup.tally).unwrap();
    assert_eq!(rows.len(), 4);
    assert_eq!(rows.next().map(|r| (r.number, r.values().to_vec())), Some((5, vec![1, 3])));
    assert_eq!(rows.len(), 3);
    let rest: Vec<u32> = rows.by_ref().map(|r| r.values()[1]).collect();
    assert_eq!(rest, [5, 9, 0xFFFF_FFFF]);
    assert!(rows.next().is_none());
}

#[test]
fn refused_events_leave_all_but_the_tally() {
    let mut setup = Setup::new(B1);
    setup.event(1, &[1, 7]).unwrap();
    let (state, rows) = (setup.state.clone(), setup.rows.clone());
    let last = record(2, &[1]);
    let mut refuse = |book: &Book, bytes: &[u8], size: usize, place: usize| {
        let answer = setup.state.event(book, bytes, &mut setup.rows[..size], place, &mut setup.tally).map(|_| ()).unwrap_err();
        assert_eq!(answer.place, 0);
        assert_eq!((&setup.state, &setup.rows), (&state, &rows));
        answer.answer
    };
    let no_book = Book::from_words(&[0; BOOK_WORDS]);
    assert_eq!(refuse(&no_book, &last, 24, 0), Answer::Unsound);
    assert_eq!(refuse(&setup.book, &last[..19], 24, 0), Answer::OutOfForm);
    assert_eq!(refuse(&setup.book, &[], 24, 0), Answer::OutOfForm);
    assert_eq!(refuse(&setup.book, &last, 23, 0), Answer::NoSpace);
    assert_eq!(refuse(&setup.book, &last, 0, 0), Answer::NoSpace);
    assert_eq!(refuse(&setup.book, &last, 48, 25), Answer::NoSpace);
    assert_eq!(refuse(&setup.book, &last, 48, usize::MAX), Answer::NoSpace);
    assert_eq!(setup.tally, Tally { accepted: 1, refused: 7, rows: 0 });
}

#[test]
fn no_room() {
    let mut setup = Setup::new(B1);
    for s in 1..=128 {
        assert_eq!(setup.event(1, &[1, s]), Ok(vec![]));
    }
    assert_eq!(setup.event(1, &[1, 129]), Err(Refusal { answer: Answer::NoRoom, place: 0 }));
    assert_eq!(setup.event(2, &[1]).unwrap().len(), 128);
}

#[test]
fn too_many() {
    let mut setup = Setup::new(B1);
    let mut words = *setup.state.words();
    words[1] = 999_999;
    setup.state = State::from_words(&words);
    assert_eq!(setup.event(9, &[]), Ok(vec![]));
    assert_eq!(setup.event(9, &[]).unwrap_err().answer, Answer::TooMany);
}

#[test]
fn saved_and_loaded() {
    let mut setup = Setup::new(B1);
    setup.event(1, &[1, 7]).unwrap();
    let saved: Vec<u8> = setup.state.words().iter().flat_map(|w| w.to_le_bytes()).collect();
    let words: Vec<u32> = saved.chunks(4).map(|b| u32::from_le_bytes([b[0], b[1], b[2], b[3]])).collect();
    setup.state = State::from_words(words.as_slice().try_into().unwrap());
    assert_eq!(setup.event(2, &[1]), Ok(vec![vec![1, 7]]));
    let mut other = *setup.state.words();
    assert_eq!(other[0], STATE_LAYOUT);
    other[0] += 1;
    setup.state = State::from_words(&other);
    assert_eq!(setup.event(2, &[1]).unwrap_err().answer, Answer::Unsound);
}

#[test]
fn counters_stop() {
    let mut setup = Setup::new(B1);
    setup.event(1, &[1, 7]).unwrap();
    setup.tally = Tally { accepted: u64::MAX, refused: u64::MAX, rows: u64::MAX };
    setup.event(2, &[1]).unwrap();
    setup.event(0, &[]).unwrap_err();
    assert_eq!(setup.tally, Tally { accepted: u64::MAX, refused: u64::MAX, rows: u64::MAX });
}

#[test]
fn one_book_for_many_threads() {
    let book = Book::read(B1).unwrap();
    std::thread::scope(|scope| {
        for d in 1..5 {
            let book = &book;
            scope.spawn(move || {
                let (mut state, mut tally, mut rows) = (State::fresh(), Tally::default(), [0; 10 * ROW_BYTES]);
                for s in 0..10 {
                    state.event(book, &record(1, &[d, s]), &mut rows, 0, &mut tally).unwrap();
                }
                let values: Vec<u32> =
                    state.event(book, &record(2, &[d]), &mut rows, 0, &mut tally).unwrap().map(|r| r.values()[1]).collect();
                assert_eq!(values, (0..10).collect::<Vec<u32>>());
            });
        }
    });
}

#[test]
fn answers_by_number() {
    for (i, answer) in Answer::ALL.iter().enumerate() {
        assert_eq!((answer.number(), Answer::from_number(i)), (i, Some(*answer)));
        assert!(!answer.to_string().is_empty());
    }
    assert_eq!(Answer::from_number(14), None);
    let refusal = Refusal { answer: Answer::BadPattern, place: 25 };
    assert_eq!(refusal.to_string(), "pattern out of form (at byte 25)");
    assert_eq!(Refusal { answer: Answer::NoRoom, place: 0 }.to_string(), "no room");
}
