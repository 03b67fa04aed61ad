//! The public calls, each with its tests before work in document 01's order. Each is kept out of line, as a call into a library is; what
//! it stands on is not.

use super::events::{start_again, Work};
use super::places::{
    book_fits, line_length, mood_on, page_length, shape_fits, test_record, test_record_and_row,
    test_turn, turn,
};
use super::places::{Mood, Refusal, Signalled};
use crate::book::{Book, File, Position};

/// What a call gives beside its number.
#[derive(Clone, Copy, PartialEq, Eq, Debug)]
pub enum Given {
    Nothing,
    Character(u8),
    Integer(i32),
}

/// What a call hands back. The record and the end are left where they were lent.
pub struct Outcome {
    pub number: u8,
    pub stop: u8,
    pub signalled: Option<Signalled>,
    pub given: Given,
    pub events: usize,
    pub taken: usize,
    pub count: usize,
}

impl Outcome {
    #[inline]
    fn of(number: u8, events: usize, taken: usize) -> Outcome {
        Outcome {
            number,
            stop: 0,
            signalled: None,
            given: Given::Nothing,
            events,
            taken,
            count: 0,
        }
    }

    #[inline]
    fn number(done: Result<(), Refusal>) -> Outcome {
        Outcome::of(done.map_or_else(|refusal| refusal as u8, |()| 0), 0, 0)
    }

    #[inline]
    pub fn refused(refusal: Refusal) -> Outcome {
        Outcome::of(refusal as u8, 0, 0)
    }

    #[inline]
    fn after<T>(
        done: Result<T, Refusal>,
        work: &Work,
        fill: impl FnOnce(T, &mut Outcome),
    ) -> Outcome {
        let mut outcome = Outcome::of(0, work.events, work.taken);
        match done {
            Ok(value) => fill(value, &mut outcome),
            Err(refusal) => {
                outcome.number = refusal as u8;
                if refusal.ends_in_event() {
                    outcome.signalled = work.last;
                }
            }
        }
        outcome
    }
}

/// A get or a put: its tests, the turn of the mood, its step, and what the step gives.
#[inline]
pub fn transfer<T>(
    mood: Mood,
    file: &mut File,
    book: &mut Book,
    row: &[u32],
    step: impl FnOnce(&mut Work) -> Result<T, Refusal>,
    fill: impl FnOnce(T, &mut Outcome),
) -> Outcome {
    let tested = test_record_and_row(file, book, row).and_then(|()| test_turn(file, mood));
    if let Err(refusal) = tested {
        return Outcome::refused(refusal);
    }
    turn(file, mood);
    let mut work = Work::new(file, book, row);
    let done = step(&mut work);
    Outcome::after(done, &work, fill)
}

/// A put, which gives nothing.
#[inline]
pub fn put(
    file: &mut File,
    book: &mut Book,
    row: &[u32],
    step: impl FnOnce(&mut Work) -> Result<(), Refusal>,
) -> Outcome {
    transfer(Mood::Writing, file, book, row, step, |(), _| ())
}

/// Refusal 9 of a put, which stands after 1, 3 and 2 and before 4.
#[inline]
pub fn lowest(file: &File, book: &Book, row: &[u32]) -> Outcome {
    Outcome::number(test_record_and_row(file, book, row).and(Err(Refusal::BadValue)))
}

#[inline(never)]
pub fn establish(file: &mut File, book: &mut Book) -> Outcome {
    if !shape_fits(file, book) {
        return Outcome::refused(Refusal::BadBook);
    }
    if !file.rights.put {
        return Outcome::refused(Refusal::NoRight);
    }
    book.lines.fill(file.shape.characters as u8);
    book.pages.fill(file.shape.lines as u8);
    book.end = Position::START;
    file.position = Position::START;
    file.opened = true;
    file.split = false;
    turn(file, Mood::Writing);
    Outcome::number(Ok(()))
}

#[inline(never)]
pub fn open(file: &mut File, book: &mut Book) -> Outcome {
    if !book_fits(file, book) {
        return Outcome::refused(Refusal::BadBook);
    }
    file.opened = true;
    file.split = false;
    start_again(file);
    Outcome::number(Ok(()))
}

#[inline(never)]
pub fn close(file: &mut File, book: &mut Book) -> Outcome {
    let tested = test_record(file, book);
    if tested.is_ok() {
        file.opened = false;
    }
    Outcome::number(tested)
}

#[inline(never)]
pub fn choose(file: &mut File, book: &mut Book, split: bool) -> Outcome {
    let tested = test_record(file, book);
    if tested.is_ok() {
        file.split = split;
    }
    Outcome::number(tested)
}

#[inline(never)]
pub fn reset(file: &mut File, book: &mut Book) -> Outcome {
    Outcome::number(test_record(file, book).and_then(|()| Work::new(file, book, &[]).reset()))
}

#[inline(never)]
pub fn backspace(file: &mut File, book: &mut Book) -> Outcome {
    Outcome::number(test_record(file, book).and_then(|()| Work::new(file, book, &[]).backspace()))
}

#[inline(never)]
pub fn put_character(file: &mut File, book: &mut Book, byte: u8, row: &[u32]) -> Outcome {
    put(file, book, row, |work| work.put_character(byte, false))
}

#[inline(never)]
pub fn put_string(file: &mut File, book: &mut Book, bytes: &[u8], row: &[u32]) -> Outcome {
    put(file, book, row, |work| work.put_string(bytes))
}

#[inline(never)]
pub fn put_integer(file: &mut File, book: &mut Book, value: i32, row: &[u32]) -> Outcome {
    if value == i32::MIN {
        return lowest(file, book, row);
    }
    put(file, book, row, |work| work.put_integer(value))
}

#[inline(never)]
pub fn get_character(file: &mut File, book: &mut Book, row: &[u32]) -> Outcome {
    let step = |work: &mut Work| work.get_character();
    transfer(Mood::Reading, file, book, row, step, |byte, outcome| {
        outcome.given = Given::Character(byte);
    })
}

#[inline(never)]
pub fn get_string(
    file: &mut File,
    book: &mut Book,
    terminators: &[u8],
    output: &mut [u8],
    row: &[u32],
) -> Outcome {
    let mut count = 0;
    let step = |work: &mut Work| work.get_string(terminators, output, &mut count);
    let outcome = transfer(Mood::Reading, file, book, row, step, |stop, outcome| {
        outcome.stop = stop as u8
    });
    Outcome { count, ..outcome }
}

#[inline(never)]
pub fn get_integer(file: &mut File, book: &mut Book, row: &[u32]) -> Outcome {
    let step = |work: &mut Work| work.get_integer();
    transfer(Mood::Reading, file, book, row, step, |integer, outcome| {
        outcome.given = integer.map_or(Given::Nothing, Given::Integer);
    })
}

/// A layout call that needs a mood.
#[inline]
fn layout(
    file: &mut File,
    book: &mut Book,
    row: &[u32],
    step: impl FnOnce(&mut Work) -> Result<(), Refusal>,
) -> Outcome {
    let tested =
        test_record_and_row(file, book, row).and_then(|()| mood_on(file).ok_or(Refusal::NoMood));
    if let Err(refusal) = tested {
        return Outcome::refused(refusal);
    }
    let mut work = Work::new(file, book, row);
    let done = step(&mut work);
    Outcome::after(done, &work, |(), _| ())
}

#[inline(never)]
pub fn space(file: &mut File, book: &mut Book, row: &[u32]) -> Outcome {
    layout(file, book, row, |work| work.space())
}

#[inline(never)]
pub fn newline(file: &mut File, book: &mut Book, row: &[u32]) -> Outcome {
    layout(file, book, row, |work| work.newline())
}

#[inline(never)]
pub fn newpage(file: &mut File, book: &mut Book, row: &[u32]) -> Outcome {
    layout(file, book, row, |work| work.newpage())
}

#[inline(never)]
pub fn set_character_number(
    file: &mut File,
    book: &mut Book,
    number: usize,
    row: &[u32],
) -> Outcome {
    layout(file, book, row, |work| work.set_character_number(number))
}

/// Set needs no mood; its step asks for its right.
#[inline(never)]
pub fn set(file: &mut File, book: &mut Book, to: Position, row: &[u32]) -> Outcome {
    if let Err(refusal) = test_record_and_row(file, book, row) {
        return Outcome::refused(refusal);
    }
    let mut work = Work::new(file, book, row);
    let done = work.set(to);
    Outcome::after(done, &work, |(), _| ())
}

/// A shown line up to the logical end; the marker where it is empty.
#[inline(never)]
pub fn line_view<'v>(
    file: &File,
    book: &'v Book,
    page: usize,
    line: usize,
    marker: &'v [u8],
) -> Result<&'v [u8], Refusal> {
    test_record(file, book)?;
    let end = book.end;
    let there = (1..=page_length(book.pages, page)).contains(&line);
    if !there || (page, line) > (end.page, end.line) {
        return Err(Refusal::OutOfRange);
    }
    let length = if (page, line) == (end.page, end.line) {
        end.character - 1
    } else {
        line_length(&file.shape, book.lines, book.pages, page, line)
    };
    let start = ((page - 1) * file.shape.lines + line - 1) * file.shape.characters;
    let part = &book.text[start..start + length];
    Ok(if part.is_empty() { marker } else { part })
}
