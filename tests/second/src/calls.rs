//! The public calls, each with its tests in document 01's order before work:
//! 1, 3, 2, 9, 4, 5, 6, 12.

use crate::book::{establish_fits, established_line, established_page, open_fits};
use crate::book::{record_and_book_fit, Book, File, Position};
use crate::refusals::{Ending, Refusal, Signalled};
use crate::spans::{differing_spans, Looked, Span};
use crate::steps;
use crate::steps::{needed_mood, read_answer, set_mood, Mood, Work};

/// "A call's result is all it hands back: number, events signalled, answers taken, stop, count,
/// the character or integer if one is given, a view's characters." `bytes` holds the whole lent
/// output of get_string, whole and differ, and the part that view hands back. `signalled` is the
/// event that a refusal ended in (C-12): "any other result gives none".
#[derive(Clone, PartialEq, Eq, Debug, Default)]
pub struct CallResult {
    pub number: u32,
    pub events: u32,
    pub taken: u32,
    pub stop: u8,
    pub count: usize,
    pub value: Option<i32>,
    pub bytes: Vec<u8>,
    pub signalled: Option<Signalled>,
}

/// A result that holds only its number.
fn only_number(done: Result<(), Refusal>) -> CallResult {
    CallResult {
        number: done.map_or_else(|refusal| refusal as u32, |()| 0),
        ..CallResult::default()
    }
}

/// A call that is refused before work, and so in no event.
fn refused(refusal: Refusal) -> CallResult {
    only_number(Err(refusal))
}

/// The tests that all calls but establish, open and whole begin with: 1 and 3.
fn test_record(file: &File, book: &Book) -> Result<(), Refusal> {
    if !file.opened {
        return Err(Refusal::NotOpen);
    }
    if !record_and_book_fit(file, book) {
        return Err(Refusal::BadBook);
    }
    Ok(())
}

/// "Unknown kind, non-zero unused field, kind 7 above 255."
fn answer_is_good(word: u32) -> bool {
    let answer = read_answer(word);
    let places_unused = answer.page == 0 && answer.line == 0;
    match answer.kind {
        4 => true,
        7 => places_unused && answer.character <= 255,
        0..=8 => places_unused && answer.character == 0,
        _ => false,
    }
}

/// Refusal 2, over the whole row (decision 31): "row over 64 words" or a bad word in it.
fn test_row(row: &[u32]) -> Result<(), Refusal> {
    if row.len() > 64 || !row.iter().all(|&word| answer_is_good(word)) {
        return Err(Refusal::BadRow);
    }
    Ok(())
}

/// The tests of a call that is lent a row: 1, 3 and 2.
fn test_record_and_row(file: &File, book: &Book, row: &[u32]) -> Result<(), Refusal> {
    test_record(file, book)?;
    test_row(row)
}

/// Refusal 4, "channel right missing".
fn test_right(right: bool) -> Result<(), Refusal> {
    if right {
        Ok(())
    } else {
        Err(Refusal::NoRight)
    }
}

/// Refusal 9, "put or whole of -2147483648".
fn test_value(value: i32) -> Result<(), Refusal> {
    if value == i32::MIN {
        Err(Refusal::Value)
    } else {
        Ok(())
    }
}

/// Refusal 5: "On a book without set, turning against a mood that is on".
fn test_turn(file: &File, mood: Mood) -> Result<(), Refusal> {
    let against = match mood {
        Mood::Reading => file.write_mood,
        Mood::Writing => file.read_mood,
    };
    if against && !file.rights.set {
        return Err(Refusal::NoMood);
    }
    Ok(())
}

/// What a put needs before work, after 1, 3, 2 and 9: the right, then the turn.
fn test_put(file: &File) -> Result<(), Refusal> {
    test_right(file.rights.put)?;
    test_turn(file, Mood::Writing)
}

/// What a get needs before work, after 1, 3 and 2: the right, then the turn.
fn test_get(file: &File) -> Result<(), Refusal> {
    test_right(file.rights.get)?;
    test_turn(file, Mood::Reading)
}

/// Runs a step after the tests passed, and reports its number, its counts and the event that it
/// was refused in.
fn run<T>(
    file: &mut File,
    book: &mut Book,
    row: &[u32],
    step: impl FnOnce(&mut Work) -> Result<T, Ending>,
) -> (CallResult, Option<T>) {
    let mut work = Work {
        file,
        book,
        row,
        events: 0,
        taken: 0,
    };
    let (number, signalled, given) = match step(&mut work) {
        Ok(given) => (0, None, Some(given)),
        Err(ending) => (ending.refusal as u32, ending.signalled, None),
    };
    let result = CallResult {
        number,
        events: work.events,
        taken: work.taken,
        signalled,
        ..CallResult::default()
    };
    (result, given)
}

/// "Establish needs put; it sets every length to C and L, the logical end and position to
/// (1,1,1), write mood on, read mood off, and wipes no character." "Establish and open choose the
/// new one" (C-14): the refusal.
pub fn establish(file: &mut File, book: &mut Book) -> CallResult {
    if !establish_fits(file, book) {
        return refused(Refusal::BadBook);
    }
    if !file.rights.put {
        return refused(Refusal::NoRight);
    }
    book.line_lengths.fill(established_line(file.shape));
    book.page_lengths.fill(established_page(file.shape));
    book.logical_end = Position::START;
    file.position = Position::START;
    file.opened = true;
    file.split = false;
    set_mood(file, Mood::Writing);
    only_number(Ok(()))
}

/// "Open takes a book with the logical end it has." It sets the moods, the position and the
/// choice of C-14.
pub fn open(file: &mut File, book: &mut Book) -> CallResult {
    if !open_fits(file, book) {
        return refused(Refusal::BadBook);
    }
    file.opened = true;
    file.split = false;
    steps::start_again(file);
    only_number(Ok(()))
}

/// "Close only clears `opened`."
pub fn close(file: &mut File, book: &mut Book) -> CallResult {
    if let Err(refusal) = test_record(file, book) {
        return refused(refusal);
    }
    file.opened = false;
    only_number(Ok(()))
}

/// Reset takes no row; its step asks for the right.
pub fn reset(file: &mut File, book: &mut Book) -> CallResult {
    if let Err(refusal) = test_record(file, book) {
        return refused(refusal);
    }
    run(file, book, &[], steps::reset).0
}

/// Backspace takes no row and needs no mood.
pub fn backspace(file: &mut File, book: &mut Book) -> CallResult {
    if let Err(refusal) = test_record(file, book) {
        return refused(refusal);
    }
    run(file, book, &[], steps::backspace).0
}

/// The two calls of C-14, which choose the Report's split or the refusal. "A call sets either on
/// an open record, needing no right or mood": they "test [1] and [3], and take no answer row".
pub fn choose(file: &mut File, book: &mut Book, split: bool) -> CallResult {
    if let Err(refusal) = test_record(file, book) {
        return refused(refusal);
    }
    file.split = split;
    only_number(Ok(()))
}

/// A put of characters: tests 1, 3, 2, 4 and 5, then its step.
fn put_text(
    file: &mut File,
    book: &mut Book,
    row: &[u32],
    step: impl FnOnce(&mut Work) -> Result<(), Ending>,
) -> CallResult {
    let tested = test_record_and_row(file, book, row).and_then(|()| test_put(file));
    if let Err(refusal) = tested {
        return refused(refusal);
    }
    set_mood(file, Mood::Writing);
    run(file, book, row, step).0
}

/// Put a character. It "keeps the newline": the choice of C-14 is not asked.
pub fn put_character(file: &mut File, book: &mut Book, row: &[u32], byte: u8) -> CallResult {
    put_text(file, book, row, |work| steps::put_character(work, byte))
}

/// Put a string, with the choice of C-14 that the record has.
pub fn put_string(file: &mut File, book: &mut Book, row: &[u32], text: &[u8]) -> CallResult {
    put_text(file, book, row, |work| steps::put_string(work, text))
}

/// Put an integer; refusal 9 stands before 4 and 5.
pub fn put_integer(file: &mut File, book: &mut Book, row: &[u32], value: i32) -> CallResult {
    let tested = test_record_and_row(file, book, row)
        .and_then(|()| test_value(value))
        .and_then(|()| test_put(file));
    if let Err(refusal) = tested {
        return refused(refusal);
    }
    set_mood(file, Mood::Writing);
    run(file, book, row, |work| steps::put_integer(work, value)).0
}

/// Get a character. "A refused get gives no character."
pub fn get_character(file: &mut File, book: &mut Book, row: &[u32]) -> CallResult {
    let tested = test_record_and_row(file, book, row).and_then(|()| test_get(file));
    if let Err(refusal) = tested {
        return refused(refusal);
    }
    set_mood(file, Mood::Reading);
    let (result, given) = run(file, book, row, steps::get_character);
    CallResult {
        value: given.map(i32::from),
        ..result
    }
}

/// Get a string. "A refused get gives stop 0; what a string delivered stays", and so does its
/// count (decision 27).
pub fn get_string(
    file: &mut File,
    book: &mut Book,
    row: &[u32],
    terminators: &[u8],
    output: &mut [u8],
) -> CallResult {
    let tested = test_record_and_row(file, book, row).and_then(|()| test_get(file));
    if let Err(refusal) = tested {
        return CallResult {
            bytes: output.to_vec(),
            ..refused(refusal)
        };
    }
    set_mood(file, Mood::Reading);
    let mut count = 0;
    let (result, stop) = run(file, book, row, |work| {
        steps::get_string(work, terminators, output, &mut count)
    });
    CallResult {
        stop: stop.unwrap_or(0),
        count,
        bytes: output.to_vec(),
        ..result
    }
}

/// Get an integer. "A refused get gives no integer."
pub fn get_integer(file: &mut File, book: &mut Book, row: &[u32]) -> CallResult {
    let tested = test_record_and_row(file, book, row).and_then(|()| test_get(file));
    if let Err(refusal) = tested {
        return refused(refusal);
    }
    set_mood(file, Mood::Reading);
    let (result, given) = run(file, book, row, steps::get_integer);
    CallResult {
        value: given.flatten(),
        ..result
    }
}

/// A layout call that needs a mood: tests 1, 3, 2 and 5, then its step.
fn layout(
    file: &mut File,
    book: &mut Book,
    row: &[u32],
    step: impl FnOnce(&mut Work) -> Result<(), Ending>,
) -> CallResult {
    let tested = test_record_and_row(file, book, row).and_then(|()| needed_mood(file));
    match tested {
        Err(refusal) => refused(refusal),
        Ok(_) => run(file, book, row, step).0,
    }
}

/// Space.
pub fn space(file: &mut File, book: &mut Book, row: &[u32]) -> CallResult {
    layout(file, book, row, steps::space)
}

/// Newline.
pub fn newline(file: &mut File, book: &mut Book, row: &[u32]) -> CallResult {
    layout(file, book, row, steps::newline)
}

/// Newpage.
pub fn newpage(file: &mut File, book: &mut Book, row: &[u32]) -> CallResult {
    layout(file, book, row, steps::newpage)
}

/// Set char number.
pub fn set_char_number(file: &mut File, book: &mut Book, row: &[u32], number: u32) -> CallResult {
    layout(file, book, row, |work| steps::set_char_number(work, number))
}

/// Set needs its right, which its step asks for first, and no mood.
pub fn set(file: &mut File, book: &mut Book, row: &[u32], target: Position) -> CallResult {
    if let Err(refusal) = test_record_and_row(file, book, row) {
        return refused(refusal);
    }
    run(file, book, row, |work| steps::set(work, target)).0
}

/// The line view and its number. "If it is empty, the marker text the caller lent is handed
/// back instead. A refused view is an empty part of the marker text." "Views need no right and
/// no mood." The count is the length of the part of the text.
pub fn view(file: &File, book: &Book, page: u32, line: u32, marker: &[u8]) -> CallResult {
    let part = test_record(file, book).and_then(|()| steps::view(file, book, page, line));
    let (start, length) = match part {
        Err(refusal) => return refused(refusal),
        Ok(part) => part,
    };
    let text = book.text.get(start..start + length).unwrap_or(&[]);
    let handed_back = if text.is_empty() { marker } else { text };
    CallResult {
        count: text.len(),
        bytes: handed_back.to_vec(),
        ..CallResult::default()
    }
}

/// The tests of whole in their order: 9, 6, 12 (decision 19); then its text.
fn tested_whole(value: i32, width: i32, room: usize) -> Result<Vec<u8>, Refusal> {
    test_value(value)?;
    if !(-255..=255).contains(&width) {
        return Err(Refusal::OutOfRange);
    }
    let text = steps::whole(value, width);
    if text.len() > room {
        return Err(Refusal::OutputTooShort);
    }
    Ok(text)
}

/// Whole into a lent output. "Output past the count is untouched, in whole too."
pub fn whole(value: i32, width: i32, output: &mut [u8]) -> CallResult {
    let (done, text) = match tested_whole(value, width, output.len()) {
        Ok(text) => (Ok(()), text),
        Err(refusal) => (Err(refusal), Vec::new()),
    };
    for (place, byte) in output.iter_mut().zip(&text) {
        *place = *byte;
    }
    CallResult {
        count: text.len(),
        bytes: output.to_vec(),
        ..only_number(done)
    }
}

/// The tests of differ in their order: 1 for either record, 3 for either record or book, 12
/// "when the lent list is too short"; then the spans.
fn tested_spans(one: Looked, other: Looked, room: usize) -> Result<Vec<Span>, Refusal> {
    let both = [one, other];
    if !both.iter().all(|looked| looked.file.opened) {
        return Err(Refusal::NotOpen);
    }
    for looked in both {
        test_record(looked.file, looked.book)?;
    }
    let spans = differing_spans(one, other);
    if spans.len() > room {
        return Err(Refusal::OutputTooShort);
    }
    Ok(spans)
}

/// Where two books differ (C-11), listed in a lent list. "The call needs no right and no mood,
/// takes no answer row, and changes nothing but the list." "A refused call gives the count 0
/// and writes nothing. Entries past the count stay as they were."
pub fn differ(one: Looked, other: Looked, list: &mut [Span]) -> CallResult {
    let (done, spans) = match tested_spans(one, other, list.len()) {
        Ok(spans) => (Ok(()), spans),
        Err(refusal) => (Err(refusal), Vec::new()),
    };
    for (entry, span) in list.iter_mut().zip(&spans) {
        *entry = *span;
    }
    CallResult {
        count: spans.len(),
        bytes: list.iter().flat_map(|entry| entry.bytes()).collect(),
        ..only_number(done)
    }
}
