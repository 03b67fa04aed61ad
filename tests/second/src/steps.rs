//! The steps of document 01 ("Events and answer rows" and "Steps"), one function for each.
//! They run only on a record and a book that passed the tests of refusal 3.

use crate::book::{established_line, established_page, in_bounds, line_index, line_length};
use crate::book::{page_length, text_index, Book, File, Position};
use crate::refusals::{Ending, Event, Refusal, Signalled};

/// "Get calls turn read mood on and write mood off; put calls the reverse."
#[derive(Clone, Copy, PartialEq, Eq, Debug)]
pub enum Mood {
    Reading,
    Writing,
}

/// What the program answered to an event: false or true, with the character that it suggested.
/// The event goes with it, because the default may be a refusal, which tells it.
#[derive(Clone, Copy, PartialEq, Eq, Debug)]
pub struct Reply {
    pub signalled: Signalled,
    pub is_true: bool,
    pub suggested: Option<u8>,
}

/// What follows a line end that is answered 0: good line's own newline, or refusal 16 (C-14).
#[derive(Clone, Copy, PartialEq, Eq, Debug)]
enum LineEndDefault {
    Newline,
    Refusal,
}

/// One call at work: the record, the book, the lent row, and the counts of events signalled
/// and answers taken.
pub struct Work<'w, 'b> {
    pub file: &'w mut File,
    pub book: &'w mut Book<'b>,
    pub row: &'w [u32],
    pub events: u32,
    pub taken: u32,
}

/// An answer word. "Kind 4, page 9, line 9, character 10", most significant field first.
#[derive(Clone, Copy, PartialEq, Eq, Debug)]
pub struct Answer {
    pub kind: u32,
    pub page: u32,
    pub line: u32,
    pub character: u32,
}

/// Takes an answer word apart.
pub fn read_answer(word: u32) -> Answer {
    Answer {
        kind: word >> 28,
        page: (word >> 19) & 0x1ff,
        line: (word >> 10) & 0x1ff,
        character: word & 0x3ff,
    }
}

/// The mood that is on, if any.
pub fn mood_on(file: &File) -> Option<Mood> {
    if file.read_mood {
        Some(Mood::Reading)
    } else if file.write_mood {
        Some(Mood::Writing)
    } else {
        None
    }
}

/// Turns one mood on and the other off.
pub fn set_mood(file: &mut File, mood: Mood) {
    file.read_mood = mood == Mood::Reading;
    file.write_mood = mood == Mood::Writing;
}

/// The mood of a layout call; "Space, newline, newpage and set char number need a mood".
pub fn needed_mood(file: &File) -> Result<Mood, Refusal> {
    mood_on(file).ok_or(Refusal::NoMood)
}

/// The length of the line of the current position.
fn current_line_length(work: &Work) -> u32 {
    let place = work.file.position;
    line_length(work.file.shape, work.book, place.page, place.line)
}

/// "c exceeds the line length".
fn line_ended(work: &Work) -> bool {
    work.file.position.character > current_line_length(work)
}

/// "l exceeds the page length".
fn page_ended(work: &Work) -> bool {
    let place = work.file.position;
    place.line > page_length(work.file.shape, work.book, place.page)
}

/// Reading, "the position is at" the logical end: that end is not beyond the position.
/// Writing, "p > P".
fn file_ended(work: &Work, mood: Mood) -> bool {
    match mood {
        Mood::Reading => !work.book.logical_end.beyond(work.file.position),
        Mood::Writing => work.file.position.page > work.file.shape.pages,
    }
}

/// The byte at the current position.
fn current_byte(work: &Work) -> u8 {
    let index = text_index(work.file.shape, work.file.position);
    let byte = index.and_then(|index| work.book.text.get(index));
    byte.copied().unwrap_or(0)
}

/// Stores a byte at a place.
fn store(work: &mut Work, place: Position, byte: u8) {
    if let Some(index) = text_index(work.file.shape, place) {
        if let Some(slot) = work.book.text.get_mut(index) {
            *slot = byte;
        }
    }
}

/// A byte that passes without a character event: 32 to 126.
fn is_proper(byte: u8) -> bool {
    (32..=126).contains(&byte)
}

/// "Each event takes the next" answer; "past the row's end every event gets kind 0".
fn take_answer(work: &mut Work) -> Answer {
    work.events += 1;
    match work.row.get(work.taken as usize) {
        Some(&word) => {
            work.taken += 1;
            read_answer(word)
        }
        None => read_answer(0),
    }
}

/// Does what an answer's kind says. "A refusal inside an answer ends the outer call with it",
/// and with its event: "Nested answers report the innermost event."
fn do_answer(work: &mut Work, answer: Answer, signalled: Signalled) -> Result<(), Ending> {
    match answer.kind {
        2 => newline(work),
        3 => newpage(work),
        4 => set(
            work,
            Position::new(answer.page, answer.line, answer.character),
        ),
        5 => backspace(work),
        6 => reset(work),
        8 => Err(Ending::in_event(Refusal::JumpedAway, signalled)),
        _ => Ok(()),
    }
}

/// Signals an event where the record stands. "After an answer the call's mood is set again"; a
/// set made with no mood has none to set again (decision 12).
fn signal(work: &mut Work, event: Event, mood: Option<Mood>) -> Result<Reply, Ending> {
    let position = work.file.position;
    let signalled = Signalled { event, position };
    let answer = take_answer(work);
    do_answer(work, answer, signalled)?;
    let is_true = answer.kind != 0;
    if let Some(mood) = mood.filter(|_| is_true) {
        set_mood(work.file, mood);
    }
    let suggested = u8::try_from(answer.character).ok();
    Ok(Reply {
        signalled,
        is_true,
        suggested: suggested.filter(|_| answer.kind == 7),
    })
}

/// The end that good file signals in a mood.
fn file_end(mood: Mood) -> Event {
    match mood {
        Mood::Reading => Event::LogicalEnd,
        Mood::Writing => Event::PhysicalEnd,
    }
}

/// "Good file: reading, signal logical end while the position is at it; writing, signal
/// physical end while p > P." None when the file is good, else the event that was answered 0.
fn good_file(work: &mut Work, mood: Mood) -> Result<Option<Signalled>, Ending> {
    while file_ended(work, mood) {
        let reply = signal(work, file_end(mood), Some(mood))?;
        if !reply.is_true {
            return Ok(Some(reply.signalled));
        }
    }
    Ok(None)
}

/// "Good page: good file, then signal page end while l exceeds the page length. Default:
/// newpage." Good file is tested again after every step (decision 22).
fn good_page(work: &mut Work, mood: Mood) -> Result<Option<Signalled>, Ending> {
    loop {
        let ended = good_file(work, mood)?;
        if ended.is_some() || !page_ended(work) {
            return Ok(ended);
        }
        if !signal(work, Event::PageEnd, Some(mood))?.is_true {
            newpage(work)?;
        }
    }
}

/// Does what follows a line end that is answered 0. The refusal comes "with its event".
fn follow_line_end(
    work: &mut Work,
    default: LineEndDefault,
    signalled: Signalled,
) -> Result<(), Ending> {
    match default {
        LineEndDefault::Newline => newline(work),
        LineEndDefault::Refusal => Err(Ending::in_event(Refusal::DoesNotFit, signalled)),
    }
}

/// Good line with the default that its caller has at a line end. Those of the file's end and the
/// page's end are the same for all.
fn good_line_with(
    work: &mut Work,
    mood: Mood,
    default: LineEndDefault,
) -> Result<Option<Signalled>, Ending> {
    loop {
        let ended = good_page(work, mood)?;
        if ended.is_some() || !line_ended(work) {
            return Ok(ended);
        }
        let reply = signal(work, Event::LineEnd, Some(mood))?;
        if !reply.is_true {
            follow_line_end(work, default, reply.signalled)?;
        }
    }
}

/// "Good line: good page, then signal line end while c exceeds the line length. Default:
/// newline."
fn good_line(work: &mut Work, mood: Mood) -> Result<Option<Signalled>, Ending> {
    good_line_with(work, mood, LineEndDefault::Newline)
}

/// Good file's default where it was answered 0: refusal 14 for a logical end, 15 for a physical
/// end. A page end and a line end never come here: their defaults are newpage, and newline or
/// refusal 16.
fn refused_at_end(ended: Option<Signalled>) -> Result<(), Ending> {
    match ended {
        None => Ok(()),
        Some(signalled) if signalled.event == Event::PhysicalEnd => {
            Err(Ending::in_event(Refusal::PhysicalEnd, signalled))
        }
        Some(signalled) => Err(Ending::in_event(Refusal::LogicalEnd, signalled)),
    }
}

/// Stores blanks from a place to the end of its line, to the line's own length (decision 24).
fn blank_line_from(work: &mut Work, start: Position) {
    let last = line_length(work.file.shape, work.book, start.page, start.line);
    for character in start.character..=last {
        store(work, Position { character, ..start }, b' ');
    }
}

/// Cuts the logical end's line at that end: its length becomes c-1.
fn cut_line_at_end(work: &mut Work) {
    let end = work.book.logical_end;
    if let Some(index) = line_index(work.file.shape, end.page, end.line) {
        if let Some(length) = work.book.line_lengths.get_mut(index) {
            *length = u8::try_from(end.character - 1).unwrap_or(*length);
        }
    }
}

/// "Position and end become" one place.
fn move_position_and_end(work: &mut Work, place: Position) {
    work.file.position = place;
    work.book.logical_end = place;
}

/// "Newline: good page. On the logical end's line the position first moves to that end;
/// reading starts newline again; writing cuts the line there if compress, else fills it with
/// blanks, and position and end become (p, l+1, 1). On another line only the position moves."
pub fn newline(work: &mut Work) -> Result<(), Ending> {
    let mood = needed_mood(work.file)?;
    loop {
        let ended = good_page(work, mood)?;
        refused_at_end(ended)?;
        let place = work.file.position;
        let end = work.book.logical_end;
        let next = Position::new(place.page, place.line + 1, 1);
        if (place.page, place.line) != (end.page, end.line) {
            work.file.position = next;
            return Ok(());
        }
        work.file.position = end;
        if mood == Mood::Writing {
            if work.file.rights.compress {
                cut_line_at_end(work);
            } else {
                blank_line_from(work, end);
            }
            move_position_and_end(work, next);
            return Ok(());
        }
    }
}

/// "The rest of the page is blanked", from the logical end on.
fn blank_page_from_end(work: &mut Work) {
    let end = work.book.logical_end;
    blank_line_from(work, end);
    for line in end.line + 1..=page_length(work.file.shape, work.book, end.page) {
        blank_line_from(work, Position::new(end.page, line, 1));
    }
}

/// "With compress the line is cut at c-1 and the page after it (before it, if c = 1; nothing
/// is cut if the page was full)." Full: the end's line exceeds the page length (decision 23).
fn cut_page_at_end(work: &mut Work) {
    let end = work.book.logical_end;
    if end.line > page_length(work.file.shape, work.book, end.page) {
        return;
    }
    cut_line_at_end(work);
    let lines = if end.character > 1 {
        end.line
    } else {
        end.line - 1
    };
    if let Some(length) = work.book.page_lengths.get_mut((end.page - 1) as usize) {
        *length = u8::try_from(lines).unwrap_or(*length);
    }
}

/// "Newpage: good file. On the end's page the position first moves to the end; reading starts
/// again; writing, the rest of the page is blanked, or with compress [the page is cut].
/// Position and end become (p+1, 1, 1). On another page only the position moves."
pub fn newpage(work: &mut Work) -> Result<(), Ending> {
    let mood = needed_mood(work.file)?;
    loop {
        let ended = good_file(work, mood)?;
        refused_at_end(ended)?;
        let end = work.book.logical_end;
        let next = Position::new(work.file.position.page + 1, 1, 1);
        if work.file.position.page != end.page {
            work.file.position = next;
            return Ok(());
        }
        work.file.position = end;
        if mood == Mood::Writing {
            if work.file.rights.compress {
                cut_page_at_end(work);
            } else {
                blank_page_from_end(work);
            }
            move_position_and_end(work, next);
            return Ok(());
        }
    }
}

/// "Set: beyond the logical end, go to that end and signal logical end (0: refusal 7", now 14;
/// "else done); out of bounds, refusal 6; else go." The right is asked first, in an answer too.
pub fn set(work: &mut Work, target: Position) -> Result<(), Ending> {
    if !work.file.rights.set {
        return Err(Refusal::NoRight.into());
    }
    if target.beyond(work.book.logical_end) {
        let mood = mood_on(work.file);
        work.file.position = work.book.logical_end;
        let reply = signal(work, Event::LogicalEnd, mood)?;
        return refused_at_end(Some(reply.signalled).filter(|_| !reply.is_true));
    }
    if !in_bounds(work.file.shape, work.book, target) {
        return Err(Refusal::OutOfRange.into());
    }
    work.file.position = target;
    Ok(())
}

/// "Backspace: c-1; at c = 1 refusal 6."
pub fn backspace(work: &mut Work) -> Result<(), Ending> {
    if work.file.position.character <= 1 {
        return Err(Refusal::OutOfRange.into());
    }
    work.file.position.character -= 1;
    Ok(())
}

/// "Open and reset set read mood to 'put not possible', write mood to 'get not possible',
/// position (1,1,1)." The choice of C-14 is open's alone: "Reset, alone or as an answer, leaves
/// the choice."
pub fn start_again(file: &mut File) {
    file.read_mood = !file.rights.put;
    file.write_mood = !file.rights.get;
    file.position = Position::START;
}

/// Reset needs its right, in an answer too (refusal 4, "unless in an answer").
pub fn reset(work: &mut Work) -> Result<(), Ending> {
    if !work.file.rights.reset {
        return Err(Refusal::NoRight.into());
    }
    start_again(work.file);
    Ok(())
}

/// "Space: good line; reading, or writing before the logical end, c+1; writing at it, put a
/// blank."
pub fn space(work: &mut Work) -> Result<(), Ending> {
    let mood = needed_mood(work.file)?;
    let ended = good_line(work, mood)?;
    refused_at_end(ended)?;
    let before_end = work.book.logical_end.beyond(work.file.position);
    if mood == Mood::Reading || before_end {
        work.file.position.character += 1;
        return Ok(());
    }
    put_character(work, b' ')
}

/// "Set char number n: while c is not n: n out of bounds for this line, refusal 6; else space
/// or backspace."
pub fn set_char_number(work: &mut Work, number: u32) -> Result<(), Ending> {
    while work.file.position.character != number {
        if !(1..=current_line_length(work) + 1).contains(&number) {
            return Err(Refusal::OutOfRange.into());
        }
        if number > work.file.position.character {
            space(work)?;
        } else {
            backspace(work)?;
        }
    }
    Ok(())
}

/// C-13: "the line holding the new logical end, all later lines, that page and all later pages
/// return to their established lengths. Nothing before the new end alters."
fn restore_lengths_from_end(work: &mut Work) {
    let shape = work.file.shape;
    let end = work.book.logical_end;
    let Some(first_line) = line_index(shape, end.page, end.line) else {
        return;
    };
    if let Some(lengths) = work.book.line_lengths.get_mut(first_line..) {
        lengths.fill(established_line(shape));
    }
    let first_page = (end.page - 1) as usize;
    if let Some(lengths) = work.book.page_lengths.get_mut(first_page..) {
        lengths.fill(established_page(shape));
    }
}

/// "The end becomes the position", which is before it. "At that moment in a compressible book"
/// lengths come back (C-13), and they hold for the next character of the same call already.
fn take_end_back(work: &mut Work) {
    work.book.logical_end = work.file.position;
    if work.file.rights.compress {
        restore_lengths_from_end(work);
    }
}

/// "Store it, c+1. If the position is now beyond the logical end, the end becomes it.
/// Otherwise, if the book lacks set and (page of end, line of end, 1) is beyond the position,
/// the end becomes the position. Otherwise the end stays."
fn store_and_pass(work: &mut Work, byte: u8) {
    let place = work.file.position;
    store(work, place, byte);
    work.file.position.character += 1;
    let position = work.file.position;
    let end = work.book.logical_end;
    let start_of_end_line = Position::new(end.page, end.line, 1);
    if position.beyond(end) {
        work.book.logical_end = position;
    } else if !work.file.rights.set && start_of_end_line.beyond(position) {
        take_end_back(work);
    }
}

/// Signals character where the default is refusal 8: the byte that is suggested, or the one
/// that the answer put in its place, and the event.
fn signal_character(work: &mut Work, mood: Mood, suggested: u8) -> Result<(u8, Signalled), Ending> {
    let reply = signal(work, Event::Character, Some(mood))?;
    if !reply.is_true {
        return Err(Ending::in_event(Refusal::Character, reply.signalled));
    }
    Ok((reply.suggested.unwrap_or(suggested), reply.signalled))
}

/// "Put a character: good line; a byte outside 32 to 126 signals character, suggesting a blank
/// (default refusal 8; else the suggestion is tried the same way from the start)."
fn put_character_with(work: &mut Work, byte: u8, default: LineEndDefault) -> Result<(), Ending> {
    let mut tried = byte;
    loop {
        let ended = good_line_with(work, Mood::Writing, default)?;
        refused_at_end(ended)?;
        if is_proper(tried) {
            store_and_pass(work, tried);
            return Ok(());
        }
        tried = signal_character(work, Mood::Writing, b' ')?.0;
    }
}

/// A character put alone, or of an integer: both keep the newline under either choice (C-14).
pub fn put_character(work: &mut Work, byte: u8) -> Result<(), Ending> {
    put_character_with(work, byte, LineEndDefault::Newline)
}

/// "Put a string: its characters in turn; an empty one only turns the mood." C-14: "The default
/// at line end during put of a string becomes a refusal: what was stored stays, and nothing more
/// is stored", unless the record has the Report's split. No answer changes that choice.
pub fn put_string(work: &mut Work, text: &[u8]) -> Result<(), Ending> {
    let default = match work.file.split {
        true => LineEndDefault::Newline,
        false => LineEndDefault::Refusal,
    };
    for &byte in text {
        put_character_with(work, byte, default)?;
    }
    Ok(())
}

/// The repeated part of put an integer: "good line; line length below 11, refusal 10; if c + 11
/// (c + 12 when c is not 1) exceeds line length + 1, signal line end, default newline, and
/// repeat."
fn find_room_for_integer(work: &mut Work) -> Result<(), Ending> {
    loop {
        let ended = good_line(work, Mood::Writing)?;
        refused_at_end(ended)?;
        let length = current_line_length(work);
        if length < 11 {
            return Err(Refusal::LineTooShort.into());
        }
        let character = work.file.position.character;
        let needed = if character == 1 { 11 } else { 12 };
        if character + needed <= length + 1 {
            return Ok(());
        }
        if !signal(work, Event::LineEnd, Some(Mood::Writing))?.is_true {
            newline(work)?;
        }
    }
}

/// "Put an integer: the text is whole(value, 11). [Find room.] Then a blank when c is not 1,
/// and the text." "Integers keep the newline", which the room is found with.
pub fn put_integer(work: &mut Work, value: i32) -> Result<(), Ending> {
    let text = whole(value, 11);
    find_room_for_integer(work)?;
    if work.file.position.character != 1 {
        put_character(work, b' ')?;
    }
    for byte in text {
        put_character(work, byte)?;
    }
    Ok(())
}

/// "whole(v, w): w = 0, shortest digits with '-' when negative. Otherwise |w| characters,
/// blanks on the left, sign '-' for negatives, '+' for others when w > 0; the sign takes a
/// place; if no place is left for digits or they do not fit, |w| asterisks."
pub fn whole(value: i32, width: i32) -> Vec<u8> {
    let sign = if value < 0 {
        "-"
    } else if width > 0 {
        "+"
    } else {
        ""
    };
    let text = format!("{sign}{}", value.unsigned_abs());
    let places = width.unsigned_abs() as usize;
    if width == 0 {
        text.into_bytes()
    } else if text.len() > places {
        vec![b'*'; places]
    } else {
        format!("{text:>places$}").into_bytes()
    }
}

/// "Good line, pass it": the byte that was passed.
fn pass_character(work: &mut Work) -> Result<u8, Ending> {
    let ended = good_line(work, Mood::Reading)?;
    refused_at_end(ended)?;
    let byte = current_byte(work);
    work.file.position.character += 1;
    Ok(byte)
}

/// "Get a character: good line, pass it; a byte outside 32 to 126 signals character,
/// suggesting a blank (default refusal 8); a suggestion is delivered as it is."
pub fn get_character(work: &mut Work) -> Result<u8, Ending> {
    let byte = pass_character(work)?;
    if is_proper(byte) {
        return Ok(byte);
    }
    Ok(signal_character(work, Mood::Reading, b' ')?.0)
}

/// A string's tests before a character: "good page, where a logical end answered 0 is stop 3;
/// line end answered 0 is stop 2, with no newline". 0 when a character stands there.
fn stop_at_place(work: &mut Work) -> Result<u8, Ending> {
    loop {
        if good_page(work, Mood::Reading)?.is_some() {
            return Ok(3);
        }
        if !line_ended(work) {
            return Ok(0);
        }
        if !signal(work, Event::LineEnd, Some(Mood::Reading))?.is_true {
            return Ok(2);
        }
    }
}

/// "Get a string: before each character: output full, stop 4; [stops 3 and 2]. A byte in the
/// lent terminators is stop 1 and is not passed. Otherwise as a character." The count is kept
/// when a refusal ends it: "what a string delivered stays".
pub fn get_string(
    work: &mut Work,
    terminators: &[u8],
    output: &mut [u8],
    count: &mut usize,
) -> Result<u8, Ending> {
    for place in output.iter_mut() {
        let stop = stop_at_place(work)?;
        if stop != 0 {
            return Ok(stop);
        }
        if terminators.contains(&current_byte(work)) {
            return Ok(1);
        }
        *place = get_character(work)?;
        *count += 1;
    }
    Ok(4)
}

/// "Good line and pass blanks": the first byte that is none, not yet passed.
fn pass_blanks(work: &mut Work) -> Result<u8, Ending> {
    loop {
        let ended = good_line(work, Mood::Reading)?;
        refused_at_end(ended)?;
        let byte = current_byte(work);
        if byte != b' ' {
            return Ok(byte);
        }
        work.file.position.character += 1;
    }
}

/// "An optional sign": true when a minus was passed.
fn pass_sign(work: &mut Work) -> Result<bool, Ending> {
    let byte = pass_blanks(work)?;
    if byte == b'-' || byte == b'+' {
        work.file.position.character += 1;
    }
    Ok(byte == b'-')
}

/// "Then a digit. Anything else there is passed and signals character, suggesting '0'
/// (default, or a suggestion that is no digit: refusal 8)." Such a suggestion's refusal "gives
/// the character event that the suggestion answered".
fn first_digit(work: &mut Work) -> Result<u8, Ending> {
    let byte = pass_blanks(work)?;
    work.file.position.character += 1;
    if byte.is_ascii_digit() {
        return Ok(byte);
    }
    let (suggested, signalled) = signal_character(work, Mood::Reading, b'0')?;
    if suggested.is_ascii_digit() {
        return Ok(suggested);
    }
    Err(Ending::in_event(Refusal::Character, signalled))
}

/// "More digits as long as they come, ended by a string's stops 2 and 3 or by a non-digit, not
/// passed." The size never runs over: past the largest integer it only matters that it is.
fn more_digits(work: &mut Work, first: u8) -> Result<u64, Ending> {
    let mut size = u64::from(first - b'0');
    while stop_at_place(work)? == 0 {
        let byte = current_byte(work);
        if !byte.is_ascii_digit() {
            break;
        }
        work.file.position.character += 1;
        size = size.saturating_mul(10).saturating_add((byte - b'0').into());
    }
    Ok(size)
}

/// Signals value, after the last character of the text: "0 is refusal 9, else done with no value
/// given".
fn signal_value(work: &mut Work) -> Result<Option<i32>, Ending> {
    let reply = signal(work, Event::Value, Some(Mood::Reading))?;
    if reply.is_true {
        Ok(None)
    } else {
        Err(Ending::in_event(Refusal::Value, reply.signalled))
    }
}

/// "Get an integer: good line and pass blanks; an optional sign; the same for blanks; then a
/// digit. [More digits.] Above 2147483647 signals value: 0 is refusal 9, else done with no
/// value given."
pub fn get_integer(work: &mut Work) -> Result<Option<i32>, Ending> {
    let minus = pass_sign(work)?;
    let first = first_digit(work)?;
    let size = more_digits(work, first)?;
    match i32::try_from(size) {
        Ok(size) if minus => Ok(Some(-size)),
        Ok(size) => Ok(Some(size)),
        Err(_) => signal_value(work),
    }
}

/// "For a shown line (there in its page, and not after the logical end's line; any other is
/// refusal 6), the part of the lent text holding it, up to that end." Where it starts in the
/// text, and how long it is.
pub fn view(file: &File, book: &Book, page: u32, line: u32) -> Result<(usize, usize), Refusal> {
    let end = book.logical_end;
    let there = line <= page_length(file.shape, book, page);
    let after_end = (page, line) > (end.page, end.line);
    let start = text_index(file.shape, Position::new(page, line, 1));
    let start = start.filter(|_| there && !after_end);
    let start = start.ok_or(Refusal::OutOfRange)?;
    if (page, line) == (end.page, end.line) {
        return Ok((start, (end.character - 1) as usize));
    }
    let length = line_length(file.shape, book, page, line);
    Ok((start, length as usize))
}
