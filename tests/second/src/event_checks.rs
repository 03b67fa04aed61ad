//! Checks of what C-12 promises, on every call of the random episodes. An event that is told is
//! held against the record and the book left: nothing moves after the signal that ends a call.

use crate::book::{line_length, page_length, text_index, Book, Position, Shape};
use crate::calls::CallResult;
use crate::checks::{Owner, Property};
use crate::random::Random;
use crate::refusals::{Event, Signalled};
use crate::replay::Call;
use crate::scenes::JUMP;
use crate::steps::read_answer;

/// The properties that are checked.
pub struct EventProperties {
    given: Property,
    fitting: Property,
    position: Property,
    cause: Property,
    jumps: Property,
    left: Property,
}

/// A call that was made: the record and the book before it, and what it handed back.
pub struct Made<'m> {
    pub before: &'m Owner,
    pub call: &'m Call,
    pub row: &'m [u32],
    pub result: &'m CallResult,
}

impl EventProperties {
    pub fn new() -> EventProperties {
        EventProperties {
            given: Property::new(
                "an event is told exactly with 8, 9 during work, 11, 14, 15 and 16",
            ),
            fitting: Property::new("8, 9, 14, 15 and 16 tell their own event"),
            position: Property::new("an event is told with the position left"),
            cause: Property::new("an event that is told has its cause where it was signalled"),
            jumps: Property::new("any event that is answered 8 is told with 11"),
            left: Property::new("a refusal tells and leaves what 8 in its event's place does"),
        }
    }

    /// The properties in the order in which they are told.
    pub fn all(self) -> [Property; 6] {
        [
            self.given,
            self.fitting,
            self.position,
            self.cause,
            self.jumps,
            self.left,
        ]
    }
}

impl Default for EventProperties {
    fn default() -> EventProperties {
        EventProperties::new()
    }
}

/// "A refusal that an event ends in (8, 9, 11, 14 or 15)", and with C-14 "16, with its event". 9
/// before work has signalled nothing.
fn ends_in_event(result: &CallResult) -> bool {
    match result.number {
        8 | 11 | 14 | 15 | 16 => true,
        9 => result.events > 0,
        _ => false,
    }
}

/// Whether an event is the one of a number; 11 may end in any.
fn fits_number(number: u32, event: Event) -> bool {
    match number {
        8 => event == Event::Character,
        9 => event == Event::Value,
        14 => event == Event::LogicalEnd,
        15 => event == Event::PhysicalEnd,
        16 => event == Event::LineEnd,
        _ => number == 11,
    }
}

/// The byte so many places before a place of its line.
fn byte_before(shape: Shape, book: &Book, place: Position, back: u32) -> Option<u8> {
    let character = place.character.checked_sub(back)?;
    let index = text_index(shape, Position { character, ..place })?;
    book.text.get(index).copied()
}

/// Whether a call can signal character where the record stands: a put before it stores, with a
/// byte to put that is not 32 to 126; a get after it passed such a byte, or one that is neither
/// a blank nor a digit where an integer begins.
fn has_character_cause(shape: Shape, book: &Book, place: Position, call: &Call) -> bool {
    let improper = |byte: &u8| !(32..=126).contains(byte);
    let in_line = place.character <= line_length(shape, book, place.page, place.line);
    let passed = byte_before(shape, book, place, 1);
    match call {
        Call::PutCharacter(byte) => in_line && improper(byte),
        Call::PutString(text) => in_line && text.iter().any(improper),
        Call::GetCharacter | Call::GetString(_, _) => passed.as_ref().is_some_and(improper),
        Call::GetInteger => passed.is_some_and(|byte| byte != b' ' && !byte.is_ascii_digit()),
        _ => false,
    }
}

/// Whether a call can signal value where the record stands. With no answer the digits, ten at
/// least, are the last ones passed on this line; answers may have led anywhere since.
fn has_value_cause(shape: Shape, book: &Book, made: &Made, place: Position) -> bool {
    let digit = |back: u32| {
        let byte = byte_before(shape, book, place, back);
        byte.is_some_and(|byte| byte.is_ascii_digit())
    };
    let answered = made.row.iter().any(|&word| ![0, JUMP].contains(&word));
    *made.call == Call::GetInteger && (answered || (1..=10).all(digit))
}

/// Whether the line has no room for an integer, as put of an integer asks.
fn lacks_room(length: u32, place: Position, call: &Call) -> bool {
    let needed = if place.character == 1 { 11 } else { 12 };
    matches!(call, Call::PutInteger(_)) && place.character + needed > length + 1
}

/// Whether an event has its cause in the record and the book left.
fn has_cause(after: &mut Owner, made: &Made, signalled: Signalled) -> bool {
    let Signalled { event, position } = signalled;
    let sets = matches!(made.call, Call::Set(_))
        || made.row.iter().any(|&word| read_answer(word).kind == 4);
    after.asked(|file, book| {
        let shape = file.shape;
        let lines = page_length(shape, book, position.page);
        let length = line_length(shape, book, position.page, position.line);
        let past_line = position.character > length || lacks_room(length, position, made.call);
        match event {
            Event::LogicalEnd => position == book.logical_end && (file.read_mood || sets),
            Event::PhysicalEnd => position.page > shape.pages && file.write_mood,
            Event::PageEnd => position.page <= shape.pages && position.line > lines,
            Event::LineEnd => position.line <= lines && past_line,
            Event::Character => has_character_cause(shape, book, position, made.call),
            Event::Value => has_value_cause(shape, book, made, position),
        }
    })
}

/// What is said of an event that a call tells, and of a call that tells none.
fn check_told(properties: &mut EventProperties, made: &Made, after: &mut Owner) {
    let Made {
        call, row, result, ..
    } = made;
    let file = after.file;
    let about = || format!("{call:?} {row:08x?} left {file:?}: {result:?}");
    let due = ends_in_event(result);
    let given = result.number != 7 && result.signalled.is_some() == due;
    properties.given.check(given, about);
    if let Some(signalled) = result.signalled {
        let fits = fits_number(result.number, signalled.event);
        properties.fitting.check(fits, about);
        let stands = signalled.position == file.position;
        properties.position.check(stands, about);
        let cause = has_cause(after, made, signalled);
        properties.cause.check(cause, about);
    }
}

/// Makes the call again with 8 as the answer to one of its events. The events before it take
/// the same answers as they did.
fn jump_at(made: &Made, event: usize) -> (Vec<u32>, CallResult, Owner) {
    let mut row = made.row.to_vec();
    row.resize(event - 1, 0);
    row.push(JUMP);
    let mut owner = made.before.clone();
    let result = owner.make(made.call, &row);
    (row, result, owner)
}

/// The call again, left by a jump at one of its events, and what is said of that.
fn check_jump(properties: &mut EventProperties, made: &Made, after: &Owner, event: usize) {
    let (row, result, mut owner) = jump_at(made, event);
    let again = Made {
        row: &row,
        result: &result,
        ..*made
    };
    check_told(properties, &again, &mut owner);
    let about = || format!("event {event} of {:?} {row:08x?}: {result:?}", made.call);
    let counted = (result.events as usize, result.taken as usize) == (event, event);
    let jumped = result.number == 11 && result.signalled.is_some() && counted;
    properties.jumps.check(jumped, about);
    let last = event == made.result.events as usize;
    if last && made.result.signalled.is_some() {
        let same = CallResult {
            number: made.result.number,
            taken: made.result.taken,
            ..result.clone()
        };
        let alike = same == *made.result && owner == *after;
        properties.left.check(alike, about);
    }
}

/// One call that was made, and the same call left by a jump at its last event and at any.
pub fn check_events(
    random: &mut Random,
    properties: &mut EventProperties,
    made: &Made,
    after: &mut Owner,
) {
    check_told(properties, made, after);
    let events = made.result.events as usize;
    if (1..=64).contains(&events) {
        check_jump(properties, made, after, events);
        check_jump(properties, made, after, 1 + random.below(events));
    }
}
