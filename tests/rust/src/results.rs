//! What a call hands back, and the answers of a row, as types. Their numbers are the header's.

use crate::declarations::{CallResult, Position};

/// Why a call was refused.
#[derive(Clone, Copy, PartialEq, Eq, PartialOrd, Ord, Debug)]
#[repr(u8)]
pub enum Refusal {
    NotOpen = 1,
    BadAnswers = 2,
    BadBook = 3,
    NoRight = 4,
    NoMood = 5,
    OutOfRange = 6,
    BadCharacter = 8,
    BadValue = 9,
    LineTooShort = 10,
    Jumped = 11,
    OutputTooShort = 12,
    LogicalEndUnmended = 14,
    PhysicalEndUnmended = 15,
    StringDoesNotFit = 16,
}

impl Refusal {
    /// Every refusal, in the order of their numbers.
    pub const ALL: [Refusal; 14] = [
        Refusal::NotOpen,
        Refusal::BadAnswers,
        Refusal::BadBook,
        Refusal::NoRight,
        Refusal::NoMood,
        Refusal::OutOfRange,
        Refusal::BadCharacter,
        Refusal::BadValue,
        Refusal::LineTooShort,
        Refusal::Jumped,
        Refusal::OutputTooShort,
        Refusal::LogicalEndUnmended,
        Refusal::PhysicalEndUnmended,
        Refusal::StringDoesNotFit,
    ];

    /// The number that the header gives it.
    pub fn number(self) -> u8 {
        self as u8
    }

    /// The refusal of a number; none for 0, which is "done".
    ///
    /// # Panics
    /// On a number that the header does not have.
    pub fn of_number(number: u8) -> Option<Refusal> {
        if number == 0 {
            return None;
        }
        let found = Refusal::ALL.iter().find(|one| one.number() == number);
        Some(*found.unwrap_or_else(|| panic!("the library gave number {number}")))
    }

    fn words(self) -> &'static str {
        match self {
            Refusal::NotOpen => "the record is not open",
            Refusal::BadAnswers => "the answers are bad",
            Refusal::BadBook => "the record or the book is bad",
            Refusal::NoRight => "the channel lacks the right",
            Refusal::NoMood => "no mood is on, or it cannot be turned",
            Refusal::OutOfRange => "a place or a width is out of range",
            Refusal::BadCharacter => "a character that cannot be put or got",
            Refusal::BadValue => "an integer that is too large",
            Refusal::LineTooShort => "the line is too short for an integer",
            Refusal::Jumped => "the program jumped away",
            Refusal::OutputTooShort => "the output is too short",
            Refusal::LogicalEndUnmended => "no answer mended the logical end",
            Refusal::PhysicalEndUnmended => "no answer mended the physical end",
            Refusal::StringDoesNotFit => "the string does not fit on its line",
        }
    }
}

impl std::fmt::Display for Refusal {
    fn fmt(&self, formatter: &mut std::fmt::Formatter) -> std::fmt::Result {
        write!(formatter, "refused {}: {}", self.number(), self.words())
    }
}

impl std::error::Error for Refusal {}

/// An event.
#[derive(Clone, Copy, PartialEq, Eq, PartialOrd, Ord, Debug)]
#[repr(u8)]
pub enum Event {
    /// Reading, or in set: the book has no more text.
    LogicalEnd = 1,
    /// Writing: the book has no more pages.
    PhysicalEnd = 2,
    PageEnd = 3,
    LineEnd = 4,
    /// A character that cannot be put or got.
    Character = 5,
    /// An integer too large.
    Value = 6,
}

impl Event {
    /// Every event, in the order of their numbers.
    pub const ALL: [Event; 6] = [
        Event::LogicalEnd,
        Event::PhysicalEnd,
        Event::PageEnd,
        Event::LineEnd,
        Event::Character,
        Event::Value,
    ];

    /// The number that the header gives it.
    pub fn number(self) -> u8 {
        self as u8
    }

    /// The event of a number; none for 0.
    ///
    /// # Panics
    /// On a number that the header does not have.
    pub fn of_number(number: u8) -> Option<Event> {
        if number == 0 {
            return None;
        }
        let found = Event::ALL.iter().find(|one| one.number() == number);
        Some(*found.unwrap_or_else(|| panic!("the library gave event {number}")))
    }
}

/// An event that a refusal ended in, and the position at which it was signalled.
#[derive(Clone, Copy, PartialEq, Eq, Debug)]
pub struct Signalled {
    pub event: Event,
    pub at: Position,
}

/// Why a get of a string stopped.
#[derive(Clone, Copy, PartialEq, Eq, PartialOrd, Ord, Debug)]
#[repr(u8)]
pub enum Stop {
    /// A terminator comes next; it was not passed.
    Terminator = 1,
    /// The line ended, and its event was answered 0 or not at all.
    LineEnded = 2,
    /// The logical end came, and its event was answered 0 or not at all.
    FileEnded = 3,
    OutputFull = 4,
}

impl Stop {
    /// Every stop, in the order of their numbers.
    pub const ALL: [Stop; 4] = [
        Stop::Terminator,
        Stop::LineEnded,
        Stop::FileEnded,
        Stop::OutputFull,
    ];

    /// The number that the header gives it.
    pub fn number(self) -> u8 {
        self as u8
    }

    /// The stop of a number; none for 0, which is "no stop".
    ///
    /// # Panics
    /// On a number that the header does not have.
    pub fn of_number(number: u8) -> Option<Stop> {
        if number == 0 {
            return None;
        }
        let found = Stop::ALL.iter().find(|one| one.number() == number);
        Some(*found.unwrap_or_else(|| panic!("the library gave stop {number}")))
    }
}

/// What a get gave.
#[derive(Clone, Copy, PartialEq, Eq, Debug)]
pub enum Given {
    Nothing,
    Character(u8),
    Integer(i32),
}

impl Given {
    /// The number that the header gives its kind.
    pub fn number(self) -> u8 {
        match self {
            Given::Nothing => 0,
            Given::Character(_) => 1,
            Given::Integer(_) => 2,
        }
    }

    /// What the header's `given` and `value` say.
    ///
    /// # Panics
    /// On a pair that the header does not have.
    pub fn of_numbers(given: u8, value: i32) -> Given {
        match (given, u8::try_from(value)) {
            (0, Ok(0)) => Given::Nothing,
            (1, Ok(byte)) => Given::Character(byte),
            (2, _) => Given::Integer(value),
            _ => panic!("the library gave {given} with value {value}"),
        }
    }
}

/// What a call hands back beside the record.
#[derive(Clone, Copy, PartialEq, Eq, Debug)]
#[must_use = "a call may have been refused"]
pub struct Outcome {
    /// None where the call was done.
    pub refusal: Option<Refusal>,
    /// Why a get of a string stopped; none for another call, and where it was refused.
    pub stop: Option<Stop>,
    /// The event that a refusal ended in.
    pub signalled: Option<Signalled>,
    pub given: Given,
    /// Events signalled.
    pub events: usize,
    /// Answers taken from the row.
    pub taken: usize,
    /// Characters that a get of a string delivered, also where it was refused after them.
    pub count: usize,
    /// The logical end after the call. The book that the call was made on has it already.
    pub end: Position,
}

impl Outcome {
    /// Whether the call was done, for use with `?`.
    pub fn done(self) -> Result<Outcome, Refusal> {
        self.refusal.map_or(Ok(self), Err)
    }
}

impl From<CallResult> for Outcome {
    fn from(result: CallResult) -> Outcome {
        let at = result.signalled;
        let event = Event::of_number(result.event);
        Outcome {
            refusal: Refusal::of_number(result.number),
            stop: Stop::of_number(result.stop),
            signalled: event.map(|event| Signalled { event, at }),
            given: Given::of_numbers(result.given, result.value),
            events: result.events,
            taken: result.taken,
            count: result.count,
            end: result.end,
        }
    }
}

/// A shown line: a part of the book's text, or the marker where the line is empty.
#[derive(Clone, Copy, PartialEq, Eq, Debug)]
pub enum View<'a> {
    Line(&'a [u8]),
    Marker(&'a [u8]),
}

impl<'a> View<'a> {
    /// The characters to show, whichever they are.
    pub fn characters(self) -> &'a [u8] {
        match self {
            View::Line(characters) | View::Marker(characters) => characters,
        }
    }
}

/// An answer to an event. A row is of words, so that any row can be lent, a bad one too.
#[derive(Clone, Copy, PartialEq, Eq, Debug)]
pub enum Answer {
    /// The default follows.
    False,
    /// True, with nothing done.
    True,
    Newline,
    Newpage,
    Set(Position),
    Backspace,
    Reset,
    /// The character is suggested at a character event.
    Suggest(u8),
    /// The program jumps away.
    Jump,
}

impl Answer {
    /// The number that the header gives its kind.
    pub fn kind(self) -> u32 {
        match self {
            Answer::False => 0,
            Answer::True => 1,
            Answer::Newline => 2,
            Answer::Newpage => 3,
            Answer::Set(_) => 4,
            Answer::Backspace => 5,
            Answer::Reset => 6,
            Answer::Suggest(_) => 7,
            Answer::Jump => 8,
        }
    }

    /// Its word: kind 4 bits, page 9, line 9, character 10. A place too large for its field is cut to it, as the header does.
    pub fn word(self) -> u32 {
        let (page, line, character) = match self {
            Answer::Set(to) => (to.page & 511, to.line & 511, to.character & 1023),
            Answer::Suggest(byte) => (0, 0, usize::from(byte)),
            _ => (0, 0, 0),
        };
        self.kind() << 28 | (page as u32) << 19 | (line as u32) << 10 | character as u32
    }
}
