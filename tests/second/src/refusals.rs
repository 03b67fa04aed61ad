//! Why a call ends before its work is done: the refusal, and the event that it ended in (C-12).

use crate::book::Position;

/// The numbers of document 01's table, but for 0, with C-12: "7 is retired; 14 is logical end,
/// 15 physical end, in 7's place", and with C-14: "16, string does not fit".
#[derive(Clone, Copy, PartialEq, Eq, Debug)]
pub enum Refusal {
    NotOpen = 1,
    BadRow = 2,
    BadBook = 3,
    NoRight = 4,
    NoMood = 5,
    OutOfRange = 6,
    Character = 8,
    Value = 9,
    LineTooShort = 10,
    JumpedAway = 11,
    OutputTooShort = 12,
    LogicalEnd = 14,
    PhysicalEnd = 15,
    DoesNotFit = 16,
}

/// "Events: logical end, physical end, page end, line end, character, value."
#[derive(Clone, Copy, PartialEq, Eq, Debug)]
pub enum Event {
    LogicalEnd,
    PhysicalEnd,
    PageEnd,
    LineEnd,
    Character,
    Value,
}

/// An event and "the position at which it was signalled": the record's "at the moment of the
/// signal, before the answer does anything".
#[derive(Clone, Copy, PartialEq, Eq, Debug)]
pub struct Signalled {
    pub event: Event,
    pub position: Position,
}

/// How a call was refused: the number, and the event where the refusal is one's end.
#[derive(Clone, Copy, PartialEq, Eq, Debug)]
pub struct Ending {
    pub refusal: Refusal,
    pub signalled: Option<Signalled>,
}

impl Ending {
    /// "A refusal that an event ends in gives that event and the position."
    pub fn in_event(refusal: Refusal, signalled: Signalled) -> Ending {
        Ending {
            refusal,
            signalled: Some(signalled),
        }
    }
}

/// "Any other result gives none": a refusal alone is no event's end, also inside an answer.
impl From<Refusal> for Ending {
    fn from(refusal: Refusal) -> Ending {
        Ending {
            refusal,
            signalled: None,
        }
    }
}
