//! Places in a book, and the tests before work: refusals 1, 3, 2, 4 and 5.

use crate::book::{Book, File, Position, Shape};

/// The numbers of document 01's table, but for 0.
#[derive(Clone, Copy, PartialEq, Eq, Debug)]
#[repr(u8)]
pub enum Refusal {
    NotOpen = 1,
    BadAnswers = 2,
    BadBook = 3,
    NoRight = 4,
    NoMood = 5,
    OutOfRange = 6,
    BadCharacter = 8,
    BadValue = 9,
    LineTooShort = 10,
    Jumped = 11,
    OutputTooShort = 12,
    LogicalEndUnmended = 14,
    PhysicalEndUnmended = 15,
    StringDoesNotFit = 16,
}

impl Refusal {
    /// Whether an event ends in it, of a call at work.
    #[inline]
    pub fn ends_in_event(self) -> bool {
        matches!(
            self,
            Refusal::BadCharacter
                | Refusal::BadValue
                | Refusal::Jumped
                | Refusal::LogicalEndUnmended
                | Refusal::PhysicalEndUnmended
                | Refusal::StringDoesNotFit
        )
    }
}

/// The events.
#[derive(Clone, Copy, PartialEq, Eq, Debug)]
#[repr(u8)]
pub enum Event {
    LogicalEnd = 1,
    PhysicalEnd,
    PageEnd,
    LineEnd,
    Character,
    Value,
}

/// An event, and the position at which it was signalled.
#[derive(Clone, Copy, PartialEq, Eq, Debug)]
pub struct Signalled {
    pub event: Event,
    pub at: Position,
}

/// "Get calls turn read mood on and write mood off; put calls the reverse."
#[derive(Clone, Copy, PartialEq, Eq, Debug)]
pub enum Mood {
    Reading,
    Writing,
}

/// The length of a page, 0 where it is not there.
#[inline(always)]
pub fn page_length(pages: &[u8], page: usize) -> usize {
    pages
        .get(page.wrapping_sub(1))
        .map_or(0, |&length| length.into())
}

/// The length of a line, 0 where it is not there. Asked only of a book whose page lengths fit.
#[inline(always)]
pub fn line_length(shape: &Shape, lines: &[u8], pages: &[u8], page: usize, line: usize) -> usize {
    if line == 0 || line > page_length(pages, page) {
        return 0;
    }
    lines[(page - 1) * shape.lines + line - 1].into()
}

/// "1 ≤ p ≤ P+1, 1 ≤ l ≤ page length + 1, 1 ≤ c ≤ line length + 1."
#[inline]
pub fn in_bounds(shape: &Shape, lines: &[u8], pages: &[u8], place: Position) -> bool {
    (1..=shape.pages + 1).contains(&place.page)
        && (1..=page_length(pages, place.page) + 1).contains(&place.line)
        && (1..=line_length(shape, lines, pages, place.page, place.line) + 1)
            .contains(&place.character)
}

/// What establish looks at: the shape, the lent sizes, "no right to get or put".
#[inline]
pub fn shape_fits(file: &File, book: &Book) -> bool {
    let Shape {
        pages,
        lines,
        characters,
    } = file.shape;
    let small = |number: usize| (1..=255).contains(&number);
    small(pages)
        && small(lines)
        && small(characters)
        && pages * lines <= 1024
        && pages * lines * characters <= 65_536
        && book.pages.len() == pages
        && book.lines.len() == pages * lines
        && book.text.len() == pages * lines * characters
        && (file.rights.get || file.rights.put)
}

/// Whether every lent length is at most a limit. The greatest is looked for, with no way out before the end, since the compiler then
/// compares many at once.
#[inline]
fn all_up_to(lengths: &[u8], most: usize) -> bool {
    let greatest = lengths
        .iter()
        .fold(0, |greatest, &length| length.max(greatest));
    usize::from(greatest) <= most
}

/// What open looks at: the lengths and the logical end too.
#[inline]
pub fn book_fits(file: &File, book: &Book) -> bool {
    shape_fits(file, book)
        && all_up_to(book.lines, file.shape.characters)
        && all_up_to(book.pages, file.shape.lines)
        && in_bounds(&file.shape, book.lines, book.pages, book.end)
}

/// "both moods on, a mood without its right".
#[inline]
fn moods_fit(file: &File) -> bool {
    match (file.reading, file.writing) {
        (true, true) => false,
        (true, false) => file.rights.get,
        (false, true) => file.rights.put,
        (false, false) => true,
    }
}

/// What all calls but establish, open and whole begin with: 1, then 3.
#[inline]
pub fn test_record(file: &File, book: &Book) -> Result<(), Refusal> {
    if !file.opened {
        return Err(Refusal::NotOpen);
    }
    let fits = book_fits(file, book)
        && in_bounds(&file.shape, book.lines, book.pages, file.position)
        && file.position <= book.end
        && moods_fit(file);
    if fits {
        Ok(())
    } else {
        Err(Refusal::BadBook)
    }
}

/// "unknown kind, non-zero unused field, kind 7 above 255".
#[inline]
fn word_fits(word: u32) -> bool {
    let fields = word & 0x0fff_ffff;
    match word >> 28 {
        4 => true,
        7 => fields <= 255,
        0..=8 => fields == 0,
        _ => false,
    }
}

/// What a call that is lent answers begins with: 1, 3, then 2.
#[inline]
pub fn test_record_and_row(file: &File, book: &Book, row: &[u32]) -> Result<(), Refusal> {
    test_record(file, book)?;
    if row.len() <= 64 && row.iter().all(|&word| word_fits(word)) {
        Ok(())
    } else {
        Err(Refusal::BadAnswers)
    }
}

/// What a put or a get needs: its right, and a mood that it may turn.
#[inline]
pub fn test_turn(file: &File, mood: Mood) -> Result<(), Refusal> {
    let (right, against) = match mood {
        Mood::Reading => (file.rights.get, file.writing),
        Mood::Writing => (file.rights.put, file.reading),
    };
    if !right {
        return Err(Refusal::NoRight);
    }
    if against && !file.rights.set {
        return Err(Refusal::NoMood);
    }
    Ok(())
}

/// The mood that is on, if any.
#[inline]
pub fn mood_on(file: &File) -> Option<Mood> {
    if file.reading {
        Some(Mood::Reading)
    } else if file.writing {
        Some(Mood::Writing)
    } else {
        None
    }
}

/// Turns one mood on and the other off.
#[inline]
pub fn turn(file: &mut File, mood: Mood) {
    file.reading = mood == Mood::Reading;
    file.writing = mood == Mood::Writing;
}
