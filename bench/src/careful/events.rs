//! A call at work: events and their answers, the good file, page and line, and the steps that an answer may ask for.

use super::places::{
    in_bounds, line_length, mood_on, page_length, turn, Event, Mood, Refusal, Signalled,
};
use crate::book::{Book, File, Position};

/// A call at work: the record, the book, the lent answers, what was signalled and taken so far, and the last event. A refusal that an
/// event ends in comes right after it, so the last one is the event.
pub struct Work<'w> {
    pub file: &'w mut File,
    pub text: &'w mut [u8],
    pub lines: &'w mut [u8],
    pub pages: &'w mut [u8],
    pub end: &'w mut Position,
    pub row: &'w [u32],
    pub events: usize,
    pub taken: usize,
    pub last: Option<Signalled>,
}

/// What the program answered to an event: false, or true with the character that it suggested.
#[derive(Clone, Copy, PartialEq, Eq, Debug)]
pub enum Reply {
    False,
    True(Option<u8>),
}

impl<'w> Work<'w> {
    #[inline]
    pub fn new(file: &'w mut File, book: &'w mut Book<'_>, row: &'w [u32]) -> Work<'w> {
        Work {
            file,
            text: book.text,
            lines: book.lines,
            pages: book.pages,
            end: &mut book.end,
            row,
            events: 0,
            taken: 0,
            last: None,
        }
    }

    /// The event of good file.
    #[inline]
    fn file_end(mood: Mood) -> Event {
        match mood {
            Mood::Reading => Event::LogicalEnd,
            Mood::Writing => Event::PhysicalEnd,
        }
    }

    /// Its refusal.
    #[inline]
    fn end_unmended(mood: Mood) -> Refusal {
        match mood {
            Mood::Reading => Refusal::LogicalEndUnmended,
            Mood::Writing => Refusal::PhysicalEndUnmended,
        }
    }

    /// The length of the position's line, 0 where it is not there.
    #[inline(always)]
    pub fn line_length(&self) -> usize {
        let place = &self.file.position;
        line_length(
            &self.file.shape,
            self.lines,
            self.pages,
            place.page,
            place.line,
        )
    }

    /// Where in the text a place is.
    #[inline(always)]
    pub fn text_index(&self, place: &Position) -> usize {
        let shape = &self.file.shape;
        ((place.page - 1) * shape.lines + place.line - 1) * shape.characters + place.character - 1
    }

    #[inline]
    fn file_ended(&self, mood: Mood) -> bool {
        match mood {
            Mood::Reading => *self.end <= self.file.position,
            Mood::Writing => self.file.position.page > self.file.shape.pages,
        }
    }

    #[inline]
    fn page_ended(&self) -> bool {
        self.file.position.line > page_length(self.pages, self.file.position.page)
    }

    #[inline(always)]
    pub fn line_ended(&self) -> bool {
        self.file.position.character > self.line_length()
    }

    /// Whether the line is good as it is. A line of a page or of a file that has ended is not there, so its length is 0.
    #[inline(always)]
    pub fn line_is_good(&self, mood: Mood) -> bool {
        let readable = mood == Mood::Writing || self.file.position < *self.end;
        readable && !self.line_ended()
    }

    /// Signals an event, which takes the next answer. After it the call's mood is set again; a set made with no mood has none.
    pub fn signal(&mut self, event: Event, mood: Option<Mood>) -> Result<Reply, Refusal> {
        self.events += 1;
        self.last = Some(Signalled {
            event,
            at: self.file.position,
        });
        let Some(&word) = self.row.get(self.taken) else {
            return Ok(Reply::False);
        };
        self.taken += 1;
        let kind = word >> 28;
        if kind == 0 {
            return Ok(Reply::False);
        }
        self.follow(kind, word)?;
        if let Some(mood) = mood {
            turn(self.file, mood);
        }
        Ok(Reply::True((kind == 7).then_some(word as u8)))
    }

    /// Does what an answer says.
    fn follow(&mut self, kind: u32, word: u32) -> Result<(), Refusal> {
        let field = |shift: u32, mask: u32| ((word >> shift) & mask) as usize;
        match kind {
            2 => self.newline(),
            3 => self.newpage(),
            4 => self.set(Position::new(
                field(19, 511),
                field(10, 511),
                field(0, 1023),
            )),
            5 => self.backspace(),
            6 => self.reset(),
            8 => Err(Refusal::Jumped),
            _ => Ok(()),
        }
    }

    /// Good file: true, or false where its event was answered 0.
    #[inline]
    fn good_file(&mut self, mood: Mood) -> Result<bool, Refusal> {
        while self.file_ended(mood) {
            if self.signal(Self::file_end(mood), Some(mood))? == Reply::False {
                return Ok(false);
            }
        }
        Ok(true)
    }

    /// Good page, in the same way. Good file is tested again after every step.
    #[inline]
    pub fn good_page(&mut self, mood: Mood) -> Result<bool, Refusal> {
        while self.good_file(mood)? {
            if !self.page_ended() {
                return Ok(true);
            }
            if self.signal(Event::PageEnd, Some(mood))? == Reply::False {
                self.newpage()?;
            }
        }
        Ok(false)
    }

    /// Good line, with the default of good file: refusal 14 or 15.
    #[inline]
    pub fn good_line(&mut self, mood: Mood) -> Result<(), Refusal> {
        self.good_line_or_refuse(mood, true)
    }

    /// The same, where a line end answered 0 is a newline only if what is put may be split there.
    #[inline]
    pub fn good_line_or_refuse(&mut self, mood: Mood, splits: bool) -> Result<(), Refusal> {
        if self.line_is_good(mood) {
            return Ok(());
        }
        self.mend_line(mood, splits)
    }

    /// Good line where the line is not good at once. Out of line, to keep what is done for every character small.
    #[inline(never)]
    fn mend_line(&mut self, mood: Mood, splits: bool) -> Result<(), Refusal> {
        while self.good_page(mood)? {
            if !self.line_ended() {
                return Ok(());
            }
            if self.signal(Event::LineEnd, Some(mood))? == Reply::False {
                if !splits {
                    return Err(Refusal::StringDoesNotFit);
                }
                self.newline()?;
            }
        }
        Err(Self::end_unmended(mood))
    }

    /// Blanks a line from a place on, to its own length.
    fn blank_line(&mut self, from: Position) {
        let length = line_length(
            &self.file.shape,
            self.lines,
            self.pages,
            from.page,
            from.line,
        );
        if from.character <= length {
            let start = self.text_index(&from);
            self.text[start..=start + length - from.character].fill(b' ');
        }
    }

    /// Cuts the logical end's line at that end.
    fn cut_line(&mut self) {
        let index = (self.end.page - 1) * self.file.shape.lines + self.end.line - 1;
        self.lines[index] = (self.end.character - 1) as u8;
    }

    fn move_position_and_end(&mut self, place: Position) {
        self.file.position = place;
        *self.end = place;
    }

    pub fn newline(&mut self) -> Result<(), Refusal> {
        let mood = mood_on(self.file).ok_or(Refusal::NoMood)?;
        while self.good_page(mood)? {
            let (place, end) = (self.file.position, *self.end);
            let next = Position::new(place.page, place.line + 1, 1);
            if (place.page, place.line) != (end.page, end.line) {
                self.file.position = next;
                return Ok(());
            }
            self.file.position = end;
            if mood == Mood::Writing {
                self.end_line();
                self.move_position_and_end(next);
                return Ok(());
            }
        }
        Err(Self::end_unmended(mood))
    }

    /// The writing end of a line: cut at the logical end, or filled with blanks.
    fn end_line(&mut self) {
        if self.file.rights.compress {
            self.cut_line();
        } else {
            self.blank_line(*self.end);
        }
    }

    pub fn newpage(&mut self) -> Result<(), Refusal> {
        let mood = mood_on(self.file).ok_or(Refusal::NoMood)?;
        while self.good_file(mood)? {
            let end = *self.end;
            let next = Position::new(self.file.position.page + 1, 1, 1);
            if self.file.position.page != end.page {
                self.file.position = next;
                return Ok(());
            }
            self.file.position = end;
            if mood == Mood::Writing {
                self.end_page();
                self.move_position_and_end(next);
                return Ok(());
            }
        }
        Err(Self::end_unmended(mood))
    }

    /// The writing end of a page: cut after the logical end's line (before it, if c = 1; not if the page was full), or blanked.
    fn end_page(&mut self) {
        let end = *self.end;
        let length = page_length(self.pages, end.page);
        if !self.file.rights.compress {
            self.blank_line(end);
            for line in end.line + 1..=length {
                self.blank_line(Position::new(end.page, line, 1));
            }
        } else if end.line <= length {
            self.cut_line();
            self.pages[end.page - 1] = (end.line - usize::from(end.character == 1)) as u8;
        }
    }

    pub fn set(&mut self, to: Position) -> Result<(), Refusal> {
        if !self.file.rights.set {
            return Err(Refusal::NoRight);
        }
        if to > *self.end {
            let mood = mood_on(self.file);
            self.file.position = *self.end;
            return match self.signal(Event::LogicalEnd, mood)? {
                Reply::False => Err(Refusal::LogicalEndUnmended),
                Reply::True(_) => Ok(()),
            };
        }
        if !in_bounds(&self.file.shape, self.lines, self.pages, to) {
            return Err(Refusal::OutOfRange);
        }
        self.file.position = to;
        Ok(())
    }

    pub fn backspace(&mut self) -> Result<(), Refusal> {
        if self.file.position.character == 1 {
            return Err(Refusal::OutOfRange);
        }
        self.file.position.character -= 1;
        Ok(())
    }

    pub fn reset(&mut self) -> Result<(), Refusal> {
        if !self.file.rights.reset {
            return Err(Refusal::NoRight);
        }
        start_again(self.file);
        Ok(())
    }
}

/// "Open and reset set read mood to 'put not possible', write mood to 'get not possible', position (1,1,1)."
pub fn start_again(file: &mut File) {
    file.reading = !file.rights.put;
    file.writing = !file.rights.get;
    file.position = Position::START;
}
