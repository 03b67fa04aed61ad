//! Characters and strings put and got, one character after the other, and the layout steps that need a good line.

use super::events::{Reply, Work};
use super::places::{mood_on, Event, Mood, Refusal};
use crate::book::Position;

/// Why a get of a string stopped.
#[derive(Clone, Copy, PartialEq, Eq, Debug)]
#[repr(u8)]
pub enum Stop {
    Terminator = 1,
    LineEnded = 2,
    FileEnded = 3,
    OutputFull = 4,
}

/// A byte that signals no character event.
#[inline]
pub fn is_printable(byte: u8) -> bool {
    (32..=126).contains(&byte)
}

impl Work<'_> {
    /// "Store it, c+1", of a number of characters stored on the line, and the rule of the logical end.
    #[inline]
    pub fn passed(&mut self, count: usize) {
        self.file.position.character += count;
        let (position, end) = (self.file.position, *self.end);
        let line_of_end = Position {
            character: 1,
            ..end
        };
        if position > end {
            *self.end = position;
        } else if !self.file.rights.set && line_of_end > position {
            *self.end = position;
            if self.file.rights.compress {
                self.restore(position);
            }
        }
    }

    /// The end went back to a place: the lengths of its line, of its page, and of all later ones are as established.
    #[cold]
    fn restore(&mut self, end: Position) {
        let shape = self.file.shape;
        let first = (end.page - 1) * shape.lines + (end.line - 1);
        self.lines[first..].fill(shape.characters as u8);
        self.pages[end.page - 1..].fill(shape.lines as u8);
    }

    #[inline(always)]
    fn store(&mut self, byte: u8) {
        let index = self.text_index(&self.file.position);
        self.text[index] = byte;
        self.passed(1);
    }

    /// Most often the line is good and the character can be put. A character of a string follows the record's choice at a line end.
    #[inline(always)]
    pub fn put_character(&mut self, byte: u8, string: bool) -> Result<(), Refusal> {
        if self.line_is_good(Mood::Writing) && is_printable(byte) {
            self.store(byte);
            return Ok(());
        }
        self.put_after_events(byte, string)
    }

    /// Puts a character after the events that stand before it. Out of line, to keep what is done for every character small.
    #[inline(never)]
    fn put_after_events(&mut self, byte: u8, string: bool) -> Result<(), Refusal> {
        let mut tried = byte;
        let splits = !string || self.file.split;
        loop {
            self.good_line_or_refuse(Mood::Writing, splits)?;
            if is_printable(tried) {
                self.store(tried);
                return Ok(());
            }
            tried = match self.signal(Event::Character, Some(Mood::Writing))? {
                Reply::False => return Err(Refusal::BadCharacter),
                Reply::True(suggested) => suggested.unwrap_or(b' '),
            };
        }
    }

    #[inline]
    pub fn put_string(&mut self, bytes: &[u8]) -> Result<(), Refusal> {
        bytes
            .iter()
            .try_for_each(|&byte| self.put_character(byte, true))
    }

    /// The byte at the position, of a good line.
    #[inline(always)]
    pub fn byte_here(&self) -> u8 {
        self.text[self.text_index(&self.file.position)]
    }

    /// Passes a byte: it is delivered, or what its character event suggests.
    #[inline]
    pub fn pass(&mut self, byte: u8) -> Result<u8, Refusal> {
        self.file.position.character += 1;
        if is_printable(byte) {
            return Ok(byte);
        }
        match self.signal(Event::Character, Some(Mood::Reading))? {
            Reply::False => Err(Refusal::BadCharacter),
            Reply::True(suggested) => Ok(suggested.unwrap_or(b' ')),
        }
    }

    #[inline]
    pub fn get_character(&mut self) -> Result<u8, Refusal> {
        self.good_line(Mood::Reading)?;
        let byte = self.byte_here();
        self.pass(byte)
    }

    /// The stop of a string before a character, if it stops there.
    #[inline]
    pub fn stop_here(&mut self) -> Result<Option<Stop>, Refusal> {
        if self.line_is_good(Mood::Reading) {
            return Ok(None);
        }
        self.stop_or_mend()
    }

    #[inline(never)]
    fn stop_or_mend(&mut self) -> Result<Option<Stop>, Refusal> {
        while self.good_page(Mood::Reading)? {
            if !self.line_ended() {
                return Ok(None);
            }
            if self.signal(Event::LineEnd, Some(Mood::Reading))? == Reply::False {
                return Ok(Some(Stop::LineEnded));
            }
        }
        Ok(Some(Stop::FileEnded))
    }

    /// A character of a string into its place, or the stop before it. Most often the line is good and the character can be got.
    #[inline(always)]
    pub fn get_into(
        &mut self,
        place: &mut u8,
        terminators: &[u8],
    ) -> Result<Option<Stop>, Refusal> {
        if self.line_is_good(Mood::Reading) {
            let byte = self.byte_here();
            if is_printable(byte) && !terminators.contains(&byte) {
                *place = byte;
                self.file.position.character += 1;
                return Ok(None);
            }
        }
        self.get_after_events(place, terminators)
    }

    /// The same after the events that stand before it.
    #[inline(never)]
    fn get_after_events(
        &mut self,
        place: &mut u8,
        terminators: &[u8],
    ) -> Result<Option<Stop>, Refusal> {
        if let Some(stop) = self.stop_here()? {
            return Ok(Some(stop));
        }
        let byte = self.byte_here();
        if terminators.contains(&byte) {
            return Ok(Some(Stop::Terminator));
        }
        *place = self.pass(byte)?;
        Ok(None)
    }

    /// The count stands apart, since a refused get keeps what it delivered.
    #[inline]
    pub fn get_string(
        &mut self,
        terminators: &[u8],
        output: &mut [u8],
        count: &mut usize,
    ) -> Result<Stop, Refusal> {
        for place in output {
            if let Some(stop) = self.get_into(place, terminators)? {
                return Ok(stop);
            }
            *count += 1;
        }
        Ok(Stop::OutputFull)
    }

    #[inline]
    pub fn space(&mut self) -> Result<(), Refusal> {
        let mood = mood_on(self.file).ok_or(Refusal::NoMood)?;
        self.good_line(mood)?;
        if mood == Mood::Reading || self.file.position < *self.end {
            self.file.position.character += 1;
        } else {
            self.store(b' ');
        }
        Ok(())
    }

    pub fn set_character_number(&mut self, number: usize) -> Result<(), Refusal> {
        while self.file.position.character != number {
            if number < 1 || number > self.line_length() + 1 {
                return Err(Refusal::OutOfRange);
            }
            if number > self.file.position.character {
                self.space()?;
            } else {
                self.file.position.character = number;
            }
        }
        Ok(())
    }
}
