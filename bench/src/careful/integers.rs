//! Integers put and got, and whole.

use super::events::{Reply, Work};
use super::places::{Event, Mood, Refusal};

/// The digits of a size at the end of a text; gives where they begin.
#[inline]
fn write_digits(size: u32, text: &mut [u8]) -> usize {
    let mut rest = size;
    let mut from = text.len();
    loop {
        from -= 1;
        text[from] = b'0' + (rest % 10) as u8;
        rest /= 10;
        if rest == 0 {
            return from;
        }
    }
}

/// A blank and whole(value, 11).
#[inline]
pub fn integer_text(value: i32) -> [u8; 12] {
    let mut text = [b' '; 12];
    let from = write_digits(value.unsigned_abs(), &mut text);
    text[from - 1] = if value < 0 { b'-' } else { b'+' };
    text
}

/// whole(value, width) into a lent output; gives how many characters it wrote.
pub fn whole(value: i32, width: i32, output: &mut [u8]) -> Result<usize, Refusal> {
    if value == i32::MIN {
        return Err(Refusal::BadValue);
    }
    if !(-255..=255).contains(&width) {
        return Err(Refusal::OutOfRange);
    }
    let mut room = [0; 11];
    let mut from = write_digits(value.unsigned_abs(), &mut room);
    if value < 0 || width > 0 {
        from -= 1;
        room[from] = if value < 0 { b'-' } else { b'+' };
    }
    let text = &room[from..];
    let places = if width == 0 {
        text.len()
    } else {
        width.unsigned_abs() as usize
    };
    let output = output.get_mut(..places).ok_or(Refusal::OutputTooShort)?;
    if text.len() > places {
        output.fill(b'*');
    } else {
        let (blanks, rest) = output.split_at_mut(places - text.len());
        blanks.fill(b' ');
        rest.copy_from_slice(text);
    }
    Ok(places)
}

impl Work<'_> {
    /// "Repeat: good line; line length below 11, refusal 10; if c + 11 (c + 12 when c is not 1) exceeds line length + 1, signal line end,
    /// default newline, and repeat." Gives how many characters to put: the text's 11, and a blank when c is not 1.
    #[inline]
    pub fn find_room(&mut self) -> Result<usize, Refusal> {
        loop {
            self.good_line(Mood::Writing)?;
            let length = self.line_length();
            if length < 11 {
                return Err(Refusal::LineTooShort);
            }
            let character = self.file.position.character;
            let needed = if character == 1 { 11 } else { 12 };
            if character + needed <= length + 1 {
                return Ok(needed);
            }
            if self.signal(Event::LineEnd, Some(Mood::Writing))? == Reply::False {
                self.newline()?;
            }
        }
    }

    #[inline]
    pub fn put_integer(&mut self, value: i32) -> Result<(), Refusal> {
        let text = integer_text(value);
        let needed = self.find_room()?;
        let put = |&byte: &u8| self.put_character(byte, false);
        text[12 - needed..].iter().try_for_each(put)
    }

    /// "Good line and pass blanks": the byte that stands after them, not passed.
    #[inline]
    fn pass_blanks(&mut self) -> Result<u8, Refusal> {
        loop {
            self.good_line(Mood::Reading)?;
            let byte = self.byte_here();
            if byte != b' ' {
                return Ok(byte);
            }
            self.file.position.character += 1;
        }
    }

    /// The first digit, or what its character event suggests for it.
    #[inline]
    fn first_digit(&mut self) -> Result<u8, Refusal> {
        let byte = self.pass_blanks()?;
        self.file.position.character += 1;
        if byte.is_ascii_digit() {
            return Ok(byte);
        }
        match self.signal(Event::Character, Some(Mood::Reading))? {
            Reply::False => Err(Refusal::BadCharacter),
            Reply::True(suggested) => Some(suggested.unwrap_or(b'0'))
                .filter(u8::is_ascii_digit)
                .ok_or(Refusal::BadCharacter),
        }
    }

    /// The size with the digits that follow. Past the largest integer it only matters that it is past it.
    #[inline]
    fn more_digits(&mut self, first: u8) -> Result<u64, Refusal> {
        let mut size = u64::from(first - b'0');
        while self.stop_here()?.is_none() {
            let byte = self.byte_here();
            if !byte.is_ascii_digit() {
                break;
            }
            self.file.position.character += 1;
            size = (size * 10 + u64::from(byte - b'0')).min(1 << 32);
        }
        Ok(size)
    }

    /// The integer, or nothing where it was too large and an answer passed it.
    #[inline]
    pub fn get_integer(&mut self) -> Result<Option<i32>, Refusal> {
        let sign = self.pass_blanks()?;
        if sign == b'-' || sign == b'+' {
            self.file.position.character += 1;
        }
        let first = self.first_digit()?;
        let size = self.more_digits(first)?;
        if let Ok(size) = i32::try_from(size) {
            return Ok(Some(if sign == b'-' { -size } else { size }));
        }
        match self.signal(Event::Value, Some(Mood::Reading))? {
            Reply::False => Err(Refusal::BadValue),
            Reply::True(_) => Ok(None),
        }
    }
}
