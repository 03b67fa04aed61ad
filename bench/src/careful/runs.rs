//! Strings and integers in whole runs: as many printable characters as the line has room for are copied at once. Any other character
//! takes the ordinary step.

use super::calls::{lowest, put, transfer, Outcome};
use super::characters::{is_printable, Stop};
use super::events::Work;
use super::integers::integer_text;
use super::places::{Mood, Refusal};
use crate::book::{Book, File};

/// How many bytes at the start signal nothing and are no terminator. First all of them are tested, with no way out before the end, since
/// the compiler then tests many at once; only where one of them is another does it matter which.
#[inline]
fn ordinary(bytes: &[u8], terminators: &[u8]) -> usize {
    let printable = bytes
        .iter()
        .fold(true, |all, &byte| all & is_printable(byte));
    if printable && !terminators.iter().any(|end| bytes.contains(end)) {
        return bytes.len();
    }
    let odd = |byte: &u8| !is_printable(*byte) || terminators.contains(byte);
    bytes.iter().position(odd).unwrap_or(bytes.len())
}

impl Work<'_> {
    /// How many characters of the line stand from the position on, of a good line; reading, before the logical end.
    #[inline]
    fn room(&self, mood: Mood) -> usize {
        if !self.line_is_good(mood) {
            return 0;
        }
        let (place, end) = (&self.file.position, &*self.end);
        let rest = self.line_length() + 1 - place.character;
        if mood == Mood::Reading && (place.page, place.line) == (end.page, end.line) {
            return rest.min(end.character - place.character);
        }
        rest
    }

    #[inline]
    fn put_run(&mut self, bytes: &[u8]) -> usize {
        let room = self.room(Mood::Writing).min(bytes.len());
        let count = ordinary(&bytes[..room], &[]);
        if count > 0 {
            let start = self.text_index(&self.file.position);
            self.text[start..start + count].copy_from_slice(&bytes[..count]);
            self.passed(count);
        }
        count
    }

    #[inline]
    fn put_in_runs(&mut self, bytes: &[u8], string: bool) -> Result<(), Refusal> {
        let mut rest = bytes;
        while let Some(&first) = rest.first() {
            let mut count = self.put_run(rest);
            if count == 0 {
                self.put_character(first, string)?;
                count = 1;
            }
            rest = &rest[count..];
        }
        Ok(())
    }

    #[inline]
    fn get_run(&mut self, terminators: &[u8], output: &mut [u8]) -> usize {
        let room = self.room(Mood::Reading).min(output.len());
        if room == 0 {
            return 0;
        }
        let start = self.text_index(&self.file.position);
        let count = ordinary(&self.text[start..start + room], terminators);
        output[..count].copy_from_slice(&self.text[start..start + count]);
        self.file.position.character += count;
        count
    }

    #[inline]
    fn get_in_runs(
        &mut self,
        terminators: &[u8],
        output: &mut [u8],
        count: &mut usize,
    ) -> Result<Stop, Refusal> {
        while *count < output.len() {
            let run = self.get_run(terminators, &mut output[*count..]);
            if run > 0 {
                *count += run;
                continue;
            }
            if let Some(stop) = self.get_into(&mut output[*count], terminators)? {
                return Ok(stop);
            }
            *count += 1;
        }
        Ok(Stop::OutputFull)
    }
}

#[inline(never)]
pub fn put_string(file: &mut File, book: &mut Book, bytes: &[u8], row: &[u32]) -> Outcome {
    put(file, book, row, |work| work.put_in_runs(bytes, true))
}

#[inline(never)]
pub fn put_integer(file: &mut File, book: &mut Book, value: i32, row: &[u32]) -> Outcome {
    if value == i32::MIN {
        return lowest(file, book, row);
    }
    put(file, book, row, |work| {
        let text = integer_text(value);
        let needed = work.find_room()?;
        work.put_in_runs(&text[12 - needed..], false)
    })
}

#[inline(never)]
pub fn get_string(
    file: &mut File,
    book: &mut Book,
    terminators: &[u8],
    output: &mut [u8],
    row: &[u32],
) -> Outcome {
    let mut count = 0;
    let step = |work: &mut Work| work.get_in_runs(terminators, output, &mut count);
    let outcome = transfer(Mood::Reading, file, book, row, step, |stop, outcome| {
        outcome.stop = stop as u8
    });
    Outcome { count, ..outcome }
}
