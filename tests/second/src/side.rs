//! One side of a script: a record and a book, with the room that the player keeps for its parts.

use crate::book::{Book, File, Position, Rights, Shape};
use crate::replay::{LINES_ROOM, PAGES_ROOM, TEXT_ROOM};

/// A record and a book. The lent sizes say how much of the room the book has.
pub struct Side {
    pub file: File,
    pub logical_end: Position,
    pub lent: (usize, usize, usize),
    pub line_lengths: Vec<u8>,
    pub page_lengths: Vec<u8>,
    pub text: Vec<u8>,
}

impl Default for Side {
    fn default() -> Side {
        Side::new()
    }
}

impl Side {
    /// "At the start: shape 2 3 8, rights `gprc`, lent sizes 48, 6, 2, every length and byte of
    /// the book 0, logical end 1 1 1, record not open, no moods, position 1 1 1, no answers." The
    /// choice of C-14 "is 0 at the start".
    pub fn new() -> Side {
        let file = File {
            opened: false,
            read_mood: false,
            write_mood: false,
            position: Position::START,
            shape: Shape {
                pages: 2,
                lines: 3,
                characters: 8,
            },
            rights: Rights {
                get: true,
                put: true,
                set: false,
                reset: true,
                compress: true,
            },
            split: false,
        };
        Side {
            file,
            logical_end: Position::START,
            lent: (48, 6, 2),
            line_lengths: vec![0; LINES_ROOM],
            page_lengths: vec![0; PAGES_ROOM],
            text: vec![0; TEXT_ROOM],
        }
    }

    /// Lends the record and the lent parts of the book for one question or call.
    pub fn lend<T>(&mut self, use_of_it: impl FnOnce(&mut File, &mut Book) -> T) -> T {
        let (text, lines, pages) = self.lent;
        let mut book = Book {
            text: self.text.get_mut(..text).unwrap_or_default(),
            line_lengths: self.line_lengths.get_mut(..lines).unwrap_or_default(),
            page_lengths: self.page_lengths.get_mut(..pages).unwrap_or_default(),
            logical_end: self.logical_end,
        };
        let given = use_of_it(&mut self.file, &mut book);
        self.logical_end = book.logical_end;
        given
    }

    /// The lent parts with their names, in the order of a dump.
    pub fn lent_parts(&self) -> [(&'static str, &[u8]); 3] {
        let (text, lines, pages) = self.lent;
        [
            ("lines", self.line_lengths.get(..lines).unwrap_or_default()),
            ("pages", self.page_lengths.get(..pages).unwrap_or_default()),
            ("text", self.text.get(..text).unwrap_or_default()),
        ]
    }
}
