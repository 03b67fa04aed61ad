//! The record and the book, laid out as include/transput.h has them, so that every side is lent the same memory.

/// A place in a book. The order of the fields is the order of comparison.
#[repr(C)]
#[derive(Clone, Copy, PartialEq, Eq, PartialOrd, Ord, Debug)]
pub struct Position {
    pub page: usize,
    pub line: usize,
    pub character: usize,
}

impl Position {
    pub const START: Position = Position::new(1, 1, 1);

    pub const fn new(page: usize, line: usize, character: usize) -> Position {
        Position {
            page,
            line,
            character,
        }
    }
}

/// Pages, lines of a page, characters of a line.
#[repr(C)]
#[derive(Clone, Copy, PartialEq, Eq, Debug)]
pub struct Shape {
    pub pages: usize,
    pub lines: usize,
    pub characters: usize,
}

/// The rights of a channel.
#[repr(C)]
#[derive(Clone, Copy, PartialEq, Eq, Debug)]
pub struct Rights {
    pub get: bool,
    pub put: bool,
    pub set: bool,
    pub reset: bool,
    pub compress: bool,
}

/// The file record.
#[repr(C)]
#[derive(Clone, Copy, PartialEq, Eq, Debug)]
pub struct File {
    pub position: Position,
    pub shape: Shape,
    pub opened: bool,
    pub reading: bool,
    pub writing: bool,
    /// Whether a string that does not fit on its line is split there, or refused.
    pub split: bool,
    pub rights: Rights,
}

/// The lent parts of a book, and its logical end.
pub struct Book<'b> {
    pub text: &'b mut [u8],
    pub lines: &'b mut [u8],
    pub pages: &'b mut [u8],
    pub end: Position,
}

/// A record and a book that own what they lend.
#[derive(Clone, PartialEq, Eq, Debug)]
pub struct Scene {
    pub file: File,
    pub end: Position,
    pub text: Vec<u8>,
    pub lines: Vec<u8>,
    pub pages: Vec<u8>,
}

impl Scene {
    /// Lends the record and the book, and keeps the logical end that is left.
    pub fn lend<T>(&mut self, borrow: impl FnOnce(&mut File, &mut Book) -> T) -> T {
        let mut book = Book {
            text: &mut self.text,
            lines: &mut self.lines,
            pages: &mut self.pages,
            end: self.end,
        };
        let given = borrow(&mut self.file, &mut book);
        self.end = book.end;
        given
    }
}
