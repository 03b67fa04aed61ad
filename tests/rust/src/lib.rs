//! The character transput of ALGOL 68, proved: a safe wrapper of the C interface, include/transput.h.
//!
//! A [`Book`] owns the memory that the library works on, and a [`File`] is the record that is open on it. Nothing has to be
//! promised by the caller: what is bad is refused with a [`Refusal`].
//!
//! ```
//! use transput::{Answer, Book, File, Refusal, Rights, Shape, Stop, View};
//!
//! let shape = Shape { pages: 2, lines: 3, characters: 8 };
//! let rights = Rights { get: true, put: true, set: false, reset: true, compress: true };
//! let mut book = Book::new(shape);
//! let mut file = File::new(shape, rights);
//! file.establish(&mut book).done()?;
//!
//! // The address does not fit on its line: what was stored stays, and the rest is not stored.
//! let put = file.put_string(&mut book, b"10.20.30.4", &[]);
//! assert_eq!(put.refusal, Some(Refusal::StringDoesNotFit));
//! assert_eq!(file.line_view(&book, 1, 1, b"(blank)")?, View::Line(b"10.20.30"));
//!
//! // With the Report's split the rest goes to the next line.
//! file.split(&book).done()?;
//! file.put_string(&mut book, b".4", &[]).done()?;
//! assert_eq!(file.line_view(&book, 1, 2, b"(blank)")?, View::Line(b".4"));
//!
//! // The address stands on two lines: a newline as the answer to the line's end goes on with it.
//! file.reset(&book).done()?;
//! let mut output = [0; 20];
//! let got = file.get_string(&mut book, b"", &mut output, &[Answer::Newline.word()]).done()?;
//! assert_eq!(&output[..got.count], b"10.20.30.4");
//! assert_eq!(got.stop, Some(Stop::FileEnded));
//! # Ok::<(), transput::Refusal>(())
//! ```
//!
//! Two books, each with its record, can be compared:
//!
//! ```
//! use transput::{Book, File, Rights, Shape, Span};
//!
//! let shape = Shape { pages: 1, lines: 2, characters: 12 };
//! let rights = Rights { get: true, put: true, ..Rights::default() };
//! let render = |title: &[u8]| {
//!     let (mut file, mut book) = (File::new(shape, rights), Book::new(shape));
//!     file.establish(&mut book).done()?;
//!     file.put_string(&mut book, title, &[]).done()?;
//!     Ok::<(File, Book), transput::Refusal>((file, book))
//! };
//! let (before, after) = (render(b"My page")?, render(b"My pages")?);
//! let spans = before.0.differences(&before.1, &after.0, &after.1)?;
//! assert_eq!(spans, [Span { page: 1, line: 1, first: 8, last: 8 }]);
//! # Ok::<(), transput::Refusal>(())
//! ```
#![deny(unsafe_code)]

#[allow(unsafe_code)]
pub mod calls;
pub mod declarations;
mod results;

use declarations::Differences;
pub use declarations::{CallResult, File, Position, Rights, Shape, Span};
pub use results::{Answer, Event, Given, Outcome, Refusal, Signalled, Stop, View};

impl Position {
    /// The place (1, 1, 1).
    pub const START: Position = Position::new(1, 1, 1);

    pub const fn new(page: usize, line: usize, character: usize) -> Position {
        Position {
            page,
            line,
            character,
        }
    }
}

impl Shape {
    /// Whether a book may have this shape.
    pub fn is_good(self) -> bool {
        let sides = [self.pages, self.lines, self.characters];
        sides.iter().all(|side| (1..=255).contains(side))
            && self.pages * self.lines <= 1_024
            && self.pages * self.lines * self.characters <= 65_536
    }
}

/// A book: its characters, its line lengths, its page lengths and its logical end. They are open, so that any book can be made, a
/// bad one too.
#[derive(Clone, PartialEq, Eq, Debug)]
pub struct Book {
    pub text: Vec<u8>,
    pub lines: Vec<u8>,
    pub pages: Vec<u8>,
    pub end: Position,
}

impl Book {
    /// Memory for a book of this shape, to be established. A shape that breaks the rules gets none, and every call refuses it.
    pub fn new(shape: Shape) -> Book {
        let (pages, lines, characters) = if shape.is_good() {
            (shape.pages, shape.lines, shape.characters)
        } else {
            (0, 0, 0)
        };
        Book {
            text: vec![b' '; pages * lines * characters],
            lines: vec![0; pages * lines],
            pages: vec![0; pages],
            end: Position::START,
        }
    }

    /// Keeps the logical end that a call handed back.
    fn after(&mut self, result: CallResult) -> Outcome {
        self.end = result.end;
        result.into()
    }
}

/// Every call of the header. A row is the words of at most 64 answers; see [`Answer::word`].
impl File {
    /// A record that is not open, to be established or opened.
    pub fn new(shape: Shape, rights: Rights) -> File {
        File {
            opened: false,
            reading: false,
            writing: false,
            split: false,
            position: Position::START,
            shape,
            rights,
        }
    }

    /// Establishes a book: every length full, the end and the position (1,1,1), write mood, no split. No character is wiped.
    pub fn establish(&mut self, book: &mut Book) -> Outcome {
        let result = calls::establish(self, book);
        book.after(result)
    }

    /// Opens a book with the logical end that it has.
    pub fn open(&mut self, book: &Book) -> Outcome {
        calls::open(self, book).into()
    }

    /// Closes the record.
    pub fn close(&mut self, book: &Book) -> Outcome {
        calls::close(self, book).into()
    }

    /// Chooses the Report's split for a string that does not fit on its line.
    pub fn split(&mut self, book: &Book) -> Outcome {
        calls::choose(self, book, true).into()
    }

    /// Chooses the refusal for a string that does not fit on its line, as establish and open do.
    pub fn fit(&mut self, book: &Book) -> Outcome {
        calls::choose(self, book, false).into()
    }

    /// Goes to (1,1,1), with the moods by the rights. The choice stays.
    pub fn reset(&mut self, book: &Book) -> Outcome {
        calls::reset(self, book).into()
    }

    /// Goes one character back on the line.
    pub fn backspace(&mut self, book: &Book) -> Outcome {
        calls::backspace(self, book).into()
    }

    /// Puts a character. At a line end the default is a newline.
    pub fn put_character(&mut self, book: &mut Book, byte: u8, row: &[u32]) -> Outcome {
        let result = calls::put_character(self, book, byte, row);
        book.after(result)
    }

    /// Puts the characters of a string in turn; an empty one only turns the mood. Where the line ends before the string, the record's
    /// choice is the default: a newline, or a refusal.
    pub fn put_string(&mut self, book: &mut Book, bytes: &[u8], row: &[u32]) -> Outcome {
        let result = calls::put_string(self, book, bytes, row);
        book.after(result)
    }

    /// Puts an integer in 11 characters, with a blank before it where the line has begun.
    pub fn put_integer(&mut self, book: &mut Book, value: i32, row: &[u32]) -> Outcome {
        let result = calls::put_integer(self, book, value, row);
        book.after(result)
    }

    /// Gets a character.
    pub fn get_character(&mut self, book: &mut Book, row: &[u32]) -> Outcome {
        let result = calls::get_character(self, book, row);
        book.after(result)
    }

    /// Gets a string into the output, up to a stop. The output past the count is untouched.
    pub fn get_string(
        &mut self,
        book: &mut Book,
        terminators: &[u8],
        output: &mut [u8],
        row: &[u32],
    ) -> Outcome {
        let result = calls::get_string(self, book, terminators, output, row);
        book.after(result)
    }

    /// Gets an integer. Nothing is given where it was too large and an answer passed it.
    pub fn get_integer(&mut self, book: &mut Book, row: &[u32]) -> Outcome {
        let result = calls::get_integer(self, book, row);
        book.after(result)
    }

    /// Space: past a character; writing at the logical end, puts a blank.
    pub fn space(&mut self, book: &mut Book, row: &[u32]) -> Outcome {
        let result = calls::space(self, book, row);
        book.after(result)
    }

    /// To the start of the next line.
    pub fn newline(&mut self, book: &mut Book, row: &[u32]) -> Outcome {
        let result = calls::newline(self, book, row);
        book.after(result)
    }

    /// To the start of the next page.
    pub fn newpage(&mut self, book: &mut Book, row: &[u32]) -> Outcome {
        let result = calls::newpage(self, book, row);
        book.after(result)
    }

    /// To a place in the book; beyond the logical end, goes to that end and signals it.
    pub fn set(&mut self, book: &mut Book, to: Position, row: &[u32]) -> Outcome {
        let result = calls::set(self, book, to, row);
        book.after(result)
    }

    /// To a character of the line.
    pub fn set_character_number(&mut self, book: &mut Book, number: usize, row: &[u32]) -> Outcome {
        let result = calls::set_character_number(self, book, number, row);
        book.after(result)
    }

    /// A shown line, up to the logical end, or the marker where it is empty.
    pub fn line_view<'a>(
        &self,
        book: &'a Book,
        page: usize,
        line: usize,
        marker: &'a [u8],
    ) -> Result<View<'a>, Refusal> {
        let place = calls::line_view(self, book, page, line, marker);
        let part = place.from..place.from + place.count;
        match Refusal::of_number(place.number) {
            Some(refusal) => Err(refusal),
            None if place.marker => Ok(View::Marker(&marker[part])),
            None => Ok(View::Line(&book.text[part])),
        }
    }

    /// The number of a line view, asked for apart.
    pub fn view_number(&self, book: &Book, page: usize, line: usize) -> Outcome {
        calls::view_number(self, book, page, line).into()
    }

    /// Every span of a line on which what the two books show differs, in the order of their positions, each as long as it can
    /// be.
    pub fn differences(
        &self,
        book: &Book,
        other_file: &File,
        other_book: &Book,
    ) -> Result<Vec<Span>, Refusal> {
        let count = self.difference_count(book, other_file, other_book)?;
        let mut list = vec![Span::default(); count];
        self.differ(book, other_file, other_book, &mut list)?;
        Ok(list)
    }

    /// The same spans at the start of a lent list: how many they are. The list past them is untouched, and one that is too
    /// short is left as it was.
    pub fn differ(
        &self,
        book: &Book,
        other_file: &File,
        other_book: &Book,
        list: &mut [Span],
    ) -> Result<usize, Refusal> {
        let list = calls::bytes_of(list);
        count_of(calls::differ(self, book, other_file, other_book, list))
    }

    /// How many such spans there are.
    pub fn difference_count(
        &self,
        book: &Book,
        other_file: &File,
        other_book: &Book,
    ) -> Result<usize, Refusal> {
        count_of(calls::difference_count(self, book, other_file, other_book))
    }
}

/// How many spans there are, where a comparison of two books was done.
fn count_of(differences: Differences) -> Result<usize, Refusal> {
    Refusal::of_number(differences.number).map_or(Ok(differences.count), Err)
}

/// whole(value, width), width from -255 to 255, at the start of the output: how many characters were written. The output past
/// them is untouched.
pub fn whole(value: i32, width: i32, output: &mut [u8]) -> Result<usize, Refusal> {
    let wrote = calls::whole(value, width, output);
    Refusal::of_number(wrote.number).map_or(Ok(wrote.count), Err)
}
