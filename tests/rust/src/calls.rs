//! Each call of the header over a `Book` and slices, with its result in plain numbers. This is the only module with unsafe code.
//!
//! What the header asks of a caller, and why each call here keeps it:
//! - a record is a whole `File`, and a Rust `bool` is 0 or 1;
//! - every pointer and length come from one slice or vector, so they name memory that may be read, and written where it is
//!   borrowed for writing; an empty one has some pointer, and the header takes any;
//! - what may be written is borrowed for writing, so it overlaps nothing else and no other thread touches it;
//! - the library keeps no pointer, so the borrows may end with the call.

use crate::declarations::*;
use crate::Book;

/// A call that only reads the book. Its own arguments stand before the book, or after it.
macro_rules! reading {
    ($call:ident, $file:ident, $book:ident, [$($before:expr),*], [$($after:expr),*]) => {
        // SAFETY: as this module's comment says.
        unsafe {
            $call(
                $file,
                $book.end,
                $($before,)*
                $book.text.as_ptr(),
                $book.text.len(),
                $book.lines.as_ptr(),
                $book.lines.len(),
                $book.pages.as_ptr(),
                $book.pages.len(),
                $($after,)*
            )
        }
    };
}

/// A call that may write the book and is lent a row of answers. Its own arguments stand before the book.
macro_rules! asking {
    ($call:ident, $file:ident, $book:ident, $row:ident, [$($before:expr),*]) => {
        // SAFETY: as this module's comment says.
        unsafe {
            $call(
                $file,
                $book.end,
                $($before,)*
                $book.text.as_mut_ptr(),
                $book.text.len(),
                $book.lines.as_mut_ptr(),
                $book.lines.len(),
                $book.pages.as_mut_ptr(),
                $book.pages.len(),
                $row.as_ptr(),
                $row.len(),
            )
        }
    };
}

/// A call that only reads two books. Its own arguments stand after them.
macro_rules! comparing {
    ($call:ident, $file:ident, $book:ident, $other_file:ident, $other_book:ident, [$($after:expr),*]) => {
        // SAFETY: as this module's comment says. The two books are only read, so they may be one.
        unsafe {
            $call(
                $file,
                $other_file,
                $book.end,
                $book.text.as_ptr(),
                $book.text.len(),
                $book.lines.as_ptr(),
                $book.lines.len(),
                $book.pages.as_ptr(),
                $book.pages.len(),
                $other_book.end,
                $other_book.text.as_ptr(),
                $other_book.text.len(),
                $other_book.lines.as_ptr(),
                $other_book.lines.len(),
                $other_book.pages.as_ptr(),
                $other_book.pages.len(),
                $($after,)*
            )
        }
    };
}

/// The only call that writes the lengths and is lent no row.
pub fn establish(file: &mut File, book: &mut Book) -> CallResult {
    // SAFETY: as this module's comment says.
    unsafe {
        transput_establish(
            file,
            book.end,
            book.text.as_ptr(),
            book.text.len(),
            book.lines.as_mut_ptr(),
            book.lines.len(),
            book.pages.as_mut_ptr(),
            book.pages.len(),
        )
    }
}

pub fn open(file: &mut File, book: &Book) -> CallResult {
    reading!(transput_open, file, book, [], [])
}

pub fn close(file: &mut File, book: &Book) -> CallResult {
    reading!(transput_close, file, book, [], [])
}

pub fn choose(file: &mut File, book: &Book, split: bool) -> CallResult {
    reading!(transput_choose, file, book, [split], [])
}

pub fn reset(file: &mut File, book: &Book) -> CallResult {
    reading!(transput_reset, file, book, [], [])
}

pub fn backspace(file: &mut File, book: &Book) -> CallResult {
    reading!(transput_backspace, file, book, [], [])
}

pub fn put_character(file: &mut File, book: &mut Book, byte: u8, row: &[u32]) -> CallResult {
    asking!(transput_put_character, file, book, row, [byte])
}

pub fn put_string(file: &mut File, book: &mut Book, bytes: &[u8], row: &[u32]) -> CallResult {
    let (start, length) = (bytes.as_ptr(), bytes.len());
    asking!(transput_put_string, file, book, row, [start, length])
}

pub fn put_integer(file: &mut File, book: &mut Book, value: i32, row: &[u32]) -> CallResult {
    asking!(transput_put_integer, file, book, row, [value])
}

pub fn get_character(file: &mut File, book: &mut Book, row: &[u32]) -> CallResult {
    asking!(transput_get_character, file, book, row, [])
}

pub fn get_string(
    file: &mut File,
    book: &mut Book,
    terminators: &[u8],
    output: &mut [u8],
    row: &[u32],
) -> CallResult {
    let (stops, stops_length) = (terminators.as_ptr(), terminators.len());
    let (start, length) = (output.as_mut_ptr(), output.len());
    asking!(
        transput_get_string,
        file,
        book,
        row,
        [stops, stops_length, start, length]
    )
}

pub fn get_integer(file: &mut File, book: &mut Book, row: &[u32]) -> CallResult {
    asking!(transput_get_integer, file, book, row, [])
}

pub fn space(file: &mut File, book: &mut Book, row: &[u32]) -> CallResult {
    asking!(transput_space, file, book, row, [])
}

pub fn newline(file: &mut File, book: &mut Book, row: &[u32]) -> CallResult {
    asking!(transput_newline, file, book, row, [])
}

pub fn newpage(file: &mut File, book: &mut Book, row: &[u32]) -> CallResult {
    asking!(transput_newpage, file, book, row, [])
}

pub fn set(file: &mut File, book: &mut Book, to: Position, row: &[u32]) -> CallResult {
    asking!(transput_set, file, book, row, [to])
}

pub fn set_character_number(
    file: &mut File,
    book: &mut Book,
    number: usize,
    row: &[u32],
) -> CallResult {
    asking!(transput_set_character_number, file, book, row, [number])
}

pub fn line_view(file: &File, book: &Book, page: usize, line: usize, marker: &[u8]) -> ViewPlace {
    let (start, length) = (marker.as_ptr(), marker.len());
    reading!(
        transput_line_view,
        file,
        book,
        [page, line],
        [start, length]
    )
}

pub fn view_number(file: &File, book: &Book, page: usize, line: usize) -> CallResult {
    reading!(transput_view_number, file, book, [page, line], [])
}

/// Writes the spans to a list of bytes, four a span.
pub fn differ(
    file: &File,
    book: &Book,
    other_file: &File,
    other_book: &Book,
    list: &mut [u8],
) -> Differences {
    let (start, length) = (list.as_mut_ptr(), list.len());
    comparing!(
        transput_differ,
        file,
        book,
        other_file,
        other_book,
        [start, length]
    )
}

pub fn difference_count(
    file: &File,
    book: &Book,
    other_file: &File,
    other_book: &Book,
) -> Differences {
    comparing!(
        transput_difference_count,
        file,
        book,
        other_file,
        other_book,
        []
    )
}

/// A list of spans as the bytes that the library writes.
pub fn bytes_of(list: &mut [Span]) -> &mut [u8] {
    let length = std::mem::size_of_val(list);
    // SAFETY: a span is four bytes and nothing between them, any bytes make one, and the list stays borrowed for writing.
    unsafe { std::slice::from_raw_parts_mut(list.as_mut_ptr().cast(), length) }
}

pub fn whole(value: i32, width: i32, output: &mut [u8]) -> Wrote {
    // SAFETY: as this module's comment says.
    unsafe { transput_whole(value, width, output.as_mut_ptr(), output.len()) }
}
