//! The proved library, called as C calls it.

use crate::book::{Book, File, Position};
use crate::layer::{Layer, Told};

/// transput_result of the header.
#[repr(C)]
pub struct CallResult {
    number: u8,
    stop: u8,
    given: u8,
    event: u8,
    value: i32,
    events: usize,
    taken: usize,
    count: usize,
    end: Position,
    signalled: Position,
}

/// transput_view of the header.
#[repr(C)]
pub struct ViewPlace {
    number: u8,
    marker: bool,
    from: usize,
    count: usize,
}

/// transput_wrote of the header.
#[repr(C)]
struct Wrote {
    number: u8,
    count: usize,
}

/// Declares calls with the arguments that all of them have: the record, the end, arguments of their own, the three lent parts.
macro_rules! declare {
    ($($name:ident($file:ty $(, $own:ty)*; $text:ty, $lengths:ty $(, $after:ty)*) -> $result:ty;)*) => {
        extern "C" {
            $(fn $name(
                file: $file,
                end: Position,
                $(_: $own,)*
                text: $text,
                text_length: usize,
                lines: $lengths,
                lines_length: usize,
                pages: $lengths,
                pages_length: usize
                $(, _: $after)*
            ) -> $result;)*
        }
    };
}

declare! {
    transput_establish(*mut File; *const u8, *mut u8) -> CallResult;
    transput_open(*mut File; *const u8, *const u8) -> CallResult;
    transput_close(*mut File; *const u8, *const u8) -> CallResult;
    transput_choose(*mut File, bool; *const u8, *const u8) -> CallResult;
    transput_reset(*mut File; *const u8, *const u8) -> CallResult;
    transput_backspace(*mut File; *const u8, *const u8) -> CallResult;
    transput_put_character(*mut File, u8; *mut u8, *mut u8, *const u32, usize) -> CallResult;
    transput_put_string(*mut File, *const u8, usize; *mut u8, *mut u8, *const u32, usize) -> CallResult;
    transput_put_integer(*mut File, i32; *mut u8, *mut u8, *const u32, usize) -> CallResult;
    transput_get_character(*mut File; *mut u8, *mut u8, *const u32, usize) -> CallResult;
    transput_get_string(*mut File, *const u8, usize, *mut u8, usize; *mut u8, *mut u8, *const u32, usize) -> CallResult;
    transput_get_integer(*mut File; *mut u8, *mut u8, *const u32, usize) -> CallResult;
    transput_space(*mut File; *mut u8, *mut u8, *const u32, usize) -> CallResult;
    transput_newline(*mut File; *mut u8, *mut u8, *const u32, usize) -> CallResult;
    transput_newpage(*mut File; *mut u8, *mut u8, *const u32, usize) -> CallResult;
    transput_set(*mut File, Position; *mut u8, *mut u8, *const u32, usize) -> CallResult;
    transput_set_character_number(*mut File, usize; *mut u8, *mut u8, *const u32, usize) -> CallResult;
    transput_line_view(*const File, usize, usize; *const u8, *const u8, *const u8, usize) -> ViewPlace;
    transput_view_number(*const File, usize, usize; *const u8, *const u8) -> CallResult;
}

extern "C" {
    fn transput_whole(v: i32, w: i32, output: *mut u8, output_length: usize) -> Wrote;
}

/// A call that changes no characters: its arguments, and the end kept for the next one. What the header asks of the caller holds, since
/// references to the record and to each part are whole and overlap nothing.
macro_rules! plain {
    ($name:ident, $file:expr, $book:expr $(, $own:expr)*) => {{
        let book: &mut Book = $book;
        let (text, lines, pages) = (&mut *book.text, &mut *book.lines, &mut *book.pages);
        let result = unsafe {
            $name(
                $file,
                book.end,
                $($own,)*
                text.as_ptr(),
                text.len(),
                lines.as_mut_ptr(),
                lines.len(),
                pages.as_mut_ptr(),
                pages.len(),
            )
        };
        book.end = result.end;
        result
    }};
}

/// A call that lends answers, in the same way.
macro_rules! asking {
    ($name:ident, $file:expr, $book:expr, $row:expr $(, $own:expr)*) => {{
        let book: &mut Book = $book;
        let (text, lines, pages) = (&mut *book.text, &mut *book.lines, &mut *book.pages);
        let result = unsafe {
            $name(
                $file,
                book.end,
                $($own,)*
                text.as_mut_ptr(),
                text.len(),
                lines.as_mut_ptr(),
                lines.len(),
                pages.as_mut_ptr(),
                pages.len(),
                $row.as_ptr(),
                $row.len(),
            )
        };
        book.end = result.end;
        result
    }};
}

/// A call that only reads the record and the book.
macro_rules! viewing {
    ($name:ident, $file:expr, $book:expr, $page:expr, $line:expr $(, $after:expr)*) => {
        unsafe {
            $name(
                $file,
                $book.end,
                $page,
                $line,
                $book.text.as_ptr(),
                $book.text.len(),
                $book.lines.as_ptr(),
                $book.lines.len(),
                $book.pages.as_ptr(),
                $book.pages.len()
                $(, $after)*
            )
        }
    };
}

pub struct Ours;

impl Layer for Ours {
    const NAME: &'static str = "ours";
    type Result = CallResult;
    type View<'v> = ViewPlace;

    fn establish(file: &mut File, book: &mut Book) -> CallResult {
        plain!(transput_establish, file, book)
    }

    fn open(file: &mut File, book: &mut Book) -> CallResult {
        plain!(transput_open, file, book)
    }

    fn close(file: &mut File, book: &mut Book) -> CallResult {
        plain!(transput_close, file, book)
    }

    fn choose(file: &mut File, book: &mut Book, split: bool) -> CallResult {
        plain!(transput_choose, file, book, split)
    }

    fn reset(file: &mut File, book: &mut Book) -> CallResult {
        plain!(transput_reset, file, book)
    }

    fn backspace(file: &mut File, book: &mut Book) -> CallResult {
        plain!(transput_backspace, file, book)
    }

    fn put_character(file: &mut File, book: &mut Book, byte: u8, row: &[u32]) -> CallResult {
        asking!(transput_put_character, file, book, row, byte)
    }

    fn put_string(file: &mut File, book: &mut Book, bytes: &[u8], row: &[u32]) -> CallResult {
        asking!(
            transput_put_string,
            file,
            book,
            row,
            bytes.as_ptr(),
            bytes.len()
        )
    }

    fn put_integer(file: &mut File, book: &mut Book, value: i32, row: &[u32]) -> CallResult {
        asking!(transput_put_integer, file, book, row, value)
    }

    fn get_character(file: &mut File, book: &mut Book, row: &[u32]) -> CallResult {
        asking!(transput_get_character, file, book, row)
    }

    fn get_string(
        file: &mut File,
        book: &mut Book,
        terminators: &[u8],
        output: &mut [u8],
        row: &[u32],
    ) -> CallResult {
        let (ends, count) = (terminators.as_ptr(), terminators.len());
        asking!(
            transput_get_string,
            file,
            book,
            row,
            ends,
            count,
            output.as_mut_ptr(),
            output.len()
        )
    }

    fn get_integer(file: &mut File, book: &mut Book, row: &[u32]) -> CallResult {
        asking!(transput_get_integer, file, book, row)
    }

    fn space(file: &mut File, book: &mut Book, row: &[u32]) -> CallResult {
        asking!(transput_space, file, book, row)
    }

    fn newline(file: &mut File, book: &mut Book, row: &[u32]) -> CallResult {
        asking!(transput_newline, file, book, row)
    }

    fn newpage(file: &mut File, book: &mut Book, row: &[u32]) -> CallResult {
        asking!(transput_newpage, file, book, row)
    }

    fn set(file: &mut File, book: &mut Book, to: Position, row: &[u32]) -> CallResult {
        asking!(transput_set, file, book, row, to)
    }

    fn set_character_number(
        file: &mut File,
        book: &mut Book,
        number: usize,
        row: &[u32],
    ) -> CallResult {
        asking!(transput_set_character_number, file, book, row, number)
    }

    fn line_view<'v>(
        file: &File,
        book: &'v Book,
        page: usize,
        line: usize,
        marker: &'v [u8],
    ) -> ViewPlace {
        viewing!(
            transput_line_view,
            file,
            book,
            page,
            line,
            marker.as_ptr(),
            marker.len()
        )
    }

    fn view_number(file: &File, book: &Book, page: usize, line: usize) -> u8 {
        viewing!(transput_view_number, file, book, page, line).number
    }

    fn whole(value: i32, width: i32, output: &mut [u8]) -> (u8, usize) {
        let wrote = unsafe { transput_whole(value, width, output.as_mut_ptr(), output.len()) };
        (wrote.number, wrote.count)
    }

    fn told(result: &CallResult) -> Told {
        Told {
            number: result.number,
            stop: result.stop,
            event: result.event,
            signalled: (result.event != 0).then_some(result.signalled),
            given: result.given,
            value: result.value,
            events: result.events,
            taken: result.taken,
            count: result.count,
        }
    }

    fn shown<'v>(view: ViewPlace, book: &'v Book, marker: &'v [u8]) -> (u8, &'v [u8]) {
        let whole = if view.marker { marker } else { &*book.text };
        (view.number, &whole[view.from..view.from + view.count])
    }
}
