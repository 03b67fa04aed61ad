//! The declarations of include/transput.h, one for one: fields, parameters and their order are the header's. Nothing but the
//! tests compares the two, and they do it with what a C compiler makes of the header.

/// A page, line and character, each counted from 1. The order of the fields is the order of comparison.
#[repr(C)]
#[derive(Clone, Copy, PartialEq, Eq, PartialOrd, Ord, Debug)]
pub struct Position {
    pub page: usize,
    pub line: usize,
    pub character: usize,
}

/// The established shape of a book: pages, lines of a page, characters of a line.
#[repr(C)]
#[derive(Clone, Copy, PartialEq, Eq, Debug)]
pub struct Shape {
    pub pages: usize,
    pub lines: usize,
    pub characters: usize,
}

/// The rights of a channel.
#[repr(C)]
#[derive(Clone, Copy, PartialEq, Eq, Debug, Default)]
pub struct Rights {
    pub get: bool,
    pub put: bool,
    pub set: bool,
    pub reset: bool,
    pub compress: bool,
}

/// The file record. Its fields are open, so that any record can be made, a bad one too; a flag is a `bool` in any case.
#[repr(C)]
#[derive(Clone, Copy, PartialEq, Eq, Debug)]
pub struct File {
    pub position: Position,
    pub shape: Shape,
    pub opened: bool,
    /// Read mood.
    pub reading: bool,
    /// Write mood.
    pub writing: bool,
    /// Whether a string that does not fit on its line is split there, as the Report has it, or refused.
    pub split: bool,
    pub rights: Rights,
}

/// The header's `transput_result`.
#[repr(C)]
#[derive(Clone, Copy, PartialEq, Eq, Debug)]
pub struct CallResult {
    pub number: u8,
    pub stop: u8,
    pub given: u8,
    pub event: u8,
    pub value: i32,
    pub events: usize,
    pub taken: usize,
    pub count: usize,
    pub end: Position,
    pub signalled: Position,
}

/// The header's `transput_view`.
#[repr(C)]
#[derive(Clone, Copy, PartialEq, Eq, Debug)]
pub struct ViewPlace {
    pub number: u8,
    pub marker: bool,
    pub from: usize,
    pub count: usize,
}

/// The header's `transput_wrote`.
#[repr(C)]
#[derive(Clone, Copy, PartialEq, Eq, Debug)]
pub struct Wrote {
    pub number: u8,
    pub count: usize,
}

/// A span of one line on which two books differ. A line that only one book shows is one span from 1, ending at 0 where it is
/// empty. The order of the fields is the order of comparison.
#[repr(C)]
#[derive(Clone, Copy, PartialEq, Eq, PartialOrd, Ord, Debug, Default)]
pub struct Span {
    pub page: u8,
    pub line: u8,
    /// The first character.
    pub first: u8,
    /// The last character.
    pub last: u8,
}

/// The header's `transput_differences`.
#[repr(C)]
#[derive(Clone, Copy, PartialEq, Eq, Debug)]
pub struct Differences {
    pub number: u8,
    pub count: usize,
}

extern "C" {
    pub fn transput_establish(
        file: *mut File,
        end: Position,
        text: *const u8,
        text_length: usize,
        lines: *mut u8,
        lines_length: usize,
        pages: *mut u8,
        pages_length: usize,
    ) -> CallResult;

    pub fn transput_open(
        file: *mut File,
        end: Position,
        text: *const u8,
        text_length: usize,
        lines: *const u8,
        lines_length: usize,
        pages: *const u8,
        pages_length: usize,
    ) -> CallResult;

    pub fn transput_close(
        file: *mut File,
        end: Position,
        text: *const u8,
        text_length: usize,
        lines: *const u8,
        lines_length: usize,
        pages: *const u8,
        pages_length: usize,
    ) -> CallResult;

    pub fn transput_choose(
        file: *mut File,
        end: Position,
        split: bool,
        text: *const u8,
        text_length: usize,
        lines: *const u8,
        lines_length: usize,
        pages: *const u8,
        pages_length: usize,
    ) -> CallResult;

    pub fn transput_reset(
        file: *mut File,
        end: Position,
        text: *const u8,
        text_length: usize,
        lines: *const u8,
        lines_length: usize,
        pages: *const u8,
        pages_length: usize,
    ) -> CallResult;

    pub fn transput_backspace(
        file: *mut File,
        end: Position,
        text: *const u8,
        text_length: usize,
        lines: *const u8,
        lines_length: usize,
        pages: *const u8,
        pages_length: usize,
    ) -> CallResult;

    pub fn transput_put_character(
        file: *mut File,
        end: Position,
        b: u8,
        text: *mut u8,
        text_length: usize,
        lines: *mut u8,
        lines_length: usize,
        pages: *mut u8,
        pages_length: usize,
        row: *const u32,
        row_length: usize,
    ) -> CallResult;

    pub fn transput_put_string(
        file: *mut File,
        end: Position,
        bytes: *const u8,
        bytes_length: usize,
        text: *mut u8,
        text_length: usize,
        lines: *mut u8,
        lines_length: usize,
        pages: *mut u8,
        pages_length: usize,
        row: *const u32,
        row_length: usize,
    ) -> CallResult;

    pub fn transput_put_integer(
        file: *mut File,
        end: Position,
        v: i32,
        text: *mut u8,
        text_length: usize,
        lines: *mut u8,
        lines_length: usize,
        pages: *mut u8,
        pages_length: usize,
        row: *const u32,
        row_length: usize,
    ) -> CallResult;

    pub fn transput_get_character(
        file: *mut File,
        end: Position,
        text: *mut u8,
        text_length: usize,
        lines: *mut u8,
        lines_length: usize,
        pages: *mut u8,
        pages_length: usize,
        row: *const u32,
        row_length: usize,
    ) -> CallResult;

    pub fn transput_get_string(
        file: *mut File,
        end: Position,
        terminators: *const u8,
        terminators_length: usize,
        output: *mut u8,
        output_length: usize,
        text: *mut u8,
        text_length: usize,
        lines: *mut u8,
        lines_length: usize,
        pages: *mut u8,
        pages_length: usize,
        row: *const u32,
        row_length: usize,
    ) -> CallResult;

    pub fn transput_get_integer(
        file: *mut File,
        end: Position,
        text: *mut u8,
        text_length: usize,
        lines: *mut u8,
        lines_length: usize,
        pages: *mut u8,
        pages_length: usize,
        row: *const u32,
        row_length: usize,
    ) -> CallResult;

    pub fn transput_space(
        file: *mut File,
        end: Position,
        text: *mut u8,
        text_length: usize,
        lines: *mut u8,
        lines_length: usize,
        pages: *mut u8,
        pages_length: usize,
        row: *const u32,
        row_length: usize,
    ) -> CallResult;

    pub fn transput_newline(
        file: *mut File,
        end: Position,
        text: *mut u8,
        text_length: usize,
        lines: *mut u8,
        lines_length: usize,
        pages: *mut u8,
        pages_length: usize,
        row: *const u32,
        row_length: usize,
    ) -> CallResult;

    pub fn transput_newpage(
        file: *mut File,
        end: Position,
        text: *mut u8,
        text_length: usize,
        lines: *mut u8,
        lines_length: usize,
        pages: *mut u8,
        pages_length: usize,
        row: *const u32,
        row_length: usize,
    ) -> CallResult;

    pub fn transput_set(
        file: *mut File,
        end: Position,
        to: Position,
        text: *mut u8,
        text_length: usize,
        lines: *mut u8,
        lines_length: usize,
        pages: *mut u8,
        pages_length: usize,
        row: *const u32,
        row_length: usize,
    ) -> CallResult;

    pub fn transput_set_character_number(
        file: *mut File,
        end: Position,
        n: usize,
        text: *mut u8,
        text_length: usize,
        lines: *mut u8,
        lines_length: usize,
        pages: *mut u8,
        pages_length: usize,
        row: *const u32,
        row_length: usize,
    ) -> CallResult;

    pub fn transput_line_view(
        file: *const File,
        end: Position,
        page: usize,
        line: usize,
        text: *const u8,
        text_length: usize,
        lines: *const u8,
        lines_length: usize,
        pages: *const u8,
        pages_length: usize,
        marker: *const u8,
        marker_length: usize,
    ) -> ViewPlace;

    pub fn transput_view_number(
        file: *const File,
        end: Position,
        page: usize,
        line: usize,
        text: *const u8,
        text_length: usize,
        lines: *const u8,
        lines_length: usize,
        pages: *const u8,
        pages_length: usize,
    ) -> CallResult;

    pub fn transput_differ(
        file: *const File,
        other_file: *const File,
        end: Position,
        text: *const u8,
        text_length: usize,
        lines: *const u8,
        lines_length: usize,
        pages: *const u8,
        pages_length: usize,
        other_end: Position,
        other_text: *const u8,
        other_text_length: usize,
        other_lines: *const u8,
        other_lines_length: usize,
        other_pages: *const u8,
        other_pages_length: usize,
        list: *mut u8,
        list_length: usize,
    ) -> Differences;

    pub fn transput_difference_count(
        file: *const File,
        other_file: *const File,
        end: Position,
        text: *const u8,
        text_length: usize,
        lines: *const u8,
        lines_length: usize,
        pages: *const u8,
        pages_length: usize,
        other_end: Position,
        other_text: *const u8,
        other_text_length: usize,
        other_lines: *const u8,
        other_lines_length: usize,
        other_pages: *const u8,
        other_pages_length: usize,
    ) -> Differences;

    pub fn transput_whole(v: i32, w: i32, output: *mut u8, output_length: usize) -> Wrote;
}
