//! What every side offers: the calls of document 01, each with a result of the side's own kind, so that no time goes into turning one
//! kind into another.

use crate::book::{Book, File, Position};

/// A result as all sides can tell it.
#[derive(Clone, PartialEq, Eq, Debug, Default)]
pub struct Told {
    pub number: u8,
    pub stop: u8,
    /// The number of the event that a refusal ended in, and where it was signalled.
    pub event: u8,
    pub signalled: Option<Position>,
    pub given: u8,
    pub value: i32,
    pub events: usize,
    pub taken: usize,
    pub count: usize,
}

pub trait Layer {
    const NAME: &'static str;
    type Result;
    type View<'v>;

    fn establish(file: &mut File, book: &mut Book) -> Self::Result;
    fn open(file: &mut File, book: &mut Book) -> Self::Result;
    fn close(file: &mut File, book: &mut Book) -> Self::Result;
    fn choose(file: &mut File, book: &mut Book, split: bool) -> Self::Result;
    fn reset(file: &mut File, book: &mut Book) -> Self::Result;
    fn backspace(file: &mut File, book: &mut Book) -> Self::Result;
    fn put_character(file: &mut File, book: &mut Book, byte: u8, row: &[u32]) -> Self::Result;
    fn put_string(file: &mut File, book: &mut Book, bytes: &[u8], row: &[u32]) -> Self::Result;
    fn put_integer(file: &mut File, book: &mut Book, value: i32, row: &[u32]) -> Self::Result;
    fn get_character(file: &mut File, book: &mut Book, row: &[u32]) -> Self::Result;
    fn get_string(
        file: &mut File,
        book: &mut Book,
        terminators: &[u8],
        output: &mut [u8],
        row: &[u32],
    ) -> Self::Result;
    fn get_integer(file: &mut File, book: &mut Book, row: &[u32]) -> Self::Result;
    fn space(file: &mut File, book: &mut Book, row: &[u32]) -> Self::Result;
    fn newline(file: &mut File, book: &mut Book, row: &[u32]) -> Self::Result;
    fn newpage(file: &mut File, book: &mut Book, row: &[u32]) -> Self::Result;
    fn set(file: &mut File, book: &mut Book, to: Position, row: &[u32]) -> Self::Result;
    fn set_character_number(
        file: &mut File,
        book: &mut Book,
        number: usize,
        row: &[u32],
    ) -> Self::Result;
    fn line_view<'v>(
        file: &File,
        book: &'v Book,
        page: usize,
        line: usize,
        marker: &'v [u8],
    ) -> Self::View<'v>;

    /// The number of a line view, asked for apart.
    fn view_number(file: &File, book: &Book, page: usize, line: usize) -> u8;
    /// The number of whole, and how many characters it wrote.
    fn whole(value: i32, width: i32, output: &mut [u8]) -> (u8, usize);

    /// A result of this side as all can tell it.
    fn told(result: &Self::Result) -> Told;
    /// The number of a view of this side, and its characters.
    fn shown<'v>(view: Self::View<'v>, book: &'v Book, marker: &'v [u8]) -> (u8, &'v [u8]);
}
