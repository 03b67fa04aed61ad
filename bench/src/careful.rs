//! The rules a second time, as a careful Rust programmer writes them for speed: record and book by reference, slices, no allocation, a
//! quick test whether the line is good before each character. `Careful<false>` puts and gets strings one character after the other, as
//! the rules have it; `Careful<true>` copies whole runs of printable characters.

mod calls;
mod characters;
mod events;
mod integers;
mod places;
mod runs;

use crate::book::{Book, File, Position};
use crate::layer::{Layer, Told};
use calls::{Given, Outcome};
use places::Refusal;

pub struct Careful<const IN_RUNS: bool>;

impl<const IN_RUNS: bool> Layer for Careful<IN_RUNS> {
    const NAME: &'static str = if IN_RUNS {
        "careful, in runs"
    } else {
        "careful"
    };
    type Result = Outcome;
    type View<'v> = Result<&'v [u8], Refusal>;

    fn establish(file: &mut File, book: &mut Book) -> Outcome {
        calls::establish(file, book)
    }

    fn open(file: &mut File, book: &mut Book) -> Outcome {
        calls::open(file, book)
    }

    fn close(file: &mut File, book: &mut Book) -> Outcome {
        calls::close(file, book)
    }

    fn choose(file: &mut File, book: &mut Book, split: bool) -> Outcome {
        calls::choose(file, book, split)
    }

    fn reset(file: &mut File, book: &mut Book) -> Outcome {
        calls::reset(file, book)
    }

    fn backspace(file: &mut File, book: &mut Book) -> Outcome {
        calls::backspace(file, book)
    }

    fn put_character(file: &mut File, book: &mut Book, byte: u8, row: &[u32]) -> Outcome {
        calls::put_character(file, book, byte, row)
    }

    fn put_string(file: &mut File, book: &mut Book, bytes: &[u8], row: &[u32]) -> Outcome {
        if IN_RUNS {
            runs::put_string(file, book, bytes, row)
        } else {
            calls::put_string(file, book, bytes, row)
        }
    }

    fn put_integer(file: &mut File, book: &mut Book, value: i32, row: &[u32]) -> Outcome {
        if IN_RUNS {
            runs::put_integer(file, book, value, row)
        } else {
            calls::put_integer(file, book, value, row)
        }
    }

    fn get_character(file: &mut File, book: &mut Book, row: &[u32]) -> Outcome {
        calls::get_character(file, book, row)
    }

    fn get_string(
        file: &mut File,
        book: &mut Book,
        terminators: &[u8],
        output: &mut [u8],
        row: &[u32],
    ) -> Outcome {
        if IN_RUNS {
            runs::get_string(file, book, terminators, output, row)
        } else {
            calls::get_string(file, book, terminators, output, row)
        }
    }

    fn get_integer(file: &mut File, book: &mut Book, row: &[u32]) -> Outcome {
        calls::get_integer(file, book, row)
    }

    fn space(file: &mut File, book: &mut Book, row: &[u32]) -> Outcome {
        calls::space(file, book, row)
    }

    fn newline(file: &mut File, book: &mut Book, row: &[u32]) -> Outcome {
        calls::newline(file, book, row)
    }

    fn newpage(file: &mut File, book: &mut Book, row: &[u32]) -> Outcome {
        calls::newpage(file, book, row)
    }

    fn set(file: &mut File, book: &mut Book, to: Position, row: &[u32]) -> Outcome {
        calls::set(file, book, to, row)
    }

    fn set_character_number(
        file: &mut File,
        book: &mut Book,
        number: usize,
        row: &[u32],
    ) -> Outcome {
        calls::set_character_number(file, book, number, row)
    }

    fn line_view<'v>(
        file: &File,
        book: &'v Book,
        page: usize,
        line: usize,
        marker: &'v [u8],
    ) -> Result<&'v [u8], Refusal> {
        calls::line_view(file, book, page, line, marker)
    }

    fn view_number(file: &File, book: &Book, page: usize, line: usize) -> u8 {
        calls::line_view(file, book, page, line, &[]).map_or_else(|refusal| refusal as u8, |_| 0)
    }

    fn whole(value: i32, width: i32, output: &mut [u8]) -> (u8, usize) {
        integers::whole(value, width, output)
            .map_or_else(|refusal| (refusal as u8, 0), |count| (0, count))
    }

    fn told(result: &Outcome) -> Told {
        let (given, value) = match result.given {
            Given::Nothing => (0, 0),
            Given::Character(byte) => (1, byte.into()),
            Given::Integer(value) => (2, value),
        };
        Told {
            number: result.number,
            stop: result.stop,
            event: result.signalled.map_or(0, |told| told.event as u8),
            signalled: result.signalled.map(|told| told.at),
            given,
            value,
            events: result.events,
            taken: result.taken,
            count: result.count,
        }
    }

    fn shown<'v>(view: Result<&'v [u8], Refusal>, _: &'v Book, _: &'v [u8]) -> (u8, &'v [u8]) {
        view.map_or_else(|refusal| (refusal as u8, &[][..]), |part| (0, part))
    }
}
