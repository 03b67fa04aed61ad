//! Where two books differ (document 02, C-11): the spans, before any question of room for them.

use crate::book::{Book, File};
use crate::steps;

/// A record and its book, looked at "as a view does".
#[derive(Clone, Copy)]
pub struct Looked<'l, 'b> {
    pub file: &'l File,
    pub book: &'l Book<'b>,
}

/// "A maximal span of one line, with page, line, first and last character."
#[derive(Clone, Copy, PartialEq, Eq, Debug)]
pub struct Span {
    pub page: u32,
    pub line: u32,
    pub first: u32,
    pub last: u32,
}

impl Span {
    /// An entry of a lent list, one byte a number; no number of a good shape is above 255.
    pub fn bytes(self) -> [u8; 4] {
        let numbers = [self.page, self.line, self.first, self.last];
        numbers.map(|number| u8::try_from(number).unwrap_or(u8::MAX))
    }

    /// The entry that four bytes alike make.
    pub fn filled(byte: u8) -> Span {
        let number = u32::from(byte);
        Span {
            page: number,
            line: number,
            first: number,
            last: number,
        }
    }
}

/// "Shown is as for the line view": the characters of a line, none for a line that is not
/// shown.
pub fn shown_line<'l>(looked: Looked<'l, '_>, page: u32, line: u32) -> Option<&'l [u8]> {
    let (start, length) = steps::view(looked.file, looked.book, page, line).ok()?;
    looked.book.text.get(start..start + length)
}

/// The spans of a line that both books show. "A place differs when the characters do, or when
/// only one book shows one there", so a blank is not nothing.
fn differing_places(one: &[u8], other: &[u8]) -> Vec<(u32, u32)> {
    let mut spans: Vec<(u32, u32)> = Vec::new();
    for (place, number) in (0..one.len().max(other.len())).zip(1..) {
        if one.get(place) == other.get(place) {
            continue;
        }
        match spans.last_mut() {
            Some((_, last)) if *last + 1 == number => *last = number,
            _ => spans.push((number, number)),
        }
    }
    spans
}

/// The spans of one line. "A line shown in only one book is one span from 1, ending at 0 when
/// empty."
fn spans_of_line(one: Option<&[u8]>, other: Option<&[u8]>) -> Vec<(u32, u32)> {
    match (one, other) {
        (Some(one), Some(other)) => differing_places(one, other),
        (Some(only), None) | (None, Some(only)) => vec![(1, only.len() as u32)],
        (None, None) => Vec::new(),
    }
}

/// All spans, "in position order". "The two shapes may differ. Pages, lines and characters are
/// compared by their numbers, up to the larger of each."
pub fn differing_spans(one: Looked, other: Looked) -> Vec<Span> {
    let pages = one.file.shape.pages.max(other.file.shape.pages);
    let lines = one.file.shape.lines.max(other.file.shape.lines);
    let mut spans = Vec::new();
    for page in 1..=pages {
        for line in 1..=lines {
            let shown = [one, other].map(|looked| shown_line(looked, page, line));
            let places = spans_of_line(shown[0], shown[1]);
            spans.extend(places.iter().map(|&(first, last)| Span {
                page,
                line,
                first,
                last,
            }));
        }
    }
    spans
}
