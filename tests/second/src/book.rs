//! The book, the file record and the rules of refusal 3
//! (document 01, "The book" and "The file record and its moods").

/// A place in a book. The order of the fields is the order of comparison:
/// "Positions (p, l, c) compare by page, then line, then character."
#[derive(Clone, Copy, PartialEq, Eq, PartialOrd, Ord, Debug)]
pub struct Position {
    pub page: u32,
    pub line: u32,
    pub character: u32,
}

impl Position {
    /// The place (1, 1, 1).
    pub const START: Position = Position::new(1, 1, 1);

    pub const fn new(page: u32, line: u32, character: u32) -> Position {
        Position {
            page,
            line,
            character,
        }
    }

    /// The Report's operator "beyond".
    pub fn beyond(self, other: Position) -> bool {
        self > other
    }
}

/// "A book has an established shape of P pages, L lines, C characters."
#[derive(Clone, Copy, PartialEq, Eq, Debug)]
pub struct Shape {
    pub pages: u32,
    pub lines: u32,
    pub characters: u32,
}

/// "The channel's five rights: get, put, set, reset, compress."
#[derive(Clone, Copy, PartialEq, Eq, Debug, Default)]
pub struct Rights {
    pub get: bool,
    pub put: bool,
    pub set: bool,
    pub reset: bool,
    pub compress: bool,
}

/// "The record holds opened, read mood, write mood, position, P, L, C and the rights." With C-14
/// it "gets a choice": `split` is true for "the Report's split" and false for the refusal.
#[derive(Clone, Copy, PartialEq, Eq, Debug)]
pub struct File {
    pub opened: bool,
    pub read_mood: bool,
    pub write_mood: bool,
    pub position: Position,
    pub shape: Shape,
    pub rights: Rights,
    pub split: bool,
}

/// "The caller lends the characters, a line length for each line and a page length for each
/// page." The logical end stands beside them (decision 3).
pub struct Book<'b> {
    pub text: &'b mut [u8],
    pub line_lengths: &'b mut [u8],
    pub page_lengths: &'b mut [u8],
    pub logical_end: Position,
}

/// Which line of the lent line lengths this is; none when the shape has no such line.
pub fn line_index(shape: Shape, page: u32, line: u32) -> Option<usize> {
    if !(1..=shape.pages).contains(&page) || !(1..=shape.lines).contains(&line) {
        return None;
    }
    let before = u64::from(page - 1) * u64::from(shape.lines);
    usize::try_from(before + u64::from(line - 1)).ok()
}

/// Where in the lent text this place is; none when the shape has no such place.
/// "Every line has a place of C."
pub fn text_index(shape: Shape, place: Position) -> Option<usize> {
    if !(1..=shape.characters).contains(&place.character) {
        return None;
    }
    let line = line_index(shape, place.page, place.line)?;
    let start = line.checked_mul(usize::try_from(shape.characters).ok()?)?;
    start.checked_add(usize::try_from(place.character - 1).ok()?)
}

/// The length that a line is established with: C, at most 255 in a good shape.
pub fn established_line(shape: Shape) -> u8 {
    u8::try_from(shape.characters).unwrap_or(u8::MAX)
}

/// The length that a page is established with: L, at most 255 in a good shape.
pub fn established_page(shape: Shape) -> u8 {
    u8::try_from(shape.lines).unwrap_or(u8::MAX)
}

/// The length of a page in lines; "a page that is not there has length 0".
pub fn page_length(shape: Shape, book: &Book, page: u32) -> u32 {
    if !(1..=shape.pages).contains(&page) {
        return 0;
    }
    let index = (page - 1) as usize;
    book.page_lengths.get(index).map_or(0, |&n| u32::from(n))
}

/// The length of a line; "a line that is not there has length 0", and a line after the last
/// one of its page is not there.
pub fn line_length(shape: Shape, book: &Book, page: u32, line: u32) -> u32 {
    if line > page_length(shape, book, page) {
        return 0;
    }
    let length = line_index(shape, page, line).and_then(|index| book.line_lengths.get(index));
    length.map_or(0, |&n| u32::from(n))
}

/// "A position is in bounds when 1 ≤ p ≤ P+1, 1 ≤ l ≤ page length + 1,
/// 1 ≤ c ≤ line length + 1."
pub fn in_bounds(shape: Shape, book: &Book, place: Position) -> bool {
    let pages = u64::from(shape.pages);
    let lines = u64::from(page_length(shape, book, place.page));
    let characters = u64::from(line_length(shape, book, place.page, place.line));
    (1..=pages + 1).contains(&u64::from(place.page))
        && (1..=lines + 1).contains(&u64::from(place.line))
        && (1..=characters + 1).contains(&u64::from(place.character))
}

/// "P pages, L lines, C characters, each 1 to 255, with P·L at most 1,024 and P·L·C at most
/// 65,536."
pub fn shape_is_good(shape: Shape) -> bool {
    let all = [shape.pages, shape.lines, shape.characters];
    all.iter().all(|n| (1..=255).contains(n))
        && shape.pages * shape.lines <= 1024
        && shape.pages * shape.lines * shape.characters <= 65_536
}

/// "Lent sizes (exactly P·L·C, P·L and P)." Asked only of a good shape.
pub fn sizes_are_good(shape: Shape, book: &Book) -> bool {
    let pages = shape.pages as usize;
    let lines = pages * shape.lines as usize;
    let characters = lines * shape.characters as usize;
    book.page_lengths.len() == pages
        && book.line_lengths.len() == lines
        && book.text.len() == characters
}

/// "A line length for each line (0 to C), and a page length for each page (0 to L lines)."
/// Every lent length counts, also of lines that are not in their page (decision 31).
pub fn lengths_are_good(shape: Shape, book: &Book) -> bool {
    let lines_fit = book
        .line_lengths
        .iter()
        .all(|&n| u32::from(n) <= shape.characters);
    let pages_fit = book
        .page_lengths
        .iter()
        .all(|&n| u32::from(n) <= shape.lines);
    lines_fit && pages_fit
}

/// "At least one of get and put is needed."
pub fn some_right(file: &File) -> bool {
    file.rights.get || file.rights.put
}

/// Refusal 3: not "both moods on", and no "mood without its right".
pub fn moods_are_good(file: &File) -> bool {
    let both = file.read_mood && file.write_mood;
    let read_without_get = file.read_mood && !file.rights.get;
    let write_without_put = file.write_mood && !file.rights.put;
    !both && !read_without_get && !write_without_put
}

/// What establish asks of refusal 3: the shape, the lent sizes and "no right to get or put"
/// (decision 7). "Establish and open do not look at what they set."
pub fn establish_fits(file: &File, book: &Book) -> bool {
    shape_is_good(file.shape) && sizes_are_good(file.shape, book) && some_right(file)
}

/// What open asks of refusal 3: as establish, and the lengths and the logical end.
pub fn open_fits(file: &File, book: &Book) -> bool {
    establish_fits(file, book)
        && lengths_are_good(file.shape, book)
        && in_bounds(file.shape, book, book.logical_end)
}

/// The whole of refusal 3, for all other calls. "An open record's position is in bounds and
/// not beyond the logical end."
pub fn record_and_book_fit(file: &File, book: &Book) -> bool {
    open_fits(file, book)
        && in_bounds(file.shape, book, file.position)
        && !file.position.beyond(book.logical_end)
        && moods_are_good(file)
}
