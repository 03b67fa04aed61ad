//! Random scenes (a record and a book), answer rows and calls, for `differ` and `check`.

use crate::book::{in_bounds, line_length, page_length, shape_is_good};
use crate::book::{Book, File, Position, Rights, Shape};
use crate::random::Random;
use crate::replay::{Call, LINES_ROOM, PAGES_ROOM, TEXT_ROOM};

/// What the characters of an episode look like.
#[derive(Clone, Copy, PartialEq, Eq, Debug)]
pub enum Style {
    Letters,
    Digits,
    Integers,
    Anything,
}

/// A record and a book to start from. The lengths may reach past the lent parts.
#[derive(Clone, Debug)]
pub struct Scene {
    pub file: File,
    pub logical_end: Position,
    pub lent: (usize, usize, usize),
    pub line_lengths: Vec<u8>,
    pub page_lengths: Vec<u8>,
    pub text: Vec<u8>,
    pub fill: u8,
    pub style: Style,
}

/// What is known when a call is made up, so that many calls do something.
pub struct Hints {
    pub file: File,
    pub end: Position,
    pub line_length: u32,
    pub style: Style,
}

/// A book of more characters than this is large: its texts are given in few patches.
pub const LARGE: usize = 1_500;

/// The integers near every limit.
const LIMITS: [i32; 27] = [
    0,
    1,
    -1,
    7,
    9,
    -9,
    10,
    -10,
    11,
    99,
    -99,
    100,
    -100,
    999,
    -1000,
    65_535,
    65_536,
    99_999,
    -100_000,
    999_999_999,
    -999_999_999,
    1_000_000_000,
    -1_000_000_000,
    2_147_483_646,
    2_147_483_647,
    -2_147_483_647,
    i32::MIN,
];

/// An integer near a limit, or any.
pub fn random_integer(random: &mut Random) -> i32 {
    match random.below(4) {
        0 => (random.draw() >> 32) as i32,
        1 => random.between(0, 2000) as i32 - 1000,
        _ => random.pick(LIMITS),
    }
}

/// A text of digits, blanks and signs made of whole integers, some of them too large.
fn random_integers_text(random: &mut Random, length: usize) -> Vec<u8> {
    let mut text = Vec::new();
    while text.len() < length {
        text.extend(vec![b' '; random.below(4)]);
        if random.chance(40) {
            text.push(random.pick([b'-', b'+', b'-', b'+', b'x']));
        }
        text.extend(vec![b' '; random.below(8).saturating_sub(5)]);
        text.extend(vec![b'0'; random.below(9).saturating_sub(5)]);
        let size = match random.below(6) {
            0 => 2_147_483_647,
            1 => 2_147_483_648,
            2 => random.draw() >> random.between(0, 63),
            _ => u64::from(random_integer(random).unsigned_abs()),
        };
        text.extend(size.to_string().bytes());
    }
    text.truncate(length);
    text
}

/// One character of a style.
fn random_character(random: &mut Random, style: Style) -> u8 {
    let odd = random.rarely(15);
    match style {
        Style::Anything if random.chance(30) => random.byte(),
        _ if odd => random.pick([0, 9, 10, 13, 31, 127, 128, 160, 255]),
        Style::Anything => random.between(32, 126) as u8,
        Style::Letters if random.chance(20) => random.between(32, 126) as u8,
        Style::Letters => random.between(97, 122) as u8,
        _ => match random.below(12) {
            0..=6 => b'0' + random.below(10) as u8,
            7..=9 => b' ',
            10 => random.pick([b'+', b'-']),
            _ => random.between(32, 126) as u8,
        },
    }
}

/// A text of a style.
pub fn random_text(random: &mut Random, style: Style, length: usize) -> Vec<u8> {
    if style == Style::Integers && random.chance(80) {
        return random_integers_text(random, length);
    }
    (0..length)
        .map(|_| random_character(random, style))
        .collect()
}

/// Shapes of the largest sizes, at the limits of the products and just inside.
const LARGE_SHAPES: [(u32, u32, u32); 12] = [
    (255, 4, 64),
    (4, 255, 60),
    (4, 255, 64),
    (1, 1, 255),
    (255, 1, 255),
    (1, 255, 255),
    (255, 1, 1),
    (1, 255, 1),
    (32, 32, 64),
    (128, 8, 64),
    (33, 31, 63),
    (14, 31, 151),
];

/// Shapes that break one rule each.
const BAD_SHAPES: [(u32, u32, u32); 16] = [
    (0, 1, 1),
    (1, 0, 1),
    (1, 1, 0),
    (256, 1, 1),
    (1, 256, 1),
    (1, 1, 256),
    (256, 4, 64),
    (65_535, 65_535, 65_535),
    (65_535, 1, 1),
    (1, 1, 65_535),
    (41, 25, 1),
    (5, 205, 63),
    (255, 255, 1),
    (32, 32, 65),
    (20, 29, 113),
    (255, 255, 255),
];

fn shape_of((pages, lines, characters): (u32, u32, u32)) -> Shape {
    Shape {
        pages,
        lines,
        characters,
    }
}

/// A good shape, small most often, with longer lines where integers are to stand on them.
fn random_shape(random: &mut Random, style: Style) -> Shape {
    if random.rarely(15) {
        return shape_of(random.pick(LARGE_SHAPES));
    }
    let weights = match style {
        Style::Integers => [12, 15, 30, 40, 3],
        _ => [50, 23, 15, 10, 2],
    };
    let characters = match random.weighted(weights) {
        0 => random.between(1, 4),
        1 => random.between(5, 13),
        2 => random.between(10, 14),
        3 => random.between(14, 40),
        _ => random.between(41, 255),
    };
    let most = if characters > 40 { 2 } else { 4 };
    shape_of((random.between(1, most), random.between(1, most), characters))
}

/// The sizes that fit a shape, as far as the room of a script goes.
pub fn sizes_of(shape: Shape) -> (usize, usize, usize) {
    let pages = u64::from(shape.pages);
    let lines = pages * u64::from(shape.lines);
    let text = lines.saturating_mul(u64::from(shape.characters));
    (
        usize::try_from(text).map_or(TEXT_ROOM, |n| n.min(TEXT_ROOM)),
        usize::try_from(lines).map_or(LINES_ROOM, |n| n.min(LINES_ROOM)),
        usize::try_from(pages).map_or(PAGES_ROOM, |n| n.min(PAGES_ROOM)),
    )
}

/// Any combination of rights, get and put together most often; now and then those of a book
/// that is written again every night, whose lengths come back (C-13).
fn random_rights(random: &mut Random) -> Rights {
    let both = random.chance(70);
    if random.chance(10) {
        return Rights {
            get: both,
            put: true,
            set: false,
            reset: true,
            compress: true,
        };
    }
    Rights {
        get: both || random.chance(50),
        put: both || random.chance(50),
        set: random.chance(50),
        reset: random.chance(75),
        compress: random.chance(45),
    }
}

/// Lengths up to the most, the most itself often.
fn random_lengths(random: &mut Random, count: usize, most: u32) -> Vec<u8> {
    let full = random.between(20, 100);
    let mut lengths = Vec::new();
    for _ in 0..count {
        let shorter = random.between(0, most);
        let length = if random.chance(full) { most } else { shorter };
        lengths.push(u8::try_from(length).unwrap_or(u8::MAX));
    }
    lengths
}

/// The moods that a record with these rights may have.
pub fn random_moods(random: &mut Random, rights: Rights) -> (bool, bool) {
    match random.below(5) {
        0 => (false, false),
        1 | 2 => (rights.get, !rights.get && rights.put),
        _ => (!rights.put && rights.get, rights.put),
    }
}

impl Scene {
    /// The lent parts of the scene as a book, for questions about it.
    pub fn asked<T>(&mut self, question: impl FnOnce(Shape, &Book) -> T) -> T {
        let (text, lines, pages) = self.lent;
        let book = Book {
            text: self.text.get_mut(..text).unwrap_or_default(),
            line_lengths: self.line_lengths.get_mut(..lines).unwrap_or_default(),
            page_lengths: self.page_lengths.get_mut(..pages).unwrap_or_default(),
            logical_end: self.logical_end,
        };
        question(self.file.shape, &book)
    }

    /// A place in bounds.
    pub fn random_place(&mut self, random: &mut Random) -> Position {
        self.asked(|shape, book| {
            let past_pages = u32::from(random.chance(30));
            let page = random.between(1, shape.pages + past_pages);
            let lines = page_length(shape, book, page);
            let past_lines = u32::from(random.chance(40));
            let line = random.between(1, lines + past_lines);
            let characters = line_length(shape, book, page, line);
            Position::new(page, line, random.between(1, characters + 1))
        })
    }

    /// A place in bounds and not beyond the logical end.
    pub fn random_position(&mut self, random: &mut Random) -> Position {
        for _ in 0..8 {
            let place = self.random_place(random);
            if !place.beyond(self.logical_end) {
                return place;
            }
        }
        random.pick([Position::START, self.logical_end])
    }
}

/// A scene that passes the tests of refusal 3.
pub fn good_scene(random: &mut Random) -> Scene {
    let style = random.pick([
        Style::Letters,
        Style::Letters,
        Style::Digits,
        Style::Integers,
        Style::Anything,
    ]);
    let shape = random_shape(random, style);
    let (text, lines, pages) = sizes_of(shape);
    let rights = random_rights(random);
    let rights = Rights {
        get: rights.get || !rights.put,
        ..rights
    };
    let (read_mood, write_mood) = random_moods(random, rights);
    let mut scene = Scene {
        file: File {
            opened: random.chance(93),
            read_mood,
            write_mood,
            position: Position::START,
            shape,
            rights,
            split: random.chance(50),
        },
        logical_end: Position::START,
        lent: (text, lines, pages),
        line_lengths: random_lengths(random, (lines + 2).min(LINES_ROOM), shape.characters),
        page_lengths: random_lengths(random, (pages + 2).min(PAGES_ROOM), shape.lines),
        text: random_text(random, style, text),
        fill: random.pick([0, b' ', b'.', b'7', 0x80]),
        style,
    };
    scene.logical_end = later(scene.random_place(random), scene.random_place(random));
    scene.file.position = scene.random_position(random);
    scene
}

fn later(one: Position, other: Position) -> Position {
    if one.beyond(other) {
        one
    } else {
        other
    }
}

/// One number changed to another that a rule may not allow, but a script can hold.
fn spoil_number(random: &mut Random, number: u32) -> u32 {
    match random.below(6) {
        0 => 0,
        1 => 256,
        2 => 65_535,
        3 => number.saturating_sub(1),
        4 => (number + 1).min(65_535),
        _ => (number + 2).min(65_535),
    }
}

/// One field of a position changed.
fn spoil_position(random: &mut Random, place: Position) -> Position {
    let mut spoiled = place;
    match random.below(3) {
        0 => spoiled.page = spoil_number(random, place.page),
        1 => spoiled.line = spoil_number(random, place.line),
        _ => spoiled.character = spoil_number(random, place.character),
    }
    spoiled
}

/// One field of the shape changed; sometimes the lent sizes follow.
fn spoil_shape(random: &mut Random, scene: &mut Scene) {
    let shape = &mut scene.file.shape;
    match random.below(5) {
        0 => shape.pages = spoil_number(random, shape.pages),
        1 => shape.lines = spoil_number(random, shape.lines),
        2 => shape.characters = spoil_number(random, shape.characters),
        _ => *shape = shape_of(random.pick(BAD_SHAPES)),
    }
    if random.chance(60) {
        let shape = scene.file.shape;
        scene.lent = sizes_of(shape);
        scene.line_lengths = random_lengths(random, scene.lent.1, shape.characters);
        scene.page_lengths = random_lengths(random, scene.lent.2, shape.lines);
    }
}

/// One lent size off by one or none at all.
fn spoil_sizes(random: &mut Random, scene: &mut Scene) {
    let (text, lines, pages) = scene.lent;
    let other = |random: &mut Random, size: usize, room: usize| {
        let sizes = [size.saturating_sub(1), size + 1, 0, room];
        random.pick(sizes).min(room)
    };
    scene.lent = match random.below(3) {
        0 => (other(random, text, TEXT_ROOM), lines, pages),
        1 => (text, other(random, lines, LINES_ROOM), pages),
        _ => (text, lines, other(random, pages, PAGES_ROOM)),
    };
}

/// One lent length above its limit, of any line or page.
fn spoil_length(random: &mut Random, scene: &mut Scene) {
    let shape = scene.file.shape;
    let (lengths, lent, most) = if random.chance(60) {
        (&mut scene.line_lengths, scene.lent.1, shape.characters)
    } else {
        (&mut scene.page_lengths, scene.lent.2, shape.lines)
    };
    let index = random.below(lent);
    if let Some(length) = lengths.get_mut(index) {
        let above = u8::try_from(most + 1).unwrap_or(u8::MAX);
        *length = random.pick([above, above, 255]);
    }
}

/// Breaks one thing that refusal 3 asks for, or none of it: the record not open.
pub fn spoil_scene(random: &mut Random, scene: &mut Scene) {
    let end = scene.logical_end;
    match random.below(12) {
        0 | 1 => spoil_shape(random, scene),
        2 => spoil_sizes(random, scene),
        3 | 4 => spoil_length(random, scene),
        5 | 6 => scene.logical_end = spoil_position(random, end),
        7 => scene.file.position = spoil_position(random, scene.file.position),
        8 => scene.file.position = spoil_position(random, end),
        9 => (scene.file.read_mood, scene.file.write_mood) = (true, true),
        10 => {
            let (get, put) = random.pick([(false, false), (true, false), (false, true)]);
            scene.file.rights.get = get;
            scene.file.rights.put = put;
            scene.file.read_mood = random.chance(50);
            scene.file.write_mood = random.chance(50);
        }
        _ => scene.file.opened = false,
    }
}

/// A scene, good most often.
pub fn random_scene(random: &mut Random) -> Scene {
    let mut scene = good_scene(random);
    if random.chance(14) {
        spoil_scene(random, &mut scene);
        if random.chance(20) {
            spoil_scene(random, &mut scene);
        }
    }
    cover_lent(&mut scene);
    scene
}

/// Gives a length to every line and page that is lent, so that none comes from before.
pub fn cover_lent(scene: &mut Scene) {
    let (_, lines, pages) = scene.lent;
    let most = u8::try_from(scene.file.shape.characters).unwrap_or(u8::MAX);
    if scene.line_lengths.len() < lines {
        scene.line_lengths.resize(lines, most);
    }
    if scene.page_lengths.len() < pages {
        scene.page_lengths.resize(pages, 1);
    }
}

/// A place to set to: inside, at and past the end, out of bounds, with a 0.
pub fn random_target(random: &mut Random, hints: &Hints) -> Position {
    let shape = hints.file.shape;
    let end = hints.end;
    let mut place = Position::new(
        random.between(1, end.page),
        random.between(1, shape.lines + 1),
        random.between(1, shape.characters + 1),
    );
    match random.below(14) {
        0 => Position::START,
        1 => end,
        2 => hints.file.position,
        3 => Position::new(end.page, end.line, random.between(1, end.character)),
        4 => Position::new(end.page, end.line, end.character + 1),
        5 => Position::new(end.page, random.between(1, end.line), 1),
        6 => Position::new(end.page + 1, random.between(0, 2), random.between(0, 2)),
        7 => {
            place.line = 1;
            place
        }
        8 | 9 => {
            place.character = 1;
            place
        }
        10 => spoil_position(random, place),
        11 => spoil_position(random, end),
        _ => place,
    }
}

/// An answer word of a kind; kind 4 with a place, kind 7 with a character. Most often not of a
/// kind whose right is missing.
fn answer_word(random: &mut Random, hints: &Hints, kind: u32) -> u32 {
    let rights = hints.file.rights;
    let missing = (kind == 4 && !rights.set) || (kind == 6 && !rights.reset);
    let kind = match kind {
        _ if missing && random.chance(85) => random.pick([1, 2, 3]),
        _ => kind,
    };
    let fields = match kind {
        4 => {
            let place = random_target(random, hints);
            (place.page & 0x1ff) << 19 | (place.line & 0x1ff) << 10 | (place.character & 0x3ff)
        }
        7 => {
            let digit = u32::from(b'0') + random.between(0, 9);
            let any = u32::from(random.byte());
            let printable = random.between(32, 126);
            random.pick([digit, digit, printable, any, 0, 31, 127, 255])
        }
        _ => 0,
    };
    kind << 28 | fields
}

/// A word that refusal 2 is for.
fn bad_answer_word(random: &mut Random) -> u32 {
    let kind = random.pick([0, 1, 2, 3, 5, 6, 8]);
    match random.below(6) {
        0 => random.between(9, 15) << 28,
        1 => kind << 28 | random.between(1, 1023),
        2 => kind << 28 | random.between(1, 511) << 10,
        3 => kind << 28 | random.between(1, 511) << 19,
        4 => 7 << 28 | random.pick([256, 257, 1023]),
        _ => 7 << 28 | random.pick([1 << 10, 1 << 18, 1 << 19, 1 << 27]) | 65,
    }
}

/// How long a row is.
fn random_row_length(random: &mut Random) -> usize {
    match random.weighted([60, 25, 9, 3, 2, 1]) {
        0 => random.between(1, 3) as usize,
        1 => random.between(4, 12) as usize,
        2 => random.between(13, 63) as usize,
        3 => 64,
        4 => 65,
        _ => 80,
    }
}

/// The answer of a program that jumped away.
pub const JUMP: u32 = 8 << 28;

/// The answer of a program that made a newline.
pub const NEWLINE: u32 = 2 << 28;

/// A row of answers: mixed, of layout answers that signal events themselves, of one kind only,
/// or of plain true ones; ended early by a jump, so that every event is jumped from; bad now
/// and then.
pub fn random_row(random: &mut Random, hints: &Hints) -> Vec<u32> {
    let length = random_row_length(random);
    let one_kind = random.between(0, 8);
    let flavour = random.below(9);
    let mut row = Vec::new();
    for _ in 0..length {
        let kind = match flavour {
            0..=2 => random.weighted([14, 14, 16, 12, 12, 9, 8, 12, 3]) as u32,
            3 | 4 => random.pick([2, 2, 3, 3, 4, 4, 4, 5, 6]),
            5 => random.pick([2, 3, 4]),
            6 => random.pick([1, 7]),
            7 => random.pick([2, 3, 4, 4, 4, 7, 7, 7]),
            _ => one_kind,
        };
        row.push(answer_word(random, hints, kind));
    }
    if random.chance(15) {
        row.truncate(random.pick([0, 0, 0, 1, 1, 2, 3, 5]));
        row.push(JUMP);
    }
    if random.chance(5) {
        let index = random.below(row.len());
        row[index] = bad_answer_word(random);
    }
    row
}

/// A character number: 0, 1, about the position, about the line's end, or any.
fn random_char_number(random: &mut Random, hints: &Hints) -> u32 {
    let length = hints.line_length;
    let place = hints.file.position;
    let here = place.character;
    let on_end_line = (place.page, place.line) == (hints.end.page, hints.end.line);
    if hints.file.read_mood && on_end_line && random.chance(50) {
        return random.between(hints.end.character, length + 1);
    }
    let any = random.between(1, hints.file.shape.characters + 1);
    let inside = random.between(1, length + 1);
    random.pick([
        inside,
        inside,
        inside,
        any,
        0,
        1,
        length,
        length + 1,
        length + 2,
        here + 1,
        here.saturating_sub(1),
        65_535,
    ])
}

/// A width about the length of the text of the value, or at a limit.
fn random_width(random: &mut Random, value: i32) -> i32 {
    let length = value.to_string().len() as i32;
    let about = length + random.between(0, 5) as i32 - 2;
    let limit = random.pick([0, 0, 1, 2, 11, 255, 256, 32_767]);
    let width = random.pick([about, about, limit]);
    match random.below(20) {
        0 => -32_768,
        1..=9 => -width,
        _ => width,
    }
}

/// Whole with an output about as large as it needs.
fn random_whole(random: &mut Random) -> Call {
    let value = random_integer(random);
    let width = random_width(random, value);
    let length = match width {
        0 => value.to_string().len(),
        _ => width.unsigned_abs() as usize,
    };
    let size = random.pick([
        length,
        length,
        length.saturating_sub(1),
        length + 3,
        0,
        12,
        40,
    ]);
    let size = if random.rarely(20) { 4096 } else { size };
    Call::Whole(value, width, size.min(4096))
}

/// The length of a text to put: none, about a line, sometimes more than the book holds.
fn random_length(random: &mut Random, hints: &Hints) -> usize {
    let shape = hints.file.shape;
    let (text, _, _) = sizes_of(shape);
    let line = shape.characters.min(300) as usize;
    match random.weighted([6, 30, 30, 20, 12, 2]) {
        0 => 0,
        1 => 1 + random.below(4),
        2 => 1 + random.below(line + 1),
        3 => 1 + random.below(2 * line + 2),
        4 => 1 + random.below(text.min(600) + 2),
        _ => 1 + random.below(text.min(3000) + 20),
    }
}

/// Put calls; integers less often on lines that are too short for them.
pub fn random_put(random: &mut Random, hints: &Hints) -> Call {
    let short = hints.file.shape.characters < 11;
    match random.weighted([25, 50, if short { 5 } else { 35 }]) {
        0 if random.chance(25) => Call::PutCharacter(random.byte()),
        0 => Call::PutCharacter(random_character(random, hints.style)),
        1 => {
            let length = random_length(random, hints);
            Call::PutString(random_text(random, hints.style, length))
        }
        _ if random.chance(4) => Call::PutInteger(i32::MIN),
        _ => Call::PutInteger(random_integer(random)),
    }
}

/// Get calls.
fn random_get(random: &mut Random, hints: &Hints) -> Call {
    let integers = matches!(hints.style, Style::Digits | Style::Integers);
    match random.weighted([25, 45, if integers { 60 } else { 20 }]) {
        0 => Call::GetCharacter,
        1 => {
            let line = hints.file.shape.characters.min(4095) as usize;
            let small = random.below(12);
            let size = random.pick([small, small, small, line, line + 1, 20, 64, 0]);
            let size = if random.rarely(10) { 4096 } else { size };
            let count = random.below(8).saturating_sub(4);
            let mut terminators = random_text(random, hints.style, count);
            if random.chance(10) {
                terminators.push(random.pick([b' ', b' ', b'0', b'5']));
            }
            Call::GetString(size, terminators)
        }
        _ => Call::GetInteger,
    }
}

/// A view of a line: shown, empty, past the end, not there, of page 0.
fn random_view(random: &mut Random, hints: &Hints) -> Call {
    let end = hints.end;
    let shape = hints.file.shape;
    let marker_length = random.pick([0, 1, 7]);
    let marker = random_text(random, Style::Letters, marker_length);
    let here = hints.file.position;
    let (page, line) = match random.below(9) {
        0..=2 => (end.page, end.line),
        3 | 4 => (here.page, here.line),
        5 => (random.between(0, end.page), random.between(0, end.line)),
        6 => (end.page, end.line + 1),
        7 => (
            random.between(0, shape.pages + 1),
            random.between(0, shape.lines + 1),
        ),
        _ => (random.pick([0, 1, 65_535]), random.pick([0, 1, 65_535])),
    };
    Call::View(page.min(65_535), line.min(65_535), marker)
}

/// Layout calls and reset; most often not those that are sure to be refused.
fn random_layout(random: &mut Random, hints: &Hints) -> Call {
    let rights = hints.file.rights;
    let some = |allowed: bool, weight: usize| if allowed { weight } else { 3 };
    let weights = [
        14,
        some(hints.file.position.character > 1, 12),
        20,
        12,
        some(rights.set, 20),
        16,
        some(rights.reset, 12),
    ];
    match random.weighted(weights) {
        0 => Call::Space,
        1 => Call::Backspace,
        2 => Call::Newline,
        3 => Call::Newpage,
        4 => Call::Set(random_target(random, hints)),
        5 => Call::SetCharNumber(random_char_number(random, hints)),
        _ => Call::Reset,
    }
}

/// A way back from the end of the book, where reading and writing have nothing more to do.
fn random_way_back(random: &mut Random, hints: &Hints) -> Call {
    let rights = hints.file.rights;
    match random.below(4) {
        0 if rights.put => Call::Establish,
        0 | 1 => Call::Open,
        2 if rights.set => Call::Set(random_target(random, hints)),
        3 if hints.file.position.character > 1 => Call::SetCharNumber(1),
        _ => Call::Reset,
    }
}

/// A way on from the end of a line, where the refusal of C-14 keeps every string.
fn random_way_on(random: &mut Random) -> Call {
    match random.below(4) {
        0 => Call::Choose(true),
        1 => Call::Newpage,
        _ => Call::Newline,
    }
}

/// A call on a record that is not open: most often one that opens it.
fn random_opening(random: &mut Random) -> Call {
    match random.below(10) {
        0 => Call::Choose(random.chance(50)),
        1..=3 => Call::Establish,
        _ => Call::Open,
    }
}

/// Whether a get is made rather than a put; most often the one that mood and rights allow.
fn random_reads(random: &mut Random, file: &File) -> bool {
    match (file.read_mood, file.write_mood) {
        (true, _) if !file.rights.set => random.chance(90),
        (_, true) if !file.rights.set => random.chance(10),
        _ if !file.rights.put => random.chance(88),
        _ if !file.rights.get => random.chance(12),
        _ => random.chance(50),
    }
}

/// A call that leads on from where the record stands: from the end of the book, from the end of
/// a line, from no mood, and from a record that is not open.
fn random_lead(random: &mut Random, hints: &Hints) -> Option<Call> {
    let file = &hints.file;
    let at_end = file.read_mood && file.position == hints.end;
    let at_line_end = file.write_mood && file.position.character > hints.line_length;
    let no_mood = !file.read_mood && !file.write_mood;
    if (at_end || file.position.page > file.shape.pages) && random.chance(45) {
        Some(random_way_back(random, hints))
    } else if at_line_end && !file.split && random.chance(25) {
        Some(random_way_on(random))
    } else if no_mood && file.rights.set && random.chance(20) {
        Some(Call::Set(random_target(random, hints)))
    } else if !file.opened && random.chance(70) {
        Some(random_opening(random))
    } else {
        None
    }
}

/// Any call; one that the record's state allows most often.
pub fn random_call(random: &mut Random, hints: &Hints) -> Call {
    if let Some(call) = random_lead(random, hints) {
        return call;
    }
    let reads = random_reads(random, &hints.file);
    match random.weighted([46, 40, 4, 3, 1, 6, 4]) {
        0 if reads => random_get(random, hints),
        0 => random_put(random, hints),
        1 => random_layout(random, hints),
        2 => random_whole(random),
        3 if random.chance(50) => Call::Open,
        3 => Call::Establish,
        4 => Call::Close,
        5 => random_view(random, hints),
        _ => Call::Choose(random.chance(60)),
    }
}

/// The hints of a record and a book.
pub fn hints_of(file: &File, book: &Book, style: Style) -> Hints {
    let fits = shape_is_good(file.shape) && in_bounds(file.shape, book, file.position);
    let place = file.position;
    Hints {
        file: *file,
        end: book.logical_end,
        line_length: if fits {
            line_length(file.shape, book, place.page, place.line)
        } else {
            3
        },
        style,
    }
}
