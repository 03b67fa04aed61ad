//! What is timed: each call on each book, with and without set and compress.

use crate::book::{File, Position, Rights, Scene, Shape};
use crate::scripts::Call;

/// A call, and the record and book that it is made on each time.
#[derive(Clone)]
pub struct Case {
    pub book: String,
    pub rights: &'static str,
    pub name: String,
    pub call: Call,
    pub row: Vec<u32>,
    pub scene: Scene,
    /// How many characters it puts or gets, of a string.
    pub characters: usize,
}

/// The books, in pages, lines and characters.
const BOOKS: [(usize, usize, usize); 3] = [(2, 3, 8), (1, 64, 80), (4, 255, 60)];

/// Set and compress, beside get, put and reset.
const RIGHTS: [(&str, bool, bool); 4] = [
    ("-", false, false),
    ("set", true, false),
    ("compress", false, true),
    ("set compress", true, true),
];

/// The lengths of the strings.
const STRINGS: [usize; 4] = [8, 80, 255, 4000];

/// What has no row, and why.
pub const LEFT_OUT: &str =
    "no row: on 2·3·8 strings of 80 and more and put of an integer, which have no room there; \
    on 4·255·60 get of 4,000 characters, and put of as many with the refusal chosen, since 66 line ends need more than 64 answers";

/// An answer of kind 2, newline, and how many answers can be lent.
const NEWLINE: u32 = 2 << 28;
const MOST_ANSWERS: usize = 64;

/// The letters over and over; algol68g puts and gets the same.
fn letters(length: usize) -> Vec<u8> {
    (b'a'..=b'z').cycle().take(length).collect()
}

/// A full book of letters, open, with position and end in the middle of its first line.
fn half_a_line(shape: Shape, set: bool, compress: bool) -> Scene {
    let lines = shape.pages * shape.lines;
    let place = Position::new(1, 1, shape.characters / 2 + 1);
    Scene {
        file: File {
            opened: true,
            reading: false,
            writing: true,
            split: true,
            position: place,
            shape,
            rights: Rights {
                get: true,
                put: true,
                set,
                reset: true,
                compress,
            },
        },
        end: place,
        text: letters(lines * shape.characters),
        lines: vec![shape.characters as u8; lines],
        pages: vec![shape.lines as u8; shape.pages],
    }
}

impl Case {
    /// Another call on the same record and book.
    fn with(&self, name: impl Into<String>, call: Call) -> Case {
        Case {
            name: name.into(),
            call,
            ..self.clone()
        }
    }

    /// The same in read mood at the book's start, with its end at its last line.
    fn reading(mut self) -> Case {
        let scene = &mut self.scene;
        let shape = scene.file.shape;
        (scene.file.reading, scene.file.writing) = (true, false);
        scene.file.position = Position::START;
        scene.end = Position::new(shape.pages, shape.lines, 1);
        self
    }

    /// The same with an integer at the book's start, as put writes it, or on short lines a shorter one.
    fn over_an_integer(mut self) -> Case {
        let short = self.scene.file.shape.characters < 12;
        let integer: &[u8] = if short { b" +12345 " } else { b"   +1234567 " };
        self.scene.text[..integer.len()].copy_from_slice(integer);
        self
    }

    /// The same of a string so long; a get takes a newline answer at each line end.
    fn of_string(mut self, characters: usize) -> Case {
        if let Call::GetString { .. } = self.call {
            let line = self.scene.file.shape.characters;
            self.row = vec![NEWLINE; (characters - 1) / line];
        }
        self.characters = characters;
        self
    }
}

fn put_string(one: &Case, length: usize) -> Case {
    let call = Call::PutString(letters(length));
    one.with(format!("put string {length}"), call)
        .of_string(length)
}

/// The same under the refusal, with a newline answer at each line end: the string begins in the middle of a line.
fn put_string_unsplit(one: &Case, length: usize) -> Option<Case> {
    let line = one.scene.file.shape.characters;
    let ends = (length + line / 2 - 1) / line;
    let mut case = put_string(one, length);
    case.name += ", refusal chosen";
    case.scene.file.split = false;
    case.row = vec![NEWLINE; ends];
    (ends <= MOST_ANSWERS).then_some(case)
}

fn get_string(one: &Case, size: usize, terminators: &[u8]) -> Case {
    let name = match terminators.len() {
        0 => format!("get string {size}"),
        count => format!("get string {size}, {count} terminators"),
    };
    let terminators = terminators.to_vec();
    let call = Call::GetString { terminators, size };
    one.with(name, call).reading().of_string(size)
}

/// The cases of a book, in the order of the table, from its put of a character.
fn cases_of(one: &Case) -> Vec<Case> {
    let shape = one.scene.file.shape;
    let room = one.scene.text.len() - shape.characters;
    let strings: Vec<usize> = STRINGS.into_iter().filter(|&n| n <= room).collect();
    let mut cases = vec![one.clone()];
    cases.extend(strings.iter().map(|&length| put_string(one, length)));
    let unsplit = |&length: &usize| put_string_unsplit(one, length);
    cases.extend(strings.iter().filter_map(unsplit));
    if shape.characters >= 24 {
        cases.push(one.with("put integer", Call::PutInteger(1_234_567)));
    }
    for &size in &strings {
        if (size - 1) / shape.characters <= MOST_ANSWERS {
            cases.push(get_string(one, size, b""));
        }
        if size <= 80 {
            cases.push(get_string(one, size, b";,"));
        }
    }
    let get = one.with("get integer", Call::GetInteger);
    cases.push(get.reading().over_an_integer());
    cases.push(one.with("newline", Call::Newline));
    let marker = b"(blank)".to_vec();
    let (page, line) = (1, 2);
    let view = one.with("view", Call::View { page, line, marker });
    cases.push(view.reading());
    cases
}

/// All cases but those that are left out.
pub fn all() -> Vec<Case> {
    let mut all = Vec::new();
    for (pages, lines, characters) in BOOKS {
        for (rights, set, compress) in RIGHTS {
            let shape = Shape {
                pages,
                lines,
                characters,
            };
            all.extend(cases_of(&Case {
                book: format!("{pages}·{lines}·{characters}"),
                rights,
                name: "put character".to_string(),
                call: Call::PutCharacter(b'x'),
                row: Vec::new(),
                scene: half_a_line(shape, set, compress),
                characters: 0,
            }));
        }
    }
    all
}
