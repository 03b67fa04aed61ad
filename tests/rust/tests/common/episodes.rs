//! Random episodes: scripts that the second implementation makes, read into lines, and the stage that they set for the wrapper.

use std::time::{SystemTime, UNIX_EPOCH};

use second::book::Position as ScriptPosition;
use second::episodes::{make_episode, Books};
use second::random::Random;
use second::replay::{read_line, Call, Line, Player};
use second::replay::{LINES_ROOM, LONGEST_LINE, PAGES_ROOM, TEXT_ROOM};
use transput::{Book, File, Position, Rights, Shape};

/// The largest number of a script.
const LARGEST_NUMBER: u32 = 65_535;

/// What the largest number of a script stands for, by turns. A type that is too narrow would cut most of these to a number in
/// range, and a sum with them may overflow.
const LARGE: [usize; 7] = [
    65_535,
    65_537,
    (1 << 32) + 1,
    (1 << 32) + 2,
    1 << 63,
    (1 << 63) + 1,
    usize::MAX,
];

/// The seed of this run: TRANSPUT_SEED, to repeat a run, or one from the clock.
pub fn seed() -> u64 {
    let named = std::env::var("TRANSPUT_SEED").ok();
    let now = SystemTime::now().duration_since(UNIX_EPOCH);
    let clock = now.map_or(1, |time| time.as_nanos() as u64 % 1_000_000_000);
    named.map_or(clock, |name| {
        name.parse().expect("TRANSPUT_SEED is a number")
    })
}

/// The lines of one episode that can be read, each with its text, and what the largest number stands for.
pub struct Episode {
    pub lines: Vec<(Vec<u8>, Line)>,
    pub large: usize,
}

/// Makes an episode, about every other one with two books. The player only serves to make it, and may be used again.
pub fn make(seed: u64, number: u64, player: &mut Player) -> Episode {
    let random = Random::for_episode(seed, number);
    let script = make_episode(random, Books::Two, player, &mut Vec::new());
    let short = script.into_iter().filter(|line| line.len() <= LONGEST_LINE);
    let lines = short.filter_map(|text| read_line(&text).map(|line| (text, line)));
    Episode {
        lines: lines.collect(),
        large: LARGE[(number % LARGE.len() as u64) as usize],
    }
}

/// A record and a book. What lies past the lent parts of the book is kept, for a line that lends more.
pub struct Side {
    pub file: File,
    pub book: Book,
    room: [Vec<u8>; 3],
}

/// Two sides and the answers for the next call, as a script sets them. All lines and calls work on the first side.
pub struct Stage {
    pub first: Side,
    pub other: Side,
    pub row: Vec<u32>,
    pub large: usize,
}

/// Writes the lent part back, changes the room, and lends a part of it again.
fn lend_again(room: &mut [u8], lent: &mut Vec<u8>, size: usize, change: impl FnOnce(&mut [u8])) {
    room[..lent.len()].copy_from_slice(lent);
    change(room);
    *lent = room[..size].to_vec();
}

/// Changes what is in the room, and lends as much of it as before.
fn change(room: &mut [u8], lent: &mut Vec<u8>, index: usize, bytes: &[u8]) {
    let size = lent.len();
    lend_again(room, lent, size, |room| {
        room[index..index + bytes.len()].copy_from_slice(bytes);
    });
}

impl Side {
    /// A side on which everything is to be set.
    fn new() -> Side {
        let shape = Shape {
            pages: 0,
            lines: 0,
            characters: 0,
        };
        Side {
            file: File::new(shape, Rights::default()),
            book: Book::new(shape),
            room: [vec![0; TEXT_ROOM], vec![0; LINES_ROOM], vec![0; PAGES_ROOM]],
        }
    }
}

impl Stage {
    /// A stage on which everything is to be set.
    pub fn new() -> Stage {
        Stage {
            first: Side::new(),
            other: Side::new(),
            row: Vec::new(),
            large: 0,
        }
    }

    /// A number of a script.
    pub fn number(&self, number: u32) -> usize {
        if number == LARGEST_NUMBER {
            self.large
        } else {
            number as usize
        }
    }

    /// A position of a script.
    pub fn position(&self, position: ScriptPosition) -> Position {
        Position::new(
            self.number(position.page),
            self.number(position.line),
            self.number(position.character),
        )
    }

    /// A shape of a script.
    pub fn shape(&self, shape: second::book::Shape) -> Shape {
        Shape {
            pages: self.number(shape.pages),
            lines: self.number(shape.lines),
            characters: self.number(shape.characters),
        }
    }

    /// The page, line and character that a call is given; 0 where it is given none.
    pub fn numbers(&self, call: &Call) -> [usize; 3] {
        let numbers = match call {
            Call::Set(to) => [to.page, to.line, to.character],
            Call::SetCharNumber(number) => [0, 0, *number],
            Call::View(page, line, _) => [*page, *line, 0],
            _ => [0, 0, 0],
        };
        numbers.map(|number| self.number(number))
    }

    /// A line that sets the scene, or exchanges the sides.
    pub fn set_scene(&mut self, line: &Line) {
        let Side { file, book, room } = &mut self.first;
        let [text, lines, pages] = room;
        match line {
            Line::Shape(shape) => self.first.file.shape = self.shape(*shape),
            Line::Lend(text_size, lines_size, pages_size) => {
                lend_again(text, &mut book.text, *text_size, |_| ());
                lend_again(lines, &mut book.lines, *lines_size, |_| ());
                lend_again(pages, &mut book.pages, *pages_size, |_| ());
            }
            Line::Rights(rights) => file.rights = rights_of(*rights),
            Line::Record([opened, reading, writing], position, choice) => {
                let (opened, reading, writing) = (*opened, *reading, *writing);
                self.first.file = File {
                    opened,
                    reading,
                    writing,
                    split: choice.unwrap_or(self.first.file.split),
                    position: self.position(*position),
                    ..self.first.file
                };
            }
            Line::End(end) => self.first.book.end = self.position(*end),
            Line::Fill(byte) => change(text, &mut book.text, 0, &[*byte; TEXT_ROOM]),
            Line::Text(index, bytes) => change(text, &mut book.text, *index, bytes),
            Line::Lines(index, bytes) => change(lines, &mut book.lines, *index, bytes),
            Line::Pages(index, bytes) => change(pages, &mut book.pages, *index, bytes),
            Line::Row(row) => self.row = row.clone(),
            Line::Swap => std::mem::swap(&mut self.first, &mut self.other),
            Line::Dump | Line::Call(_) | Line::Differ(_) => (),
        }
    }
}

/// The output that a call is lent, full of ee.
pub fn output_for(call: &Call) -> Vec<u8> {
    match call {
        Call::GetString(size, _) | Call::Whole(_, _, size) => vec![0xee; *size],
        _ => Vec::new(),
    }
}

/// A list for so many spans, full of ee. It has up to three bytes more than they need, since any length can be lent.
pub fn list_for(entries: usize) -> Vec<u8> {
    vec![0xee; 4 * entries + entries % 4]
}

/// The rights of a script.
pub fn rights_of(rights: second::book::Rights) -> Rights {
    Rights {
        get: rights.get,
        put: rights.put,
        set: rights.set,
        reset: rights.reset,
        compress: rights.compress,
    }
}
