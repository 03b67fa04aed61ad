//! Random records, books, answers and calls, good most often, on which the sides must agree.

use crate::book::{File, Position, Rights, Scene, Shape};
use crate::random::Random;

/// A call with its arguments. The size is that of the lent output.
#[derive(Clone, Debug)]
pub enum Call {
    Establish,
    Open,
    Close,
    Choose(bool),
    Reset,
    Backspace,
    PutCharacter(u8),
    PutString(Vec<u8>),
    PutInteger(i32),
    GetCharacter,
    GetString {
        terminators: Vec<u8>,
        size: usize,
    },
    GetInteger,
    Space,
    Newline,
    Newpage,
    Set(Position),
    SetCharacterNumber(usize),
    View {
        page: usize,
        line: usize,
        marker: Vec<u8>,
    },
    Whole {
        value: i32,
        width: i32,
        size: usize,
    },
}

/// Bytes that signal a character event.
const ODD: [u8; 6] = [0, 10, 31, 127, 128, 255];

fn random_integer(random: &mut Random) -> i32 {
    let limits = [
        0,
        1,
        -1,
        9,
        10,
        -99,
        1_000_000_000,
        2_147_483_647,
        -2_147_483_647,
        i32::MIN,
    ];
    match random.between(0, 2) {
        0 => random.pick(&limits),
        1 => random.between(0, 2000) as i32 - 1000,
        _ => random.between(0, u32::MAX as usize) as u32 as i32,
    }
}

/// A text of letters, of integers with signs and blanks, or of any bytes.
fn random_text(random: &mut Random, length: usize) -> Vec<u8> {
    let style = random.between(0, 3);
    let odd = random.pick(&[0, 0, 1, 3, 20]);
    let mut text = Vec::new();
    while text.len() < length {
        match style {
            _ if random.chance(odd) => text.push(random.pick(&ODD)),
            0 => text.push(random.between(32, 126) as u8),
            1 => text.push(random.pick(b"0123456789 +-")),
            2 => text.extend(format!("{:+5} ", random_integer(random)).bytes()),
            _ => text.push(random.between(97, 122) as u8),
        }
    }
    text.truncate(length);
    text
}

fn random_shape(random: &mut Random) -> Shape {
    let large = [
        (2, 3, 8),
        (1, 64, 80),
        (4, 255, 60),
        (255, 4, 64),
        (1, 1, 255),
        (255, 1, 255),
    ];
    let (pages, lines, characters) = if random.chance(3) {
        random.pick(&large)
    } else {
        let most = random.pick(&[3, 13, 14, 30]);
        (
            random.between(1, 3),
            random.between(1, 4),
            random.between(1, most),
        )
    };
    Shape {
        pages,
        lines,
        characters,
    }
}

/// Lengths up to the most, the most itself often.
fn random_lengths(random: &mut Random, count: usize, most: usize) -> Vec<u8> {
    let full = random.pick(&[30, 80, 100]);
    (0..count)
        .map(|_| {
            if random.chance(full) {
                most as u8
            } else {
                random.between(0, most) as u8
            }
        })
        .collect()
}

fn length_of_line(scene: &Scene, page: usize, line: usize) -> usize {
    let lines = scene
        .pages
        .get(page.wrapping_sub(1))
        .map_or(0, |&length| length.into());
    if line == 0 || line > lines {
        return 0;
    }
    let index = (page - 1) * scene.file.shape.lines + line - 1;
    scene.lines.get(index).map_or(0, |&length| length.into())
}

/// A place in bounds.
fn random_place(random: &mut Random, scene: &Scene) -> Position {
    let (past_pages, past_lines) = (random.chance(20), random.chance(30));
    let page = random.between(1, scene.pages.len() + usize::from(past_pages));
    let lines = scene
        .pages
        .get(page - 1)
        .map_or(0, |&length| usize::from(length));
    let line = random.between(1, (lines + usize::from(past_lines)).max(1));
    Position::new(
        page,
        line,
        random.between(1, length_of_line(scene, page, line) + 1),
    )
}

fn random_rights(random: &mut Random) -> Rights {
    let both = random.chance(80);
    let get = both || random.chance(50);
    Rights {
        get,
        put: both || !get,
        set: random.chance(50),
        reset: random.chance(80),
        compress: random.chance(50),
    }
}

fn good_scene(random: &mut Random) -> Scene {
    let shape = random_shape(random);
    let rights = random_rights(random);
    let reading = rights.get && random.chance(40);
    let lines = shape.pages * shape.lines;
    let mut scene = Scene {
        file: File {
            opened: random.chance(97),
            reading,
            writing: !reading && rights.put && random.chance(80),
            split: random.chance(50),
            position: Position::START,
            shape,
            rights,
        },
        end: Position::START,
        text: random_text(random, lines * shape.characters),
        lines: random_lengths(random, lines, shape.characters),
        pages: random_lengths(random, shape.pages, shape.lines),
    };
    scene.end = random_place(random, &scene).max(random_place(random, &scene));
    let place = random_place(random, &scene);
    scene.file.position = if place <= scene.end {
        place
    } else {
        random.pick(&[Position::START, scene.end])
    };
    scene
}

fn bad_number(random: &mut Random, number: usize) -> usize {
    random.pick(&[
        0,
        256,
        65_535,
        usize::MAX,
        number.wrapping_sub(1),
        number + 1,
        number + 2,
    ])
}

fn bad_position(random: &mut Random, place: Position) -> Position {
    let mut bad = place;
    let field = match random.between(0, 2) {
        0 => &mut bad.page,
        1 => &mut bad.line,
        _ => &mut bad.character,
    };
    *field = bad_number(random, *field);
    bad
}

/// One length above its limit.
fn spoil_length(random: &mut Random, lengths: &mut [u8], most: usize) {
    let index = random.between(0, lengths.len() - 1);
    lengths[index] = random.pick(&[255, most.wrapping_add(1) as u8]);
}

/// Breaks one thing that a refusal before work asks for.
fn spoil(random: &mut Random, scene: &mut Scene) {
    let shape = &mut scene.file.shape;
    match random.between(0, 11) {
        0 => shape.pages = bad_number(random, shape.pages),
        1 => shape.lines = bad_number(random, shape.lines),
        2 => shape.characters = bad_number(random, shape.characters),
        3 => scene.text.push(b' '),
        4 => scene.lines.push(0),
        5 => scene.pages.push(0),
        6 => scene.end = bad_position(random, scene.end),
        7 => scene.file.position = bad_position(random, scene.end),
        8 => (scene.file.reading, scene.file.writing) = (random.chance(60), true),
        9 => (scene.file.rights.get, scene.file.rights.put) = (false, random.chance(50)),
        10 => spoil_length(random, &mut scene.pages, shape.lines),
        _ => spoil_length(random, &mut scene.lines, shape.characters),
    }
}

pub fn random_scene(random: &mut Random) -> Scene {
    let mut scene = good_scene(random);
    if random.chance(10) {
        spoil(random, &mut scene);
    }
    scene
}

/// A place to set to: inside, at and past the end, out of bounds, with a 0.
fn random_target(random: &mut Random, scene: &Scene) -> Position {
    let (end, inside) = (scene.end, random_place(random, scene));
    let past = Position::new(end.page, end.line, end.character.saturating_add(1));
    let bad = bad_position(random, inside);
    random.pick(&[
        inside,
        inside,
        inside,
        end,
        past,
        Position::START,
        bad,
        scene.file.position,
    ])
}

fn answer_word(random: &mut Random, scene: &Scene, kind: u32) -> u32 {
    let fields = match kind {
        4 => {
            let to = random_target(random, scene);
            let field = |number: usize, mask: usize, shift: u32| ((number & mask) as u32) << shift;
            field(to.page, 511, 19) | field(to.line, 511, 10) | field(to.character, 1023, 0)
        }
        7 => u32::from(random.pick(&[b'0', b'5', b'9', b'x', b' ', 0, 31, 127, 255])),
        _ => 0,
    };
    kind << 28 | fields
}

/// A row of answers: mixed, of layout answers that signal events themselves, or of one kind; bad now and then.
pub fn random_row(random: &mut Random, scene: &Scene) -> Vec<u32> {
    let kinds: &[u32] = match random.between(0, 4) {
        0 | 1 => &[0, 0, 1, 2, 2, 3, 4, 5, 6, 7, 7, 8],
        2 => &[2, 3, 4, 5, 6],
        3 => &[2],
        _ => &[1, 7],
    };
    let length = random.pick(&[0, 0, 0, 1, 2, 3, 5, 12, 64]);
    let mut row = Vec::new();
    for _ in 0..length {
        let kind = random.pick(kinds);
        row.push(answer_word(random, scene, kind));
    }
    match random.between(0, 60) {
        0 => row.push(random.pick(&[
            9 << 28,
            15 << 28,
            7 << 28 | 256,
            2 << 28 | 1,
            1 << 10,
            1 << 19,
        ])),
        1 => row.resize(65, 0),
        _ => (),
    }
    row
}

fn random_put(random: &mut Random, scene: &Scene) -> Call {
    let line = scene.file.shape.characters.min(255);
    match random.between(0, 9) {
        0 => Call::PutCharacter(random.byte()),
        1 | 2 => Call::PutCharacter(random.between(32, 126) as u8),
        3 | 4 => Call::PutInteger(random_integer(random)),
        _ => {
            let most = random.pick(&[4, line, 2 * line + 2, scene.text.len().min(600)]);
            let length = random.between(0, most);
            Call::PutString(random_text(random, length))
        }
    }
}

fn random_get(random: &mut Random, scene: &Scene) -> Call {
    let line = scene.file.shape.characters.min(255);
    match random.between(0, 9) {
        0 | 1 => Call::GetCharacter,
        2..=4 => Call::GetInteger,
        _ => Call::GetString {
            terminators: random.pick(&[&b""[..], b"", b" ", b"e5", b"\0x+"]).to_vec(),
            size: random.pick(&[0, 3, 12, line, line + 1, 3 * line, 600]),
        },
    }
}

fn random_view(random: &mut Random, scene: &Scene) -> Call {
    let (end, inside, bad) = (
        scene.end,
        random_place(random, scene),
        bad_position(random, scene.end),
    );
    let place = random.pick(&[end, inside, inside, bad]);
    Call::View {
        page: place.page,
        line: place.line,
        marker: random.pick(&[&b""[..], b"(blank)"]).to_vec(),
    }
}

fn random_whole(random: &mut Random) -> Call {
    let width = random.pick(&[0, 1, 2, 5, 10, 11, 12, 255, 256]);
    Call::Whole {
        value: random_integer(random),
        width: if random.chance(50) { width } else { -width },
        size: random.pick(&[0, 5, 11, 12, 255, 300]),
    }
}

fn random_layout(random: &mut Random, scene: &Scene) -> Call {
    let here = scene.file.position.character;
    let length = length_of_line(scene, scene.file.position.page, scene.file.position.line);
    match random.between(0, 9) {
        0 | 1 => Call::Space,
        2 => Call::Backspace,
        3..=5 => Call::Newline,
        6 => Call::Newpage,
        7 => Call::Set(random_target(random, scene)),
        8 => Call::SetCharacterNumber(random.pick(&[
            0,
            1,
            here,
            length,
            length + 1,
            length + 2,
            usize::MAX,
        ])),
        _ => Call::Reset,
    }
}

/// Any call, puts and gets most often; a way back where the record stands at the end of the book.
pub fn random_call(random: &mut Random, scene: &Scene) -> Call {
    let file = &scene.file;
    if (!file.opened || file.position.page > file.shape.pages) && random.chance(50) {
        return match random.between(0, 2) {
            0 => Call::Establish,
            1 => Call::Open,
            _ => Call::Reset,
        };
    }
    let reads = if file.rights.set {
        random.chance(50)
    } else {
        file.reading
    };
    match random.between(0, 19) {
        0..=8 if reads => random_get(random, scene),
        0..=8 => random_put(random, scene),
        9..=14 => random_layout(random, scene),
        15 | 16 => random_view(random, scene),
        17 => random_whole(random),
        18 if random.chance(50) => Call::Open,
        18 => Call::Choose(random.chance(60)),
        _ if random.chance(50) => Call::Establish,
        _ => Call::Close,
    }
}
