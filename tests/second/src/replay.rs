//! The script player, of the format that README gives: reads a script, makes each call, writes one line for each.

use crate::book::{Book, File, Position, Rights, Shape};
use crate::calls;
use crate::calls::CallResult;
use crate::refusals::{Event, Signalled};
use crate::side::Side;
use crate::spans::{Looked, Span};

/// "T bytes of text (at most 70000), N line lengths (at most 1100), M page lengths (at most
/// 300)": the room that the player keeps.
pub const TEXT_ROOM: usize = 70_000;
pub const LINES_ROOM: usize = 1_100;
pub const PAGES_ROOM: usize = 300;

/// "A line is at most 140,000 bytes; a longer one is bad."
pub const LONGEST_LINE: usize = 140_000;

/// The largest output of `gets` and `whole`, and the most entries of the list of `differ`.
const LARGEST_OUTPUT: u64 = 4_096;

/// "Numbers are decimal, at most 65535 unless said."
const LARGEST_NUMBER: u64 = 65_535;

/// A call of a script, with its arguments.
#[derive(Clone, PartialEq, Eq, Debug)]
pub enum Call {
    Establish,
    Open,
    Close,
    Reset,
    PutCharacter(u8),
    PutString(Vec<u8>),
    PutInteger(i32),
    GetCharacter,
    GetString(usize, Vec<u8>),
    GetInteger,
    Space,
    Backspace,
    Newline,
    Newpage,
    Set(Position),
    SetCharNumber(u32),
    View(u32, u32, Vec<u8>),
    Whole(i32, i32, usize),
    /// The calls of C-14: true is `split`, false is `fit`.
    Choose(bool),
}

/// A line of a script that could be read.
#[derive(Clone, PartialEq, Eq, Debug)]
pub enum Line {
    Shape(Shape),
    Lend(usize, usize, usize),
    Rights(Rights),
    /// The flags, the position, and the choice of C-14 where the line has one.
    Record([bool; 3], Position, Option<bool>),
    End(Position),
    Fill(u8),
    Text(usize, Vec<u8>),
    Lines(usize, Vec<u8>),
    Pages(usize, Vec<u8>),
    Row(Vec<u32>),
    Swap,
    Dump,
    Call(Call),
    /// The call of C-11, with the entries of its list. It takes both sides, so it is no `Call`.
    Differ(usize),
}

/// A decimal number with a limit. Leading zeros are read; signs are not.
fn read_number(word: &[u8], largest: u64) -> Option<u64> {
    if word.is_empty() {
        return None;
    }
    let mut number: u64 = 0;
    for &byte in word {
        if !byte.is_ascii_digit() {
            return None;
        }
        number = number * 10 + u64::from(byte - b'0');
        if number > largest {
            return None;
        }
    }
    Some(number)
}

/// A number of a scene or a call, at most 65535.
fn read_small(word: &[u8]) -> Option<u32> {
    let number = read_number(word, LARGEST_NUMBER)?;
    u32::try_from(number).ok()
}

/// A size or an index, with its own limit.
fn read_size(word: &[u8], largest: u64) -> Option<usize> {
    let number = read_number(word, largest)?;
    usize::try_from(number).ok()
}

/// A number that may have a minus sign, from -(largest + 1) to largest.
fn read_signed(word: &[u8], largest: u64) -> Option<i32> {
    let number = match word.strip_prefix(b"-") {
        Some(digits) => -i64::try_from(read_number(digits, largest + 1)?).ok()?,
        None => i64::try_from(read_number(word, largest)?).ok()?,
    };
    i32::try_from(number).ok()
}

/// The value of one hex digit, "either case".
fn hex_digit(byte: u8) -> Option<u8> {
    let value = char::from(byte).to_digit(16)?;
    u8::try_from(value).ok()
}

/// One byte as two hex digits.
fn read_byte(word: &[u8]) -> Option<u8> {
    match word {
        [high, low] => Some(hex_digit(*high)? * 16 + hex_digit(*low)?),
        _ => None,
    }
}

/// "HEX is pairs of hex digits, `-` for none."
fn read_hex(word: &[u8]) -> Option<Vec<u8>> {
    if word == b"-" {
        return Some(Vec::new());
    }
    if word.is_empty() {
        return None;
    }
    word.chunks(2).map(read_byte).collect()
}

/// An answer word, 8 hex digits.
fn read_answer_word(word: &[u8]) -> Option<u32> {
    if word.len() != 8 {
        return None;
    }
    let bytes = read_hex(word)?;
    let number = bytes
        .iter()
        .fold(0, |sum, &byte| sum * 256 + u64::from(byte));
    u32::try_from(number).ok()
}

/// "Row W W ..: each 8 hex digits, at most 80."
fn read_row(words: &[&[u8]]) -> Option<Line> {
    if words.len() > 80 {
        return None;
    }
    let row: Option<Vec<u32>> = words.iter().map(|word| read_answer_word(word)).collect();
    row.map(Line::Row)
}

/// "Letters g p s r c for get, put, set, reset, compress, each at most once; `-` for none."
fn read_rights(word: &[u8]) -> Option<Rights> {
    let mut rights = Rights::default();
    if word == b"-" {
        return Some(rights);
    }
    if word.is_empty() {
        return None;
    }
    for letter in word {
        let right = match letter {
            b'g' => &mut rights.get,
            b'p' => &mut rights.put,
            b's' => &mut rights.set,
            b'r' => &mut rights.reset,
            b'c' => &mut rights.compress,
            _ => return None,
        };
        if *right {
            return None;
        }
        *right = true;
    }
    Some(rights)
}

/// A flag of `record`: 0 or 1.
fn read_flag(word: &[u8]) -> Option<bool> {
    read_number(word, 1).map(|number| number == 1)
}

/// Three numbers as a position.
fn read_position(page: &[u8], line: &[u8], character: &[u8]) -> Option<Position> {
    Some(Position::new(
        read_small(page)?,
        read_small(line)?,
        read_small(character)?,
    ))
}

/// "`record O R W p l c S` sets the choice too; with six numbers the line leaves the choice as it
/// is." The words after the line's name.
fn read_record(words: &[&[u8]]) -> Option<Line> {
    let [o, r, w, p, l, c, rest @ ..] = words else {
        return None;
    };
    let choice = match rest {
        [] => None,
        [split] => Some(read_flag(split)?),
        _ => return None,
    };
    Some(Line::Record(
        [read_flag(o)?, read_flag(r)?, read_flag(w)?],
        read_position(p, l, c)?,
        choice,
    ))
}

/// Bytes from an index, "a bad line where they do not fit the room".
fn read_placed(index: &[u8], hex: &[u8], room: usize) -> Option<(usize, Vec<u8>)> {
    let index = read_size(index, LARGEST_NUMBER)?;
    let bytes = read_hex(hex)?;
    if index + bytes.len() > room {
        return None;
    }
    Some((index, bytes))
}

/// The lines that set the scene, `swap` and `dump`.
fn read_scene_line(words: &[&[u8]]) -> Option<Line> {
    match words {
        [b"shape", p, l, c] => Some(Line::Shape(Shape {
            pages: read_small(p)?,
            lines: read_small(l)?,
            characters: read_small(c)?,
        })),
        [b"lend", t, n, m] => Some(Line::Lend(
            read_size(t, TEXT_ROOM as u64)?,
            read_size(n, LINES_ROOM as u64)?,
            read_size(m, PAGES_ROOM as u64)?,
        )),
        [b"rights", word] => read_rights(word).map(Line::Rights),
        [b"record", words @ ..] => read_record(words),
        [b"end", p, l, c] => read_position(p, l, c).map(Line::End),
        [b"fill", byte] => read_byte(byte).map(Line::Fill),
        [b"text", i, hex] => read_placed(i, hex, TEXT_ROOM).map(|(i, b)| Line::Text(i, b)),
        [b"lines", i, hex] => read_placed(i, hex, LINES_ROOM).map(|(i, b)| Line::Lines(i, b)),
        [b"pages", i, hex] => read_placed(i, hex, PAGES_ROOM).map(|(i, b)| Line::Pages(i, b)),
        [b"row", words @ ..] => read_row(words),
        [b"swap"] => Some(Line::Swap),
        [b"dump"] => Some(Line::Dump),
        _ => None,
    }
}

/// The calls on one side.
fn read_call(words: &[&[u8]]) -> Option<Call> {
    match words {
        [b"establish"] => Some(Call::Establish),
        [b"open"] => Some(Call::Open),
        [b"close"] => Some(Call::Close),
        [b"reset"] => Some(Call::Reset),
        [b"split"] => Some(Call::Choose(true)),
        [b"fit"] => Some(Call::Choose(false)),
        [b"putc", byte] => read_byte(byte).map(Call::PutCharacter),
        [b"puts", hex] => read_hex(hex).map(Call::PutString),
        [b"puti", value] => read_signed(value, 2_147_483_647).map(Call::PutInteger),
        [b"getc"] => Some(Call::GetCharacter),
        [b"gets", size, terminators] => Some(Call::GetString(
            read_size(size, LARGEST_OUTPUT)?,
            read_hex(terminators)?,
        )),
        [b"geti"] => Some(Call::GetInteger),
        [b"space"] => Some(Call::Space),
        [b"backspace"] => Some(Call::Backspace),
        [b"newline"] => Some(Call::Newline),
        [b"newpage"] => Some(Call::Newpage),
        [b"set", p, l, c] => read_position(p, l, c).map(Call::Set),
        [b"setc", number] => read_small(number).map(Call::SetCharNumber),
        [b"view", page, line, marker] => Some(Call::View(
            read_small(page)?,
            read_small(line)?,
            read_hex(marker)?,
        )),
        [b"whole", value, width, size] => Some(Call::Whole(
            read_signed(value, 2_147_483_647)?,
            read_signed(width, 32_767)?,
            read_size(size, LARGEST_OUTPUT)?,
        )),
        _ => None,
    }
}

/// Reads a line: "Words are separated by one blank." None when it is bad.
pub fn read_line(line: &[u8]) -> Option<Line> {
    let words: Vec<&[u8]> = line.split(|&byte| byte == b' ').collect();
    match words.as_slice() {
        [b"differ", size] => read_size(size, LARGEST_OUTPUT).map(Line::Differ),
        words => read_scene_line(words).or_else(|| read_call(words).map(Line::Call)),
    }
}

/// Bytes as pairs of hex digits in lower case, `-` for none.
pub fn write_hex(bytes: &[u8]) -> String {
    const DIGITS: [char; 16] = [
        '0', '1', '2', '3', '4', '5', '6', '7', '8', '9', 'a', 'b', 'c', 'd', 'e', 'f',
    ];
    if bytes.is_empty() {
        return "-".to_string();
    }
    let mut text = String::with_capacity(2 * bytes.len());
    for &byte in bytes {
        text.push(DIGITS[usize::from(byte >> 4)]);
        text.push(DIGITS[usize::from(byte & 15)]);
    }
    text
}

/// The name of a call in a script.
pub fn call_name(call: &Call) -> &'static str {
    match call {
        Call::Establish => "establish",
        Call::Open => "open",
        Call::Close => "close",
        Call::Reset => "reset",
        Call::PutCharacter(_) => "putc",
        Call::PutString(_) => "puts",
        Call::PutInteger(_) => "puti",
        Call::GetCharacter => "getc",
        Call::GetString(_, _) => "gets",
        Call::GetInteger => "geti",
        Call::Space => "space",
        Call::Backspace => "backspace",
        Call::Newline => "newline",
        Call::Newpage => "newpage",
        Call::Set(_) => "set",
        Call::SetCharNumber(_) => "setc",
        Call::View(_, _, _) => "view",
        Call::Whole(_, _, _) => "whole",
        Call::Choose(true) => "split",
        Call::Choose(false) => "fit",
    }
}

/// Makes a call. Outputs are lent full of ee.
pub fn make_call(call: &Call, file: &mut File, book: &mut Book, row: &[u32]) -> CallResult {
    match call {
        Call::Establish => calls::establish(file, book),
        Call::Open => calls::open(file, book),
        Call::Close => calls::close(file, book),
        Call::Reset => calls::reset(file, book),
        Call::PutCharacter(byte) => calls::put_character(file, book, row, *byte),
        Call::PutString(text) => calls::put_string(file, book, row, text),
        Call::PutInteger(value) => calls::put_integer(file, book, row, *value),
        Call::GetCharacter => calls::get_character(file, book, row),
        Call::GetString(size, terminators) => {
            calls::get_string(file, book, row, terminators, &mut vec![0xee; *size])
        }
        Call::GetInteger => calls::get_integer(file, book, row),
        Call::Space => calls::space(file, book, row),
        Call::Backspace => calls::backspace(file, book),
        Call::Newline => calls::newline(file, book, row),
        Call::Newpage => calls::newpage(file, book, row),
        Call::Set(target) => calls::set(file, book, row, *target),
        Call::SetCharNumber(number) => calls::set_char_number(file, book, row, *number),
        Call::View(page, line, marker) => calls::view(file, book, *page, *line, marker),
        Call::Whole(value, width, size) => calls::whole(*value, *width, &mut vec![0xee; *size]),
        Call::Choose(split) => calls::choose(file, book, *split),
    }
}

/// A position as three numbers.
pub fn write_position(place: Position) -> String {
    format!("{} {} {}", place.page, place.line, place.character)
}

/// The name of an event: "one of `logical`, `physical`, `page`, `line`, `character`, `value`".
pub fn event_name(event: Event) -> &'static str {
    match event {
        Event::LogicalEnd => "logical",
        Event::PhysicalEnd => "physical",
        Event::PageEnd => "page",
        Event::LineEnd => "line",
        Event::Character => "character",
        Event::Value => "value",
    }
}

/// An event and its position, `-` "where no event is given".
fn write_signalled(signalled: Option<Signalled>) -> String {
    match signalled {
        None => "-".to_string(),
        Some(Signalled { event, position }) => {
            format!("{} {}", event_name(event), write_position(position))
        }
    }
}

/// The call of C-11 on two sides. Its list is lent full of ee.
pub fn make_differ(size: usize, first: &mut Side, second: &mut Side) -> CallResult {
    let mut list = vec![Span::filled(0xee); size];
    first.lend(|file, book| {
        let one = Looked { file, book };
        second.lend(|file, book| calls::differ(one, Looked { file, book }, &mut list))
    })
}

/// The player: two sides, the answers for the next call, and the line being read. "All lines
/// and calls work on the first side."
#[derive(Default)]
pub struct Player {
    pub first: Side,
    pub second: Side,
    row: Vec<u32>,
    line_number: u64,
    unfinished: Vec<u8>,
}

impl Player {
    /// "Both are alike at the start", and there are no answers.
    pub fn new() -> Player {
        Player::default()
    }

    /// Takes the next bytes of the script, whatever they are, and plays the lines they end.
    pub fn feed(&mut self, bytes: &[u8], output: &mut Vec<u8>) {
        let mut pieces = bytes.split(|&byte| byte == b'\n');
        self.keep(pieces.next().unwrap_or(&[]));
        for piece in pieces {
            self.end_line(output);
            self.keep(piece);
        }
    }

    /// "A line ends at a line feed; the last one may lack it."
    pub fn finish(&mut self, output: &mut Vec<u8>) {
        if !self.unfinished.is_empty() {
            self.end_line(output);
        }
    }

    /// Keeps bytes of the line being read, one more than the longest line at most.
    fn keep(&mut self, piece: &[u8]) {
        let room = (LONGEST_LINE + 1).saturating_sub(self.unfinished.len());
        let kept = piece.get(..room).unwrap_or(piece);
        self.unfinished.extend_from_slice(kept);
    }

    /// Plays the line that has been read.
    fn end_line(&mut self, output: &mut Vec<u8>) {
        let line = std::mem::take(&mut self.unfinished);
        self.play_line(&line, output);
    }

    /// One line. "A line that it cannot read does nothing and prints `bad line N`."
    pub fn play_line(&mut self, line: &[u8], output: &mut Vec<u8>) {
        self.line_number += 1;
        let too_long = line.len() > LONGEST_LINE;
        if !too_long && (line.is_empty() || line.starts_with(b"#")) {
            return;
        }
        let read = if too_long { None } else { read_line(line) };
        match read {
            None => output.extend(format!("bad line {}\n", self.line_number).bytes()),
            Some(Line::Call(call)) => self.play_call(&call, output),
            Some(Line::Differ(size)) => self.play_differ(size, output),
            Some(Line::Swap) => std::mem::swap(&mut self.first, &mut self.second),
            Some(Line::Dump) => self.dump(output),
            Some(scene) => self.set_scene(scene),
        }
    }

    /// The lines that set the scene: no output.
    fn set_scene(&mut self, line: Line) {
        let side = &mut self.first;
        match line {
            Line::Shape(shape) => side.file.shape = shape,
            Line::Lend(text, lines, pages) => side.lent = (text, lines, pages),
            Line::Rights(rights) => side.file.rights = rights,
            Line::Record(flags, position, choice) => {
                let file = &mut side.file;
                [file.opened, file.read_mood, file.write_mood] = flags;
                file.position = position;
                file.split = choice.unwrap_or(file.split);
            }
            Line::End(end) => side.logical_end = end,
            Line::Fill(byte) => side.text.fill(byte),
            Line::Text(index, bytes) => copy_into(&mut side.text, index, &bytes),
            Line::Lines(index, bytes) => copy_into(&mut side.line_lengths, index, &bytes),
            Line::Pages(index, bytes) => copy_into(&mut side.page_lengths, index, &bytes),
            Line::Row(row) => self.row = row,
            Line::Swap | Line::Dump | Line::Call(_) | Line::Differ(_) => (),
        }
    }

    /// Makes a call on the first side. "A row serves the next call, whatever call that is and
    /// whether or not it is refused."
    fn play_call(&mut self, call: &Call, output: &mut Vec<u8>) {
        let row = std::mem::take(&mut self.row);
        let result = self
            .first
            .lend(|file, book| make_call(call, file, book, &row));
        self.show(call_name(call), &result, output);
    }

    /// Compares the first side with the second. The row has served, though the call takes none.
    fn play_differ(&mut self, size: usize, output: &mut Vec<u8>) {
        self.row.clear();
        let result = make_differ(size, &mut self.first, &mut self.second);
        self.show("differ", &result, output);
    }

    /// "NAME NUMBER EVENTS TAKEN STOP COUNT VALUE BYTES | OPENED READ WRITE p l c | p l c", with
    /// C-12 "one more group at its end: ` | EVENT p l c`, or ` | -`", and with C-14 "the choice as
    /// [the record's] seventh number".
    fn show(&self, name: &str, result: &CallResult, output: &mut Vec<u8>) {
        let value = result.value.map_or("-".to_string(), |n| n.to_string());
        let file = &self.first.file;
        let shown = format!(
            "{} {} {} {} {} {} {} {} | {} {} {} {} {} | {} | {}\n",
            name,
            result.number,
            result.events,
            result.taken,
            result.stop,
            result.count,
            value,
            write_hex(&result.bytes),
            u8::from(file.opened),
            u8::from(file.read_mood),
            u8::from(file.write_mood),
            write_position(file.position),
            u8::from(file.split),
            write_position(self.first.logical_end),
            write_signalled(result.signalled),
        );
        output.extend(shown.bytes());
    }

    /// "`dump` writes three lines, `lines HEX`, `pages HEX` and `text HEX`: the lent parts."
    fn dump(&self, output: &mut Vec<u8>) {
        for (name, part) in self.first.lent_parts() {
            output.extend(format!("{name} {}\n", write_hex(part)).bytes());
        }
    }
}

/// Copies bytes to an index; `read_placed` has tested that they fit.
fn copy_into(room: &mut [u8], index: usize, bytes: &[u8]) {
    for (place, byte) in room.iter_mut().skip(index).zip(bytes) {
        *place = *byte;
    }
}

/// Plays a whole script and gives what it writes.
pub fn replay(script: &[u8]) -> Vec<u8> {
    let mut player = Player::new();
    let mut output = Vec::new();
    player.feed(script, &mut output);
    player.finish(&mut output);
    output
}
