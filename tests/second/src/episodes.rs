//! Random episodes as scripts of the format that README gives: a scene that sets everything, or two of them, then calls
//! with their rows, changes of the scene, bad lines and dumps.

use crate::book::{line_length, record_and_book_fit, text_index};
use crate::book::{Book, File, Position, Rights};
use crate::pairs::other_scene;
use crate::random::Random;
use crate::replay::{call_name, write_hex, write_position, Call, Player};
use crate::scenes::{good_scene, Hints, Scene, Style, JUMP, LARGE, NEWLINE};
use crate::scenes::{hints_of, random_call, random_put, random_row, random_scene};
use crate::scenes::{random_target, random_text};
use crate::spans::{differing_spans, Looked};

/// A script, line by line, without the line feeds.
pub type Script = Vec<Vec<u8>>;

/// The books of the episodes: one only, for a program without C-11, or two in about half of
/// them.
#[derive(Clone, Copy, PartialEq, Eq, Debug)]
pub enum Books {
    One,
    Two,
}

/// Lines that the script format calls bad, and some that do nothing, with bars between them.
const ODD_LINES: &str = "\
    newline | newline|newlines|Newline|newline\r|new line|putc|putc 6|putc 6g|putc 616|\
    putc -|putc 61 61|puts|puts 6|puts 61 61|puts --|puts -61|puts 6 1|puts  61|puti|\
    puti +5|puti  5|puti 5 |puti -|puti --5|puti 5-|puti 2147483648|puti -2147483649|\
    puti 99999999999999999999999|puti 0x5|puti 1e3|puti 1.0|set 1 2|set 1 2 3 4|\
    set 1 2 65536|set -1 1 1|set 1,1,1|set|setc|setc 65536|setc -1|setc +1|gets|gets 3|\
    gets 4097 -|gets 3 6|gets - -|gets -1 -|getc 1|geti 1|view 1 1|view 1 1 g0|\
    view 65536 1 -|view 1 1 - -|whole 1 32768 4|whole 1 -32769 4|whole 1 2|\
    whole 1 2 4097|whole 2147483648 0 20|whole 1 +2 4|row 0000000|row 000000000|\
    row 0000000g|row |row 20000000 |row  20000000|row -|record 2 0 0 1 1 1|\
    record 1 0 0 1 1|record 1 0 0 1 1 65536|record 1 0 0 1 1 1 2|record 1 0 0 1 1 1 -|\
    record 1 0 0 1 1 1 |record 1 0 0 1 1 1 0 0|split 1|split |Split|splits|split\r|fit 0|\
    fit -|Fit|fits|# split|# fit|rights|rights gg|rights gpx|rights G|\
    rights g-|rights g p|lend 70001 6 2|lend 48 1101 2|lend 48 6 301|lend 48 6|\
    shape 1 1|shape 65536 1 1|shape -1 1 1|end 1 1|end 1 1 65536|fill 6|fill 616|fill -|\
    text 65536 61|text 0|lines 1100 00|pages 300 00|dump 1||#|# puts 61|Swap|swap 1|swap |\
    swap\r|differ|differ -|differ -1|differ +1|differ 4097|differ 1 1|differ 1 |differ  1|\
    differ 1.0|differ ee|differs 1|# swap|# differ 1";

/// The rights as a word of a script, beginning with any of its letters.
pub fn write_rights(rights: Rights, turn: usize) -> String {
    let letters = [
        ('g', rights.get),
        ('p', rights.put),
        ('s', rights.set),
        ('r', rights.reset),
        ('c', rights.compress),
    ];
    let has = letters.iter().filter(|(_, right)| *right);
    let mut word: Vec<char> = has.map(|(letter, _)| *letter).collect();
    if word.is_empty() {
        return "-".to_string();
    }
    let turn = turn % word.len();
    word.rotate_left(turn);
    word.into_iter().collect()
}

/// A call as a line of a script.
pub fn write_call(call: &Call) -> String {
    let name = call_name(call);
    match call {
        Call::PutCharacter(byte) => format!("{name} {byte:02x}"),
        Call::PutString(text) => format!("{name} {}", write_hex(text)),
        Call::PutInteger(value) => format!("{name} {value}"),
        Call::GetString(size, terminators) => format!("{name} {size} {}", write_hex(terminators)),
        Call::Set(target) => format!("{name} {}", write_position(*target)),
        Call::SetCharNumber(number) => format!("{name} {number}"),
        Call::View(page, line, marker) => format!("{name} {page} {line} {}", write_hex(marker)),
        Call::Whole(value, width, size) => format!("{name} {value} {width} {size}"),
        _ => name.to_string(),
    }
}

/// A record's line: opened and the moods, the position, and the choice of C-14 if it is set too.
fn write_record(flags: [bool; 3], position: Position, choice: Option<bool>) -> String {
    let [opened, read_mood, write_mood] = flags.map(u8::from);
    let split = choice.map_or(String::new(), |split| format!(" {}", u8::from(split)));
    format!(
        "record {opened} {read_mood} {write_mood} {}{split}",
        write_position(position)
    )
}

/// The flags of a record, as its line has them.
fn flags_of(file: &File) -> [bool; 3] {
    [file.opened, file.read_mood, file.write_mood]
}

/// The choice of a record's line in the middle of an episode; often it is left as it is.
fn random_choice(random: &mut Random) -> Option<bool> {
    random.pick([None, None, None, Some(true), Some(false)])
}

/// A row's line.
fn write_row(row: &[u32]) -> String {
    let words: Vec<String> = row.iter().map(|word| format!(" {word:08x}")).collect();
    format!("row{}", words.concat())
}

/// What is known of a side: how its characters look, and how many lengths its scene set.
#[derive(Clone, Copy)]
struct Known {
    style: Style,
    covered: (usize, usize),
}

/// An episode being made: every line is played as it is added, so that the next can be chosen
/// by where the record stands. The second side is used only where it was set.
struct Maker<'m> {
    random: Random,
    player: &'m mut Player,
    output: &'m mut Vec<u8>,
    lines: Script,
    first: Known,
    second: Option<Known>,
    patches_seed: u64,
}

/// Makes an episode, playing it on the given player.
pub fn make_episode(
    mut random: Random,
    books: Books,
    player: &mut Player,
    output: &mut Vec<u8>,
) -> Script {
    let patches_seed = random.draw();
    let mut maker = Maker {
        random,
        player,
        output,
        lines: Vec::new(),
        first: Known {
            style: Style::Letters,
            covered: (0, 0),
        },
        second: None,
        patches_seed,
    };
    let scene = random_scene(&mut maker.random);
    maker.set_scene(&scene);
    if books == Books::Two && maker.random.chance(50) {
        maker.set_second_scene(&scene);
    }
    maker.add_slots();
    if maker.random.chance(if maker.is_large() { 20 } else { 88 }) {
        maker.add("dump");
    }
    maker.lines
}

impl Maker<'_> {
    fn add(&mut self, line: impl AsRef<[u8]>) {
        let mut line = line.as_ref().to_vec();
        line.retain(|&byte| byte != b'\n');
        self.player.play_line(&line, self.output);
        self.lines.push(line);
    }

    fn is_large(&self) -> bool {
        self.player.first.lent.0 > LARGE
    }

    /// The calls of an episode, and what stands between them.
    fn add_slots(&mut self) {
        let calls = match self.random.below(3) {
            0 => self.random.between(1, 5),
            1 => self.random.between(3, 12),
            _ => self.random.between(10, 25),
        };
        for _ in 0..calls {
            if !self.fits() && self.random.chance(25) {
                let scene = good_scene(&mut self.random);
                self.set_scene(&scene);
            }
            self.add_slot();
        }
    }

    /// A scene for the second side, and a first look at where the two differ.
    fn set_second_scene(&mut self, scene: &Scene) {
        let other = other_scene(&mut self.random, scene);
        self.second = Some(self.first);
        self.add_swap();
        self.set_scene(&other);
        if self.random.chance(50) {
            self.add_swap();
        }
        self.add_differ();
    }

    /// Exchanges the sides, where there are two.
    fn add_swap(&mut self) {
        if let Some(second) = &mut self.second {
            std::mem::swap(&mut self.first, second);
            self.add("swap");
        }
    }

    /// How many spans the two sides differ in; none where a record or a book is refused.
    fn spans_needed(&mut self) -> Option<usize> {
        let Player { first, second, .. } = &mut *self.player;
        first.lend(|file, book| {
            let one = Looked { file, book };
            second.lend(|file, book| {
                let fit =
                    record_and_book_fit(one.file, one.book) && record_and_book_fit(file, book);
                let other = Looked { file, book };
                fit.then(|| differing_spans(one, other).len())
            })
        })
    }

    /// A look at where the two sides differ, with a list about as long as it needs.
    fn add_differ(&mut self) {
        if self.second.is_none() {
            return;
        }
        let few = self.random.below(7);
        let needed = self.spans_needed().unwrap_or(few);
        let sizes = [
            needed,
            needed,
            needed,
            needed.saturating_sub(1),
            needed + 1,
            needed + 3,
            few,
            0,
        ];
        let size = if self.random.rarely(1) && self.random.chance(40) {
            4096
        } else {
            self.random.pick(sizes).min(4096)
        };
        self.add_varied(format!("differ {size}"));
    }

    /// Everything that a script can set, so that nothing comes from the episode before.
    fn set_scene(&mut self, scene: &Scene) {
        let file = &scene.file;
        let shape = file.shape;
        let (text, lines, pages) = scene.lent;
        let turn = self.random.below(5);
        self.first = Known {
            style: scene.style,
            covered: (scene.line_lengths.len(), scene.page_lengths.len()),
        };
        self.add("row");
        self.add(format!(
            "shape {} {} {}",
            shape.pages, shape.lines, shape.characters
        ));
        self.add(format!("lend {text} {lines} {pages}"));
        self.add(format!("rights {}", write_rights(file.rights, turn)));
        self.add(format!("fill {:02x}", scene.fill));
        self.add(format!("lines 0 {}", write_hex(&scene.line_lengths)));
        self.add(format!("pages 0 {}", write_hex(&scene.page_lengths)));
        self.add_text(scene);
        self.add(format!("end {}", write_position(scene.logical_end)));
        let choice = Some(file.split);
        self.add(write_record(flags_of(file), file.position, choice));
        if self.random.chance(45) {
            let start = self.random.pick(["establish", "open", "reset", "open"]);
            self.add(start);
        }
        if self.random.chance(30) {
            let call = self.random.pick(["split", "split", "fit"]);
            self.add(call);
        }
    }

    /// The text of a scene; of a large book most often a few parts, the same ones on both
    /// sides, so that large books may be nearly alike.
    fn add_text(&mut self, scene: &Scene) {
        if scene.text.len() <= LARGE || self.random.chance(10) {
            self.add(format!("text 0 {}", write_hex(&scene.text)));
            return;
        }
        let mut patches = Random::new(self.patches_seed);
        for _ in 0..4 {
            let start = patches.below(scene.text.len());
            let start = patches.pick([0, start, start]).min(65_535);
            let part: Vec<u8> = scene.text.iter().skip(start).take(300).copied().collect();
            self.add(format!("text {start} {}", write_hex(&part)));
        }
    }

    /// Lends the record and the book for a question.
    fn asked<T>(&mut self, question: impl FnOnce(&File, &Book) -> T) -> T {
        self.player.first.lend(|file, book| question(file, book))
    }

    /// Whether refusal 3 has nothing against the record and the book just now.
    fn fits(&mut self) -> bool {
        self.asked(record_and_book_fit)
    }

    /// What is known about the record and the book just now.
    fn hints(&mut self) -> Hints {
        let style = self.first.style;
        self.asked(|file, book| hints_of(file, book, style))
    }

    /// A call that crosses the logical end, from a record made for it: set char number while
    /// reading, or set with no mood, with answers to the event.
    fn add_crossing(&mut self) {
        let hints = self.hints();
        let end = hints.end;
        let place = Position {
            character: self.random.between(1, end.character),
            ..end
        };
        let row = random_row(&mut self.random, &hints);
        let choice = random_choice(&mut self.random);
        let line = if hints.file.rights.get && self.random.chance(60) {
            self.add(write_record([true, true, false], place, choice));
            format!("setc {}", end.character + self.random.between(1, 2))
        } else {
            self.add(write_record([true, false, false], place, choice));
            let past = Position {
                character: end.character + 1,
                ..end
            };
            format!("set {}", write_position(past))
        };
        self.add_varied(write_row(&row));
        self.add(line);
    }

    /// A get of an integer above the largest, from digits made for it on the end's line or on
    /// the first; a blank or a line end ends them. The value event is often jumped from, also
    /// after that line end.
    fn add_large_integer(&mut self) {
        let hints = self.hints();
        let end = hints.end;
        let place = match end.character > 11 {
            true => Position::new(end.page, end.line, 1),
            false => Position::START,
        };
        let index = text_index(hints.file.shape, place).filter(|_| hints.file.rights.get);
        let Some(index) = index else {
            return;
        };
        let mut digits = vec![self.random.pick([b'3', b'9']); self.random.pick([10, 11, 30])];
        digits.push(b' ');
        self.add(format!("text {index} {}", write_hex(&digits)));
        self.add(write_record([true, true, false], place, None));
        let row = match self.random.below(8) {
            0 => vec![JUMP],
            1 | 2 => vec![0, JUMP],
            3 => random_row(&mut self.random, &hints),
            _ => Vec::new(),
        };
        self.add(write_row(&row));
        self.add("geti");
    }

    /// A book that is written, and written again from the start on the next nights (C-13). Only
    /// where the logical end can go back and lengths with it.
    fn add_nights(&mut self) {
        let rights = self.player.first.file.rights;
        if !rights.put || !rights.reset || !rights.compress || rights.set {
            return;
        }
        self.add_short_lines();
        for _ in 0..self.random.between(1, 3) {
            let start = self.random.pick(["reset", "reset", "open"]);
            self.add(start);
            let hints = self.hints();
            let put = random_put(&mut self.random, &hints);
            self.add_with_row(write_call(&put), &hints);
            self.add_short_lines();
        }
    }

    /// A few lines of a book, most of them short, now and then the last ones of their page.
    fn add_short_lines(&mut self) {
        for _ in 0..self.random.between(0, 3) {
            let hints = self.hints();
            let most = hints.file.shape.characters.min(40) as usize;
            let length = self.random.below(most + 1);
            let text = random_text(&mut self.random, hints.style, length);
            self.add_with_row(format!("puts {}", write_hex(&text)), &hints);
            let next = self.random.pick(["newline", "newline", "newpage"]);
            self.add(next);
        }
    }

    /// A choice of C-14, by its call or by the record's line, on a record of any kind.
    fn add_choice(&mut self) {
        let split = self.random.chance(50);
        let file = self.player.first.file;
        let line = match self.random.chance(60) {
            true => write_call(&Call::Choose(split)),
            false => write_record(flags_of(&file), file.position, Some(split)),
        };
        self.add(line);
    }

    /// A writer made for a string that is to meet a line end, with a choice that was made by the
    /// record's line, by a call, or before.
    fn add_writer(&mut self, place: Position) {
        let split = self.random.chance(50);
        let writes = self.random.chance(85);
        let by_line = Some(split).filter(|_| self.random.chance(50));
        self.add(write_record([true, false, writes], place, by_line));
        if by_line.is_none() && self.random.chance(70) {
            self.add(write_call(&Call::Choose(split)));
        }
    }

    /// A string that just fits its line, or is a little too long for it, or goes over several
    /// lines (C-14), with answers and without.
    fn add_long_string(&mut self) {
        let hints = self.hints();
        let here = hints.file.position;
        let place = self.random.pick([here, hints.end, Position::START]);
        let shape = hints.file.shape;
        let length = self.asked(|_, book| line_length(shape, book, place.page, place.line));
        let room = (length + 1).saturating_sub(place.character) as usize;
        let over = self.random.pick([0, 1, 1, 2, length as usize + 1]);
        let text = random_text(&mut self.random, hints.style, room + over);
        if hints.file.rights.put {
            self.add_writer(place);
        }
        let row = match self.random.below(10) {
            0 | 1 => vec![0],
            2 => vec![NEWLINE],
            3 => vec![NEWLINE, 0],
            4 | 5 => random_row(&mut self.random, &hints),
            _ => Vec::new(),
        };
        self.add(write_row(&row));
        self.add_varied(format!("puts {}", write_hex(&text)));
    }

    /// A call's line, now and then with a row before it.
    fn add_with_row(&mut self, line: String, hints: &Hints) {
        if self.random.chance(20) {
            let row = random_row(&mut self.random, hints);
            self.add_varied(write_row(&row));
        }
        self.add_varied(line);
    }

    /// One call, and what may stand before and after it.
    fn add_slot(&mut self) {
        if self.random.chance(8) {
            self.add_swap();
        }
        self.add_before_call();
        let hints = self.hints();
        let mut lines = Vec::new();
        if self.random.chance(45) {
            let row = random_row(&mut self.random, &hints);
            lines.push(write_row(&row));
        }
        lines.push(write_call(&random_call(&mut self.random, &hints)));
        self.add_call(&lines);
        if self.second.is_some() && self.random.chance(15) {
            self.add_swap();
            self.add_call(&lines);
            if self.random.chance(60) {
                self.add_swap();
            }
        }
        if self.random.chance(25) {
            self.add_differ();
        }
        if !self.is_large() && self.random.chance(12) {
            self.add("dump");
        }
    }

    /// What may stand before the row of a call.
    fn add_before_call(&mut self) {
        if self.random.chance(4) {
            self.add_change();
        }
        let file = self.player.first.file;
        if !file.opened && self.random.chance(15) {
            let choice = random_choice(&mut self.random);
            let flags = [true, file.read_mood, file.write_mood];
            self.add(write_record(flags, file.position, choice));
        }
        if self.random.chance(4) {
            self.add_odd_line();
        }
        if self.random.chance(4) {
            self.add_crossing();
        }
        if self.random.chance(2) {
            self.add_large_integer();
        }
        if self.random.chance(5) {
            self.add_nights();
        }
        if self.random.chance(5) {
            self.add_choice();
        }
        if self.random.chance(6) {
            self.add_long_string();
        }
        if self.random.rarely(1) && self.random.chance(30) {
            self.add_long_line();
        }
    }

    /// The line of a call, its row's line before it if it has one, and now and then something
    /// between the two.
    fn add_call(&mut self, lines: &[String]) {
        for (index, line) in lines.iter().enumerate() {
            if index + 1 == lines.len() {
                self.add_between();
            }
            self.add_varied(line.clone());
        }
    }

    /// What now and then stands between a row and its call. A row stays over a swap, and
    /// serves a look at the differences.
    fn add_between(&mut self) {
        match self.random.below(120) {
            0 => self.add("dump"),
            1 => self.add_change(),
            2 | 3 => self.add_swap(),
            4 | 5 => self.add_differ(),
            _ => (),
        }
    }

    /// A line as it is, or with upper case hex, or with leading zeros.
    fn add_varied(&mut self, line: String) {
        let mut words: Vec<String> = line.split(' ').map(str::to_string).collect();
        let upper = self.random.rarely(20);
        let zeros = self.random.rarely(20);
        let row = words.first().is_some_and(|name| name == "row");
        for word in words.iter_mut().skip(1) {
            let digits = word.bytes().all(|byte| byte.is_ascii_digit());
            if upper {
                *word = word.to_uppercase();
            }
            if zeros && digits && !row {
                *word = format!("00{word}");
            }
        }
        self.add(words.join(" "));
    }

    /// A change of the scene in the middle of an episode.
    fn add_change(&mut self) {
        let hints = self.hints();
        let file = hints.file;
        let shape = file.shape;
        let place = random_target(&mut self.random, &hints);
        let random = &mut self.random;
        let choice = random_choice(random);
        let line = match random.below(9) {
            0 => {
                let both = random.chance(60);
                let rights = Rights {
                    get: both || random.chance(50),
                    put: both || random.chance(50),
                    set: random.chance(50),
                    reset: random.chance(60),
                    compress: random.chance(50),
                };
                format!("rights {}", write_rights(rights, random.below(5)))
            }
            1 => write_record([true, file.read_mood, file.write_mood], place, choice),
            2 => write_record([true, false, false], file.position, choice),
            3 => {
                let reads = random.chance(50);
                write_record([true, reads, !reads], file.position, choice)
            }
            4 => format!("end {}", write_position(place)),
            5 => format!("shape {} {} {}", shape.lines, shape.pages, shape.characters),
            6 => self.change_of_sizes(),
            7 => self.change_of_lengths(),
            _ => self.change_of_text(),
        };
        self.add(line);
    }

    /// Other lent sizes, within what the scene has set.
    fn change_of_sizes(&mut self) -> String {
        let (text, lines, pages) = self.player.first.lent;
        let random = &mut self.random;
        let text = (text + random.below(3)).saturating_sub(1).min(70_000);
        let lines = (lines + random.below(3)).saturating_sub(1);
        let pages = (pages + random.below(3)).saturating_sub(1);
        let lines = lines.min(self.first.covered.0);
        let pages = pages.min(self.first.covered.1);
        format!("lend {text} {lines} {pages}")
    }

    /// A few other lengths, some of them too large.
    fn change_of_lengths(&mut self) -> String {
        let shape = self.player.first.file.shape;
        let of_lines = self.random.chance(60);
        let (name, room, most) = if of_lines {
            ("lines", self.first.covered.0, shape.characters)
        } else {
            ("pages", self.first.covered.1, shape.lines)
        };
        let index = self.random.below(room);
        let count = 1 + self.random.below(3);
        let mut lengths = Vec::new();
        for _ in 0..count.min(room - index.min(room)) {
            let above = u32::from(self.random.chance(10));
            let length = self.random.between(0, most + above);
            lengths.push(u8::try_from(length).unwrap_or(u8::MAX));
        }
        format!("{name} {index} {}", write_hex(&lengths))
    }

    /// A few other characters, or all of them.
    fn change_of_text(&mut self) -> String {
        if self.random.chance(15) {
            return format!("fill {:02x}", self.random.byte());
        }
        let length = 1 + self.random.below(30);
        let text = random_text(&mut self.random, self.first.style, length);
        let index = self.random.below(self.player.first.lent.0).min(65_535);
        format!("text {index} {}", write_hex(&text))
    }

    /// A line that is bad, or does nothing, or is some call's with a byte changed.
    fn add_odd_line(&mut self) {
        let hints = self.hints();
        let random = &mut self.random;
        let line = match random.below(10) {
            0..=6 => {
                let lines: Vec<&str> = ODD_LINES.split('|').collect();
                lines[random.below(lines.len())].as_bytes().to_vec()
            }
            7 => {
                let length = random.below(20);
                let mut line = random_text(random, Style::Anything, length);
                line.insert(0, random.byte());
                line
            }
            8 if random.chance(20) => write_row(&[0x1000_0000; 81]).into_bytes(),
            _ => {
                let call = random_call(random, &hints);
                damaged(random, write_call(&call).into_bytes())
            }
        };
        self.add(line);
    }

    /// A line about as long as a line may be.
    fn add_long_line(&mut self) {
        let line = match self.random.below(9) {
            0 => format!("#{}", "x".repeat(139_999)),
            1 => format!("#{}", "x".repeat(140_000)),
            2 => format!("puts {}", "61".repeat(69_997)),
            3 => format!("puts {}", "61".repeat(69_998)),
            4 => format!("text 00 {}", "62".repeat(69_996)),
            5 => format!("newline{}", " ".repeat(139_994)),
            6 => format!("text 65535 {}", "64".repeat(4_465)),
            7 => format!("text 65535 {}", "65".repeat(4_466)),
            _ => format!("text 0 {}", "63".repeat(150_000)),
        };
        self.add(line);
    }
}

/// A line with one byte put in, taken out, changed or doubled.
fn damaged(random: &mut Random, mut line: Vec<u8>) -> Vec<u8> {
    let index = random.below(line.len());
    let letter = random.pick([b' ', b'-', b'0', b'g', b'\r', b'\t', 0, 0xff]);
    match random.below(4) {
        0 => line.insert(index, letter),
        1 => {
            line.remove(index);
        }
        2 => line[index] = letter,
        _ => line.push(letter),
    }
    line
}
