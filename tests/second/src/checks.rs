//! Checks of this implementation by itself: what document 01 promises of every call. What C-11
//! promises is checked in `span_checks`, what C-12 does in `event_checks`, what C-13 does in
//! `length_checks`, what C-14 does in `choice_checks`. When lengths may grow stands with C-13:
//! before it that was at establish only.

use crate::book::{line_length, record_and_book_fit, shape_is_good, text_index};
use crate::book::{Book, File, Position, Rights, Shape};
use crate::calls::CallResult;
use crate::choice_checks::{check_choice, ChoiceProperties};
use crate::event_checks::{check_events, EventProperties, Made};
use crate::length_checks::{check_lengths, check_nights, LengthProperties};
use crate::random::Random;
use crate::replay::{make_call, Call};
use crate::say;
use crate::scenes::Scene;
use crate::scenes::{good_scene, hints_of, random_call, random_integer, random_row, random_scene};
use crate::span_checks::{check_pair, SpanProperties};

/// A book that owns what it lends.
#[derive(Clone, PartialEq, Eq, Debug)]
pub struct OwnBook {
    pub text: Vec<u8>,
    pub line_lengths: Vec<u8>,
    pub page_lengths: Vec<u8>,
    pub logical_end: Position,
}

/// A record and its book.
#[derive(Clone, PartialEq, Eq, Debug)]
pub struct Owner {
    pub file: File,
    pub book: OwnBook,
}

/// How often something was checked, and how often it failed.
pub struct Property {
    name: &'static str,
    checks: u64,
    failed: u64,
}

/// The properties that are checked here.
struct Properties {
    valid: Property,
    unchanged: Property,
    alike: Property,
    events: Property,
    integers: Property,
}

/// All properties: those of document 01 and those of each request.
struct AllProperties {
    of_base: Properties,
    of_spans: SpanProperties,
    of_events: EventProperties,
    of_lengths: LengthProperties,
    of_choice: ChoiceProperties,
}

impl Property {
    pub fn new(name: &'static str) -> Property {
        Property {
            name,
            checks: 0,
            failed: 0,
        }
    }

    /// Counts a check; says what failed the first few times.
    pub fn check(&mut self, holds: bool, about: impl FnOnce() -> String) {
        self.checks += 1;
        if !holds {
            self.failed += 1;
            if self.failed <= 3 {
                say(&format!("failed: {}: {}", self.name, about()));
            }
        }
    }
}

impl OwnBook {
    /// The lent parts of a scene.
    fn of_scene(scene: &Scene) -> OwnBook {
        let (text, lines, pages) = scene.lent;
        let part = |bytes: &[u8], size: usize, fill: u8| {
            let mut part = bytes.to_vec();
            part.resize(size, fill);
            part
        };
        OwnBook {
            text: part(&scene.text, text, scene.fill),
            line_lengths: part(&scene.line_lengths, lines, 0),
            page_lengths: part(&scene.page_lengths, pages, 0),
            logical_end: scene.logical_end,
        }
    }

    /// Lends the book for one question or call.
    fn lend<T>(&mut self, use_of_it: impl FnOnce(&mut Book) -> T) -> T {
        let mut book = Book {
            text: &mut self.text,
            line_lengths: &mut self.line_lengths,
            page_lengths: &mut self.page_lengths,
            logical_end: self.logical_end,
        };
        let given = use_of_it(&mut book);
        self.logical_end = book.logical_end;
        given
    }

    /// "P, L and C here are those of the lent sizes. Sizes that fit no shape have none."
    fn shape_of_sizes(&self) -> Option<Shape> {
        let pages = self.page_lengths.len();
        let lines = self.line_lengths.len().checked_div(pages)?;
        let characters = self.text.len().checked_div(self.line_lengths.len())?;
        let fit = pages * lines == self.line_lengths.len()
            && self.line_lengths.len() * characters == self.text.len();
        let shape = Shape {
            pages: u32::try_from(pages).ok()?,
            lines: u32::try_from(lines).ok()?,
            characters: u32::try_from(characters).ok()?,
        };
        Some(shape).filter(|shape| fit && shape_is_good(*shape))
    }

    /// For each place of the text, whether it is "before the end and inside its line".
    fn seen(&self) -> Vec<bool> {
        let mut seen = vec![false; self.text.len()];
        let Some(shape) = self.shape_of_sizes() else {
            return seen;
        };
        let lines = self.line_lengths.chunks(shape.lines as usize);
        for ((page, lengths), lines_there) in (1..).zip(lines).zip(&self.page_lengths) {
            for (line, length) in (1..=u32::from(*lines_there)).zip(lengths) {
                for character in 1..=u32::from(*length).min(shape.characters) {
                    let place = Position::new(page, line, character);
                    if let (Some(index), true) =
                        (text_index(shape, place), self.logical_end.beyond(place))
                    {
                        seen[index] = true;
                    }
                }
            }
        }
        seen
    }

    /// Alike: the same sizes, lengths and end, and the same characters where they are seen.
    pub fn alike(&self, other: &OwnBook) -> bool {
        let same_frame = self.line_lengths == other.line_lengths
            && self.page_lengths == other.page_lengths
            && self.logical_end == other.logical_end
            && self.text.len() == other.text.len();
        let pairs = self.text.iter().zip(&other.text);
        same_frame
            && self
                .seen()
                .iter()
                .zip(pairs)
                .all(|(seen, (one, other))| !seen || one == other)
    }

    /// A book alike, with other characters where they are not seen.
    pub fn twin(&self, random: &mut Random) -> OwnBook {
        let mut twin = self.clone();
        for (byte, seen) in twin.text.iter_mut().zip(self.seen()) {
            if !seen {
                *byte = random.byte();
            }
        }
        twin
    }
}

impl Owner {
    /// The record and the book of a scene.
    pub fn of_scene(scene: &Scene) -> Owner {
        Owner {
            file: scene.file,
            book: OwnBook::of_scene(scene),
        }
    }

    /// The same record with a book alike.
    pub fn twin(&self, random: &mut Random) -> Owner {
        Owner {
            file: self.file,
            book: self.book.twin(random),
        }
    }

    /// Lends the record and the book for one question.
    pub fn asked<T>(&mut self, question: impl FnOnce(&File, &Book) -> T) -> T {
        let file = &self.file;
        self.book.lend(|book| question(file, book))
    }

    pub fn fits(&mut self) -> bool {
        self.asked(record_and_book_fit)
    }

    pub fn make(&mut self, call: &Call, row: &[u32]) -> CallResult {
        let file = &mut self.file;
        self.book.lend(|book| make_call(call, file, book, row))
    }
}

/// Refused before work: 1, 2, 3 and 12 always, 4, 5, 6 and 9 when nothing was signalled.
fn refused_before_work(result: &CallResult) -> bool {
    match result.number {
        1 | 2 | 3 | 12 => true,
        4 | 5 | 6 | 9 => result.events == 0,
        _ => false,
    }
}

/// "Every call signals at most answers taken + P·(L+1) + 1 events."
fn few_events(file: &File, result: &CallResult) -> bool {
    let lines = u64::from(file.shape.pages) * (u64::from(file.shape.lines) + 1);
    u64::from(result.events) <= u64::from(result.taken) + lines + 1
}

/// One call on both sides of a pair, and all that is checked of it. Gives the first side before
/// the call, and what the call handed back.
fn check_call(
    properties: &mut Properties,
    pair: &mut [Owner; 2],
    call: &Call,
    row: &[u32],
) -> (Owner, CallResult) {
    let [one, other] = pair;
    let mut before = one.clone();
    let result = one.make(call, row);
    let other_result = other.make(call, row);
    let about = |what: &str| {
        format!(
            "{what} {call:?} {row:08x?} on {:?}: {result:?}",
            before.file
        )
    };
    let same = result == other_result && one.file == other.file;
    let alike = same && one.book.alike(&other.book);
    properties.alike.check(alike, || about("twins"));
    let few = few_events(&before.file, &result);
    properties.events.check(few, || about("events"));
    if refused_before_work(&result) {
        let same = *one == before;
        properties.unchanged.check(same, || about("changed"));
    }
    let about = format!("{call:?} {row:08x?} on {:?}", before.file);
    if before.fits() {
        properties.valid.check(one.fits(), || about);
    }
    (before, result)
}

/// One episode: a scene, a twin of its book, and a list of calls.
fn check_episode(random: &mut Random, properties: &mut AllProperties) {
    let scene = random_scene(random);
    let owner = Owner::of_scene(&scene);
    let twin = owner.twin(random);
    let alike = owner.book.alike(&twin.book);
    let mut pair = [owner, twin];
    let of_start = &mut properties.of_base.alike;
    of_start.check(alike, || "at the start".to_string());
    for _ in 0..random.between(0, 25) {
        let hints = pair[0].asked(|file, book| hints_of(file, book, scene.style));
        let row = if random.chance(45) {
            random_row(random, &hints)
        } else {
            Vec::new()
        };
        let call = random_call(random, &hints);
        let (before, result) = check_call(&mut properties.of_base, &mut pair, &call, &row);
        let made = Made {
            before: &before,
            call: &call,
            row: &row,
            result: &result,
        };
        check_events(random, &mut properties.of_events, &made, &mut pair[0]);
        check_lengths(&mut properties.of_lengths, &made, &pair[0]);
        check_choice(&mut properties.of_choice, &made, &mut pair[0]);
    }
}

/// A fresh book with a few lines put, standing at the start of a line.
fn fresh_owner(random: &mut Random) -> Owner {
    let shape = Shape {
        pages: random.between(1, 3),
        lines: random.between(2, 4),
        characters: random.between(11, 30),
    };
    let rights = Rights {
        get: true,
        put: true,
        set: random.chance(50),
        reset: true,
        compress: random.chance(50),
    };
    let file = File {
        opened: false,
        read_mood: false,
        write_mood: false,
        position: Position::START,
        shape,
        rights,
        split: false,
    };
    let lines = (shape.pages * shape.lines) as usize;
    let book = OwnBook {
        text: vec![b'5'; lines * shape.characters as usize],
        line_lengths: vec![0; lines],
        page_lengths: vec![0; shape.pages as usize],
        logical_end: Position::START,
    };
    let mut owner = Owner { file, book };
    owner.make(&Call::Establish, &[]);
    owner.make(&Call::Choose(random.chance(50)), &[]);
    for _ in 0..random.below(lines) {
        let length = random.below(20);
        owner.make(&Call::PutString(vec![b'9'; length]), &[]);
        owner.make(&Call::Newline, &[]);
    }
    owner
}

/// An old book with all rights, set to the start of some line before its end.
fn old_owner(random: &mut Random) -> Owner {
    let scene = good_scene(random);
    let mut file = scene.file;
    file.rights.get = true;
    file.rights.put = true;
    file.rights.set = true;
    let book = OwnBook::of_scene(&scene);
    let mut owner = Owner { file, book };
    owner.make(&Call::Open, &[]);
    let page = random.between(1, scene.logical_end.page);
    let line = random.between(1, scene.file.shape.lines);
    owner.make(&Call::Set(Position::new(page, line, 1)), &[]);
    owner
}

/// Whether a further digit stands where the eleven characters end; then it belongs to what is
/// read (002, commentary 19 e).
fn digit_follows(owner: &mut Owner, start: Position) -> bool {
    let after = Position {
        character: start.character + 11,
        ..start
    };
    let shape = owner.file.shape;
    owner.book.lend(|book| {
        let inside = after.character <= line_length(shape, book, after.page, after.line);
        let byte = text_index(shape, after).and_then(|index| book.text.get(index));
        let digit = byte.is_some_and(u8::is_ascii_digit);
        inside && digit && book.logical_end.beyond(after)
    })
}

/// Back to the start of a line: with set, or by reset and a walk over pages and lines.
fn go_back(owner: &mut Owner, start: Position) {
    if owner.file.rights.set {
        owner.make(&Call::Set(start), &[]);
        return;
    }
    owner.make(&Call::Reset, &[]);
    owner.make(&Call::GetString(0, Vec::new()), &[]);
    for _ in 1..start.page {
        owner.make(&Call::Newpage, &[]);
    }
    for _ in 1..start.line {
        owner.make(&Call::Newline, &[]);
    }
}

/// Put of an integer at the start of a line of length at least 11, and get at that place.
fn check_integer(random: &mut Random, property: &mut Property) {
    let mut owner = if random.chance(50) {
        fresh_owner(random)
    } else {
        old_owner(random)
    };
    let start = owner.file.position;
    let shape = owner.file.shape;
    let length = owner
        .book
        .lend(|book| line_length(shape, book, start.page, start.line));
    let value = random_integer(random);
    if start.character != 1 || length < 11 || value == i32::MIN {
        return;
    }
    let put = owner.make(&Call::PutInteger(value), &[]);
    let after_put = owner.file.position;
    if digit_follows(&mut owner, start) {
        return;
    }
    go_back(&mut owner, start);
    let got = owner.make(&Call::GetInteger, &[]);
    let done = put.number == 0 && got.number == 0;
    let back = done && got.value == Some(value) && owner.file.position == after_put;
    property.check(back, || format!("{value} gave {got:?} at {start:?}"));
}

impl Properties {
    fn new() -> Properties {
        Properties {
            valid: Property::new("a good record and book stay good"),
            unchanged: Property::new("a call refused before work changes nothing"),
            alike: Property::new("demand 3: books alike give the same and stay alike"),
            events: Property::new("events are at most answers taken + P(L+1) + 1"),
            integers: Property::new("an integer put is got back"),
        }
    }

    /// The properties in the order in which they are told.
    fn all(self) -> [Property; 5] {
        [
            self.valid,
            self.unchanged,
            self.alike,
            self.events,
            self.integers,
        ]
    }
}

impl AllProperties {
    fn new() -> AllProperties {
        AllProperties {
            of_base: Properties::new(),
            of_spans: SpanProperties::new(),
            of_events: EventProperties::new(),
            of_lengths: LengthProperties::new(),
            of_choice: ChoiceProperties::new(),
        }
    }

    /// The properties in the order in which they are told.
    fn all(self) -> Vec<Property> {
        let mut all = Vec::from(self.of_base.all());
        all.extend(self.of_spans.all());
        all.extend(self.of_events.all());
        all.extend(self.of_lengths.all());
        all.extend(self.of_choice.all());
        all
    }
}

/// Runs all checks and says how they went: how many, and how many failed.
pub fn check(seed: u64, episodes: u64) -> (u64, u64) {
    let mut properties = AllProperties::new();
    for episode in 0..episodes {
        let mut random = Random::for_episode(seed, episode);
        check_episode(&mut random, &mut properties);
        for _ in 0..3 {
            check_integer(&mut random, &mut properties.of_base.integers);
            check_pair(&mut random, &mut properties.of_spans);
            check_nights(&mut random, &mut properties.of_lengths);
        }
    }
    let mut total = (0, 0);
    for property in properties.all() {
        let Property {
            name,
            checks,
            failed,
        } = property;
        say(&format!("{name}: {checks} checks, {failed} failed"));
        total = (total.0 + checks, total.1 + failed);
    }
    total
}
