//! The archive against the independent second implementation: random episodes are played through the safe wrapper and by the
//! second implementation, and after each call all that it hands back and leaves must be the same.
//!
//! TRANSPUT_SEED repeats a run; TRANSPUT_EPISODES says how many episodes are played.

#[path = "common/episodes.rs"]
mod episodes;

use std::collections::{BTreeMap, BTreeSet};

use episodes::{Episode, Side, Stage};
use second::book::Position as SecondPosition;
use second::calls::CallResult as SecondResult;
use second::refusals::{Event as SecondEvent, Signalled as SecondSignalled};
use second::replay::{call_name, Call, Line, Player};
use second::side::Side as SecondSide;
use second::spans::{differing_spans, Looked};
use transput::{
    calls, Book, Event, File, Given, Outcome, Position, Refusal, Signalled, Span, Stop, View,
};

/// Episodes that are played where nothing else is said.
const EPISODES: u64 = 40_000;

/// What the wrapper handed back: the outcome, and the whole output or what a view showed.
struct Made {
    outcome: Outcome,
    bytes: Vec<u8>,
}

/// Makes a call through the wrapper.
fn make_call(stage: &mut Stage, call: &Call) -> Made {
    let row = std::mem::take(&mut stage.row);
    let [page, line, number] = stage.numbers(call);
    let Side { file, book, .. } = &mut stage.first;
    let mut bytes = episodes::output_for(call);
    let outcome = match call {
        Call::Establish => file.establish(book),
        Call::Open => file.open(book),
        Call::Close => file.close(book),
        Call::Choose(true) => file.split(book),
        Call::Choose(false) => file.fit(book),
        Call::Reset => file.reset(book),
        Call::Backspace => file.backspace(book),
        Call::PutCharacter(byte) => file.put_character(book, *byte, &row),
        Call::PutString(string) => file.put_string(book, string, &row),
        Call::PutInteger(value) => file.put_integer(book, *value, &row),
        Call::GetCharacter => file.get_character(book, &row),
        Call::GetString(_, terminators) => file.get_string(book, terminators, &mut bytes, &row),
        Call::GetInteger => file.get_integer(book, &row),
        Call::Space => file.space(book, &row),
        Call::Newline => file.newline(book, &row),
        Call::Newpage => file.newpage(book, &row),
        Call::Set(_) => file.set(book, Position::new(page, line, number), &row),
        Call::SetCharNumber(_) => file.set_character_number(book, number, &row),
        Call::View(_, _, marker) => return make_view(file, book, page, line, marker),
        Call::Whole(value, width, _) => {
            outcome_of_count(book, transput::whole(*value, *width, &mut bytes))
        }
    };
    Made { outcome, bytes }
}

/// A view and its number, asked for apart. The count is the second implementation's: the length of the part of the text.
fn make_view(file: &File, book: &Book, page: usize, line: usize, marker: &[u8]) -> Made {
    let view = file.line_view(book, page, line, marker);
    let number = file.view_number(book, page, line);
    assert_eq!(view.err(), number.refusal, "a view and its number");
    let count = match view {
        Ok(View::Line(characters)) => characters.len(),
        _ => 0,
    };
    Made {
        outcome: Outcome { count, ..number },
        bytes: view.map_or(Vec::new(), |view| view.characters().to_vec()),
    }
}

/// The outcome of whole and of a look at two books, which have only a number and a count.
fn outcome_of_count(book: &Book, counted: Result<usize, Refusal>) -> Outcome {
    Outcome {
        refusal: counted.err(),
        stop: None,
        signalled: None,
        given: Given::Nothing,
        events: 0,
        taken: 0,
        count: counted.unwrap_or(0),
        end: book.end,
    }
}

/// Looks where the two books differ, through the wrapper. The list has room for so many spans, and its bytes are all ee.
fn make_differ(stage: &mut Stage, entries: usize) -> Made {
    stage.row.clear();
    let (one, other) = (&stage.first, &stage.other);
    let mut list = vec![span_of([0xee; 4]); entries];
    let counted = one
        .file
        .differ(&one.book, &other.file, &other.book, &mut list);
    Made {
        outcome: outcome_of_count(&one.book, counted),
        bytes: calls::bytes_of(&mut list).to_vec(),
    }
}

fn span_of([page, line, first, last]: [u8; 4]) -> Span {
    Span {
        page,
        line,
        first,
        last,
    }
}

/// Whether the same look with a list of bytes, often no whole number of spans long, gives and writes the same and leaves the
/// bytes at its end.
fn ragged_list_fits(stage: &Stage, entries: usize, made: &Made) -> bool {
    let (one, other) = (&stage.first, &stage.other);
    let mut list = episodes::list_for(entries);
    let listed = calls::differ(&one.file, &one.book, &other.file, &other.book, &mut list);
    let (spans, rest) = list.split_at(4 * entries);
    (Refusal::of_number(listed.number), listed.count) == (made.outcome.refusal, made.outcome.count)
        && spans == made.bytes
        && rest.iter().all(|&byte| byte == 0xee)
}

/// The record of a side of the second implementation in the wrapper's form.
fn file_of(stage: &Stage, side: &SecondSide) -> File {
    let file = &side.file;
    File {
        opened: file.opened,
        reading: file.read_mood,
        writing: file.write_mood,
        split: file.split,
        position: stage.position(file.position),
        shape: stage.shape(file.shape),
        rights: episodes::rights_of(file.rights),
    }
}

/// The book of a side of the second implementation in the wrapper's form.
fn book_of(stage: &Stage, side: &SecondSide) -> Book {
    let (text, lines, pages) = side.lent;
    Book {
        text: side.text[..text].to_vec(),
        lines: side.line_lengths[..lines].to_vec(),
        pages: side.page_lengths[..pages].to_vec(),
        end: stage.position(side.logical_end),
    }
}

/// Where a record or a book is not the second implementation's, what it is.
fn difference_of_sides(stage: &Stage, side: &Side, second: &SecondSide) -> Option<String> {
    let (file, book) = (file_of(stage, second), book_of(stage, second));
    if side.file != file {
        Some(format!("record {:?}, second {file:?}", side.file))
    } else if side.book != book {
        Some(format!("book {:?}, second {book:?}", side.book))
    } else {
        None
    }
}

/// Where what was handed back is not the second implementation's, what it is.
fn difference_of_results(made: &Made, result: &SecondResult) -> Option<String> {
    let ours = second_form(made);
    (ours != *result).then(|| format!("result {ours:?}, second {result:?}"))
}

/// An event that is told in the form of the second implementation. It was signalled at a place of the book.
fn second_signalled(told: Signalled) -> SecondSignalled {
    let number = |number: usize| u32::try_from(number).expect("a place of the book");
    let Position {
        page,
        line,
        character,
    } = told.at;
    SecondSignalled {
        event: match told.event {
            Event::LogicalEnd => SecondEvent::LogicalEnd,
            Event::PhysicalEnd => SecondEvent::PhysicalEnd,
            Event::PageEnd => SecondEvent::PageEnd,
            Event::LineEnd => SecondEvent::LineEnd,
            Event::Character => SecondEvent::Character,
            Event::Value => SecondEvent::Value,
        },
        position: SecondPosition::new(number(page), number(line), number(character)),
    }
}

/// What was handed back in the form of the second implementation.
fn second_form(made: &Made) -> SecondResult {
    let outcome = made.outcome;
    SecondResult {
        number: outcome.refusal.map_or(0, |refusal| refusal.number().into()),
        events: outcome.events.try_into().expect("few events"),
        taken: outcome.taken.try_into().expect("few answers"),
        stop: outcome.stop.map_or(0, Stop::number),
        count: outcome.count,
        value: match outcome.given {
            Given::Nothing => None,
            Given::Character(byte) => Some(byte.into()),
            Given::Integer(value) => Some(value),
        },
        bytes: made.bytes.clone(),
        signalled: outcome.signalled.map(second_signalled),
    }
}

/// Only a get of a character gives one, and only a get of an integer gives one.
fn given_fits(call: &Call, given: Given) -> bool {
    match given {
        Given::Nothing => true,
        Given::Character(_) => *call == Call::GetCharacter,
        Given::Integer(_) => *call == Call::GetInteger,
    }
}

/// The wrapper and the second implementation on the same scene.
struct Pair {
    stage: Stage,
    second: Player,
}

impl Pair {
    fn set_scene(&mut self, text: &[u8], line: &Line) {
        self.stage.set_scene(line);
        self.second.play_line(text, &mut Vec::new());
    }

    /// Makes the call by the second implementation.
    fn make_second(&mut self, call: &Call, row: &[u32]) -> SecondResult {
        let side = &mut self.second.first;
        side.lend(|file, book| second::replay::make_call(call, file, book, row))
    }

    /// Makes a call by both and compares all; gives the result and, where something differs, what it is.
    fn make(&mut self, call: &Call, row: &[u32]) -> (SecondResult, Option<String>) {
        let made = make_call(&mut self.stage, call);
        let result = self.make_second(call, row);
        let side = &self.stage.first;
        let difference = difference_of_results(&made, &result)
            .or_else(|| difference_of_sides(&self.stage, side, &self.second.first));
        let difference = if difference.is_some() {
            difference
        } else if made.outcome.end != side.book.end {
            Some(format!("the end handed back is {:?}", made.outcome.end))
        } else if !given_fits(call, made.outcome.given) {
            Some(format!("{:?} was given", made.outcome.given))
        } else {
            None
        };
        (result, difference)
    }

    /// All spans by the second implementation. Both books must be good.
    fn second_spans(&mut self) -> Vec<Span> {
        let Player { first, second, .. } = &mut self.second;
        first.lend(|file, book| {
            let one = Looked { file, book };
            second.lend(|file, book| {
                let spans = differing_spans(one, Looked { file, book });
                spans.iter().map(|span| span_of(span.bytes())).collect()
            })
        })
    }

    /// Where the count or all spans, asked for without a list, are not the second implementation's, what they are. The number
    /// is what it gave with a list.
    fn difference_of_spans(&mut self, number: u32) -> Option<String> {
        let number = u8::try_from(number).expect("a number of the papers");
        let expected = match Refusal::of_number(number) {
            None | Some(Refusal::OutputTooShort) => Ok(self.second_spans()),
            Some(refusal) => Err(refusal),
        };
        let (one, other) = (&self.stage.first, &self.stage.other);
        let spans = one.file.differences(&one.book, &other.file, &other.book);
        let count = one
            .file
            .difference_count(&one.book, &other.file, &other.book);
        if spans != expected {
            return Some(format!("spans {spans:?}, second {expected:?}"));
        }
        (count != spans.map(|spans| spans.len())).then(|| format!("count {count:?}"))
    }

    /// Looks where the two books differ by both and compares all, as for a call.
    fn differ(&mut self, entries: usize) -> (SecondResult, Option<String>) {
        let made = make_differ(&mut self.stage, entries);
        let Player { first, second, .. } = &mut self.second;
        let result = second::replay::make_differ(entries, first, second);
        let of_spans = self.difference_of_spans(result.number);
        let (stage, player) = (&self.stage, &self.second);
        let ragged = !ragged_list_fits(stage, entries, &made);
        let difference = difference_of_results(&made, &result)
            .or(of_spans)
            .or_else(|| difference_of_sides(stage, &stage.first, &player.first))
            .or_else(|| difference_of_sides(stage, &stage.other, &player.second))
            .or_else(|| ragged.then(|| "a list that is a little longer".to_string()));
        (result, difference)
    }
}

/// How often each call gave each number, each stop came, each event was told with a number, each kind of answer was taken, a call
/// took several answers, something of the book was lent empty, spans were listed, and a span was an empty line.
#[derive(Default)]
struct Counts {
    numbers: BTreeMap<(&'static str, u32), u64>,
    stops: [u64; 5],
    told: BTreeMap<(u8, u32), u64>,
    kinds: [u64; 9],
    several_answers: u64,
    empty: u64,
    listed: u64,
    empty_spans: u64,
}

impl Counts {
    fn add(&mut self, call: &Call, row: &[u32], book: &Book, result: &SecondResult) {
        let number = (call_name(call), result.number);
        *self.numbers.entry(number).or_default() += 1;
        self.stops[usize::from(result.stop)] += 1;
        if let Some(signalled) = result.signalled {
            let told = (signalled.event as u8 + 1, result.number);
            *self.told.entry(told).or_default() += 1;
        }
        for word in row.iter().take(result.taken as usize) {
            self.kinds[(word >> 28) as usize] += 1;
        }
        self.several_answers += u64::from(result.taken > 1);
        let parts = [&book.text, &book.lines, &book.pages];
        self.empty += u64::from(parts.iter().any(|part| part.is_empty()));
    }

    fn add_differ(&mut self, result: &SecondResult) {
        *self.numbers.entry(("differ", result.number)).or_default() += 1;
        let spans = result.bytes.chunks(4).take(result.count);
        self.empty_spans += spans.filter(|span| span[3] == 0).count() as u64;
        self.listed += u64::from(result.count > 0);
    }

    fn calls(&self) -> u64 {
        self.numbers.values().sum()
    }

    /// The calls that compared two books.
    fn looks(&self) -> u64 {
        let numbers = self.numbers.iter();
        numbers
            .filter(|(key, _)| key.0 == "differ")
            .map(|(_, count)| count)
            .sum()
    }

    /// Every call was done and refused, and all else that is counted came.
    fn assert_covered(&self) {
        let keys = || self.numbers.keys();
        let refusals = Refusal::ALL.iter().map(|one| u32::from(one.number()));
        let numbers: BTreeSet<u32> = keys().map(|key| key.1).collect();
        assert_eq!(numbers, refusals.chain([0]).collect());
        let told: Vec<(u8, u32)> = self.told.keys().copied().collect();
        let file_ends = [(1, 11), (1, 14), (2, 11), (2, 15)];
        let others = [(3, 11), (4, 11), (4, 16), (5, 8), (5, 11), (6, 9), (6, 11)];
        assert_eq!(told, [&file_ends[..], &others[..]].concat());
        let done = keys().filter(|key| key.1 == 0).count();
        assert_eq!(done, 21, "calls that were done");
        let of_differ = keys().filter(|key| key.0 == "differ").map(|key| key.1);
        assert_eq!(of_differ.collect::<Vec<u32>>(), [0, 1, 3, 12]);
        for name in keys().map(|key| key.0) {
            assert!(
                keys().any(|key| key.0 == name && key.1 > 0),
                "{name} was never refused"
            );
        }
        assert!(
            self.stops.iter().all(|&count| count > 0),
            "{:?}",
            self.stops
        );
        assert!(
            self.kinds.iter().all(|&count| count > 0),
            "{:?}",
            self.kinds
        );
        assert!(self.several_answers > 0 && self.empty > 0);
        assert!(self.listed > 0 && self.empty_spans > 0);
    }
}

/// The script of an episode up to a line, to be played again.
fn script_up_to(episode: &Episode, index: usize) -> String {
    let lines = episode.lines[..=index].iter();
    let texts = lines.map(|(text, _)| String::from_utf8_lossy(text).into_owned());
    texts.collect::<Vec<String>>().join("\n")
}

/// Plays a line on both and counts what it did; gives what differs, if anything does.
fn play_line(pair: &mut Pair, text: &[u8], line: &Line, counts: &mut Counts) -> Option<String> {
    match line {
        Line::Call(call) => {
            let row = pair.stage.row.clone();
            let (result, difference) = pair.make(call, &row);
            counts.add(call, &row, &pair.stage.first.book, &result);
            difference
        }
        Line::Differ(entries) => {
            let (result, difference) = pair.differ(*entries);
            counts.add_differ(&result);
            difference
        }
        scene => {
            pair.set_scene(text, scene);
            None
        }
    }
}

fn play_episode(pair: &mut Pair, episode: &Episode, counts: &mut Counts) {
    pair.stage.large = episode.large;
    for (index, (text, line)) in episode.lines.iter().enumerate() {
        if let Some(difference) = play_line(pair, text, line, counts) {
            let script = script_up_to(episode, index);
            let large = episode.large;
            panic!("{difference}\n65535 stands for {large} in the script:\n{script}");
        }
    }
}

fn episodes_to_play() -> u64 {
    let named = std::env::var("TRANSPUT_EPISODES").ok();
    named.map_or(EPISODES, |name| {
        name.parse().expect("TRANSPUT_EPISODES is a number")
    })
}

#[test]
fn the_archive_and_the_second_implementation_agree() {
    let (seed, episodes) = (episodes::seed(), episodes_to_play());
    second::say(&format!("second: seed {seed}"));
    let mut maker = Player::new();
    let mut pair = Pair {
        stage: Stage::new(),
        second: Player::new(),
    };
    let mut counts = Counts::default();
    for number in 0..episodes {
        let episode = episodes::make(seed, number, &mut maker);
        play_episode(&mut pair, &episode, &mut counts);
    }
    let (calls, looks) = (counts.calls(), counts.looks());
    second::say(&format!(
        "second: {episodes} episodes, {calls} calls, {looks} of them on two books, 0 differences"
    ));
    if episodes >= EPISODES {
        counts.assert_covered();
    }
}
