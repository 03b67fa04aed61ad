//! Checks of what C-13 promises: which calls give lengths back, from where on, and that a book
//! that is written again every night is as large as on the first.

use crate::book::{established_line, established_page, line_length, Book, File, Position, Rights};
use crate::calls::CallResult;
use crate::checks::{OwnBook, Owner, Property};
use crate::event_checks::Made;
use crate::random::Random;
use crate::replay::Call;
use crate::scenes::{good_scene, hints_of, random_call, random_row, random_text, Hints, Style};

/// The longest string that is put again by a call for each character.
pub const MOST_IN_TURN: usize = 60;

/// The properties that are checked.
pub struct LengthProperties {
    kept: Property,
    from_end: Property,
    taken_back: Property,
    not_taken_back: Property,
    in_turn: Property,
    nights: Property,
}

impl LengthProperties {
    pub fn new() -> LengthProperties {
        LengthProperties {
            kept: Property::new("lengths grow only at establish and in sequential compressed puts"),
            from_end: Property::new("where a put made lengths grow, all from the end on are full"),
            taken_back: Property::new("a character that takes the end back restores from there"),
            not_taken_back: Property::new("a character that leaves the end makes nothing longer"),
            in_turn: Property::new("a string put is its characters put in turn"),
            nights: Property::new("a book written again takes what an established one takes"),
        }
    }

    /// The properties in the order in which they are told.
    pub fn all(self) -> [Property; 6] {
        [
            self.kept,
            self.from_end,
            self.taken_back,
            self.not_taken_back,
            self.in_turn,
            self.nights,
        ]
    }
}

impl Default for LengthProperties {
    fn default() -> LengthProperties {
        LengthProperties::new()
    }
}

/// No length has grown.
fn none_grew(before: &OwnBook, after: &OwnBook) -> bool {
    let lines = before.line_lengths.iter().zip(&after.line_lengths);
    let pages = before.page_lengths.iter().zip(&after.page_lengths);
    lines.chain(pages).all(|(before, after)| after <= before)
}

/// Whether a call stores characters.
fn is_put(call: &Call) -> bool {
    matches!(
        call,
        Call::PutCharacter(_) | Call::PutString(_) | Call::PutInteger(_)
    )
}

/// The rights of a book whose lengths can come back: it is compressible, and only a book that
/// lacks set has its logical end taken back.
fn gives_lengths_back(rights: Rights) -> bool {
    rights.compress && !rights.set
}

/// How many lines and pages stand before the line and the page of a place.
fn before_place(file: &File, place: Position) -> (usize, usize) {
    let pages = (place.page as usize).saturating_sub(1);
    let lines = (place.line as usize).saturating_sub(1);
    (pages * file.shape.lines as usize + lines, pages)
}

/// Whether "the line holding the new logical end, all later lines, that page and all later
/// pages" have their established lengths. It holds to the end of a call that took the end back:
/// what was cut again since then is before the end.
fn full_from_end(owner: &Owner) -> bool {
    let shape = owner.file.shape;
    let (lines, pages) = before_place(&owner.file, owner.book.logical_end);
    let mut later_lines = owner.book.line_lengths.iter().skip(lines);
    let mut later_pages = owner.book.page_lengths.iter().skip(pages);
    later_lines.all(|&length| length == established_line(shape))
        && later_pages.all(|&length| length == established_page(shape))
}

/// "Nothing before the new end alters": the lengths of the lines and pages before it.
fn same_before_end(before: &Owner, after: &Owner) -> bool {
    let (lines, pages) = before_place(&after.file, after.book.logical_end);
    let first = |lengths: &[u8], count: usize| lengths.get(..count).map(<[u8]>::to_vec);
    let (one, other) = (&before.book, &after.book);
    first(&one.line_lengths, lines) == first(&other.line_lengths, lines)
        && first(&one.page_lengths, pages) == first(&other.page_lengths, pages)
}

/// Whether a character that took the end back, put with no answers, left what it must: no set,
/// the end at the position, and lengths that came back exactly where the book is compressible.
fn rightly_taken_back(before: &Owner, after: &Owner) -> bool {
    let rights = after.file.rights;
    let (one, other) = (&before.book, &after.book);
    let lengths = if rights.compress {
        full_from_end(after) && same_before_end(before, after)
    } else {
        one.line_lengths == other.line_lengths && one.page_lengths == other.page_lengths
    };
    !rights.set && other.logical_end == after.file.position && lengths
}

/// One character put on what a call found, with no answers: within such a call the end moves
/// once at most, and no line is cut before it goes back.
fn check_character(properties: &mut LengthProperties, before: &Owner, byte: u8) {
    let mut after = before.clone();
    let result = after.make(&Call::PutCharacter(byte), &[]);
    let about = || format!("{byte:02x} on {before:?} left {after:?}: {result:?}");
    if before.book.logical_end.beyond(after.book.logical_end) {
        let right = rightly_taken_back(before, &after);
        properties.taken_back.check(right, about);
    } else {
        let kept = none_grew(&before.book, &after.book);
        properties.not_taken_back.check(kept, about);
    }
}

/// "The new lengths hold for the next character of the same call already": the same record and
/// book are left, and the same is handed back, as by calls for the characters in turn. Each is
/// put as a string, which takes the choice that the whole one takes (C-14).
fn check_in_turn(properties: &mut LengthProperties, made: &Made, after: &Owner, text: &[u8]) {
    let mut owner = made.before.clone();
    let one_character = |byte| Call::PutString(vec![byte]);
    let result = put_in_turn(&mut owner, text, made.row, one_character);
    let same = result == *made.result && owner == *after;
    let about = || format!("{text:02x?} on {:?}: {:?}", made.before, made.result);
    properties.in_turn.check(same, about);
}

/// Puts characters in turn, each with a call and with the answers that the calls before it left,
/// up to one that is refused. Gives what one call for all of them has to hand back.
pub fn put_in_turn(
    owner: &mut Owner,
    text: &[u8],
    row: &[u32],
    call_for: impl Fn(u8) -> Call,
) -> CallResult {
    let mut last = CallResult::default();
    let (mut events, mut taken) = (0, 0);
    for &byte in text {
        let left = row.get(taken as usize..).unwrap_or_default();
        last = owner.make(&call_for(byte), left);
        events += last.events;
        taken += last.taken;
        if last.number != 0 {
            break;
        }
    }
    CallResult {
        events,
        taken,
        ..last
    }
}

/// One call that was made, and characters of it put alone.
pub fn check_lengths(properties: &mut LengthProperties, made: &Made, after: &Owner) {
    let Made { before, call, .. } = made;
    let grew = !none_grew(&before.book, &after.book);
    let sequential = is_put(call) && gives_lengths_back(before.file.rights);
    let kept = !grew || sequential || **call == Call::Establish;
    let about = || format!("{call:?} {:08x?} on {:?}", made.row, before.file);
    properties.kept.check(kept, about);
    if grew && sequential {
        properties.from_end.check(full_from_end(after), about);
    }
    match call {
        Call::PutString(text) if !text.is_empty() => {
            check_character(properties, before, text[0]);
            if text.len() <= MOST_IN_TURN {
                check_in_turn(properties, made, after, text);
            }
        }
        _ if is_put(call) => check_character(properties, before, b'n'),
        _ => (),
    }
}

/// A night's calls, each with its row.
type Night = Vec<(Call, Vec<u32>)>;

/// A string to put, most often shorter than a line.
fn random_line(random: &mut Random, hints: &Hints) -> Vec<u8> {
    let characters = hints.file.shape.characters as usize;
    let most = random.pick([characters.div_ceil(2), characters, 2 * characters]);
    let length = 1 + random.below(most);
    random_text(random, hints.style, length)
}

/// A night: it begins with a choice, which a reset would else leave from the night before, and a
/// character that is stored where the book begins; then come strings, newlines, newpages and any
/// calls.
fn random_night(random: &mut Random, hints: &Hints) -> Night {
    let mut first = random_line(random, hints);
    first[0] = random.pick([b'n', b' ', b'7']);
    let choice = Call::Choose(random.chance(50));
    let mut night = vec![(choice, Vec::new()), (Call::PutString(first), Vec::new())];
    for _ in 0..random.between(1, 8) {
        let call = match random.weighted([30, 35, 10, 25]) {
            0 => Call::PutString(random_line(random, hints)),
            1 => Call::Newline,
            2 => Call::Newpage,
            _ => random_call(random, hints),
        };
        let row = match random.chance(20) {
            true => random_row(random, hints),
            false => Vec::new(),
        };
        night.push((call, row));
    }
    night
}

/// Makes a night's calls and gives all that they hand back.
fn play_night(owner: &mut Owner, night: &Night) -> Vec<CallResult> {
    let calls = night.iter().map(|(call, row)| owner.make(call, row));
    calls.collect()
}

/// Whether a character put where the book begins takes the logical end back: the first line has
/// room for it, and the end is on a later line.
fn can_be_taken_back(file: &File, book: &Book) -> bool {
    let end = book.logical_end;
    line_length(file.shape, book, 1, 1) > 0 && (end.page, end.line) > (1, 1)
}

/// An open record on an old book whose lengths can come back.
fn nightly_owner(random: &mut Random) -> (Owner, Style) {
    let scene = good_scene(random);
    let mut owner = Owner::of_scene(&scene);
    owner.file.rights = Rights {
        put: true,
        set: false,
        reset: true,
        compress: true,
        ..owner.file.rights
    };
    owner.make(&Call::Open, &[]);
    (owner, scene.style)
}

/// A night on an established book, and the same calls after reset or open on nights that find
/// the book as the night before left it. All nights are alike.
pub fn check_nights(random: &mut Random, properties: &mut LengthProperties) {
    let (mut owner, style) = nightly_owner(random);
    let hints = owner.asked(|file, book| hints_of(file, book, style));
    let night = random_night(random, &hints);
    let mut fresh = owner.clone();
    fresh.make(&Call::Establish, &[]);
    let expected = play_night(&mut fresh, &night);
    if !owner.asked(can_be_taken_back) {
        owner = fresh.clone();
    }
    for number in 1..=3 {
        if !owner.asked(can_be_taken_back) {
            return;
        }
        let start = match owner.file.opened && random.chance(50) {
            true => Call::Reset,
            false => Call::Open,
        };
        owner.make(&start, &[]);
        let results = play_night(&mut owner, &night);
        let left = owner.file == fresh.file && owner.book.alike(&fresh.book);
        let same = results == expected && left;
        let about = || format!("night {number} of {night:02x?} on {:?}", owner.file);
        properties.nights.check(same, about);
    }
}
