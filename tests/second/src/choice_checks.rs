//! Checks of what C-14 promises, on every call of the random episodes. Most of them make the call
//! again on the same record and book with the other choice, and hold the two against each other.

use crate::book::{line_length, page_length, text_index, Position};
use crate::calls::CallResult;
use crate::checks::{Owner, Property};
use crate::event_checks::Made;
use crate::length_checks::{put_in_turn, MOST_IN_TURN};
use crate::refusals::Event;
use crate::replay::Call;
use crate::scenes::JUMP;

/// The properties that are checked.
pub struct ChoiceProperties {
    given: Property,
    on_one_line: Property,
    alike: Property,
    alike_until: Property,
    rest: Property,
    as_characters: Property,
    others: Property,
    kept: Property,
    choosing: Property,
}

impl ChoiceProperties {
    pub fn new() -> ChoiceProperties {
        ChoiceProperties {
            given: Property::new(
                "16 is given only by a string without split, where a line is full",
            ),
            on_one_line: Property::new(
                "without split a string stores a beginning of it on one line",
            ),
            alike: Property::new("a string that is not refused 16 is put alike with split"),
            alike_until: Property::new("until it is refused 16 a string is put alike with split"),
            rest: Property::new("a string refused 16 and its rest with split is all with split"),
            as_characters: Property::new("a string with split is its characters put as characters"),
            others: Property::new("calls that are no put of a string are alike with split"),
            kept: Property::new("only establish, open and the two calls set the choice"),
            choosing: Property::new("a choice is refused 1 and 3 only and changes nothing else"),
        }
    }

    /// The properties in the order in which they are told.
    pub fn all(self) -> [Property; 9] {
        [
            self.given,
            self.on_one_line,
            self.alike,
            self.alike_until,
            self.rest,
            self.as_characters,
            self.others,
            self.kept,
            self.choosing,
        ]
    }
}

impl Default for ChoiceProperties {
    fn default() -> ChoiceProperties {
        ChoiceProperties::new()
    }
}

/// The same record and book with a choice.
fn with_choice(owner: &Owner, split: bool) -> Owner {
    let mut other = owner.clone();
    other.file.split = split;
    other
}

/// Whether a place is just after the last character of a line that is there in its page.
fn is_line_end(owner: &mut Owner, place: Position) -> bool {
    owner.asked(|file, book| {
        let there = place.line <= page_length(file.shape, book, place.page);
        let length = line_length(file.shape, book, place.page, place.line);
        there && place.character == length + 1
    })
}

/// Whether refusal 16 comes where it may: in a put of a string without split, with the line end
/// as its event, at the end of a line that is full, where the record is left.
fn rightly_given(made: &Made, after: &mut Owner) -> bool {
    let position = after.file.position;
    let told = made.result.signalled.is_some_and(|signalled| {
        signalled.event == Event::LineEnd && signalled.position == position
    });
    let is_string = matches!(made.call, Call::PutString(_));
    is_string && !made.before.file.split && told && is_line_end(after, position)
}

/// Whether all events of a call were answered 0, by the row or past its end.
fn all_answered_0(made: &Made) -> bool {
    let mut taken = made.row.iter().take(made.result.taken as usize);
    taken.all(|&word| word == 0)
}

/// Where a string without split, with all events answered 0, began to store: where the record
/// stood, or at the start of a later page, since page ends keep their newpage.
fn start_of_string(before: &Owner, after: &Owner) -> Position {
    let (from, to) = (before.file.position, after.file.position);
    match (from.page, from.line) == (to.page, to.line) {
        true => from,
        false => Position { character: 1, ..to },
    }
}

/// How many characters of a string were stored, where they all stand in turn on the line that
/// the record is left on and no other place of the book has changed; else none.
fn stored_on_line(before: &Owner, after: &Owner, text: &[u8]) -> Option<usize> {
    let start = start_of_string(before, after);
    let count = after.file.position.character - start.character;
    let stored = text.get(..count as usize)?;
    let mut expected = before.book.text.clone();
    for (character, &byte) in (start.character..).zip(stored) {
        let index = text_index(after.file.shape, Position { character, ..start })?;
        *expected.get_mut(index)? = byte;
    }
    (expected == after.book.text).then_some(stored.len())
}

/// "What was stored stays, and nothing more is stored": no string is on two lines. All of it is
/// stored where the call is done, and less where it is refused.
fn check_on_one_line(
    properties: &mut ChoiceProperties,
    made: &Made,
    after: &mut Owner,
    text: &[u8],
) {
    let before = made.before;
    if before.file.split || text.is_empty() || !all_answered_0(made) {
        return;
    }
    let stored = stored_on_line(before, after, text);
    let done = made.result.number == 0;
    let right = stored.is_some_and(|count| (count == text.len()) == done);
    let about = || format!("{text:02x?} on {before:?} left {after:?}");
    properties.on_one_line.check(right, about);
    if let (16, Some(count)) = (made.result.number, stored) {
        check_rest(properties, made, after, text.split_at(count));
    }
}

/// The rest of a string that was refused 16, put with split where it was left, ends where all of
/// it with split ends: nothing was lost. Its first line end was signalled twice.
fn check_rest(
    properties: &mut ChoiceProperties,
    made: &Made,
    after: &Owner,
    (stored, left): (&[u8], &[u8]),
) {
    let mut mended = with_choice(after, true);
    let rest = mended.make(&Call::PutString(left.to_vec()), &[]);
    let mut whole = with_choice(made.before, true);
    let all = whole.make(made.call, &[]);
    let together = CallResult {
        events: (rest.events + made.result.events).saturating_sub(1),
        ..rest
    };
    let about = || format!("{stored:02x?} and {left:02x?}: {together:?}, {all:?}");
    let same = together == all && mended == whole;
    properties.rest.check(same, about);
}

/// Makes the call again with split, on the record and the book that it found.
fn again_with_split(made: &Made, row: &[u32]) -> (CallResult, Owner) {
    let mut owner = with_choice(made.before, true);
    let result = owner.make(made.call, row);
    (result, owner)
}

/// "Other answers do as before in both": up to a line end that is answered 0 the choice makes no
/// difference, so that a jump there leaves the same, and without one all is the same.
fn check_alike(properties: &mut ChoiceProperties, made: &Made, after: &Owner) {
    let result = made.result;
    let about = || format!("{:?} {:08x?}: {result:?}", made.call, made.row);
    let expected = with_choice(after, true);
    if result.number != 16 {
        let (again, owner) = again_with_split(made, made.row);
        let same = again == *result && owner == expected;
        properties.alike.check(same, about);
        return;
    }
    let events = result.events as usize;
    if events > 64 {
        return;
    }
    let mut row = made.row.to_vec();
    row.resize(events - 1, 0);
    row.push(JUMP);
    let (jumped, owner) = again_with_split(made, &row);
    let same = CallResult {
        number: 16,
        taken: result.taken,
        ..jumped.clone()
    };
    let alike = jumped.number == 11 && same == *result && owner == expected;
    properties.alike_until.check(alike, about);
}

/// With split a string is what it was before C-14: its characters in turn, each by a call that
/// knows no choice.
fn check_as_characters(properties: &mut ChoiceProperties, made: &Made, text: &[u8]) {
    if text.is_empty() || text.len() > MOST_IN_TURN {
        return;
    }
    let (result, owner) = again_with_split(made, made.row);
    let mut in_turn = with_choice(made.before, true);
    let expected = put_in_turn(&mut in_turn, text, made.row, Call::PutCharacter);
    let about = || format!("{text:02x?} {:08x?}: {result:?}, {expected:?}", made.row);
    let same = result == expected && owner == in_turn;
    properties.as_characters.check(same, about);
}

/// "Only put of a string takes the choice": any other call gives the same with the other choice,
/// and leaves the same but for a choice that it does not set.
fn check_other_call(properties: &mut ChoiceProperties, made: &Made, after: &Owner) {
    let mut other = with_choice(made.before, !made.before.file.split);
    let result = other.make(made.call, made.row);
    let same = with_choice(&other, after.file.split) == *after;
    let about = || format!("{:?} {:08x?}: {result:?}", made.call, made.row);
    properties
        .others
        .check(result == *made.result && same, about);
}

/// The choice that a call has to leave. "Establish and open choose the new one."
fn expected_choice(made: &Made) -> bool {
    match made.call {
        _ if made.result.number != 0 => made.before.file.split,
        Call::Establish | Call::Open => false,
        Call::Choose(split) => *split,
        _ => made.before.file.split,
    }
}

/// "A call sets either on an open record, needing no right or mood": one of the two calls on what
/// any call found, with the number that is due, and nothing but the choice changed.
fn check_choosing(properties: &mut ChoiceProperties, before: &Owner, split: bool) {
    let mut after = before.clone();
    let result = after.make(&Call::Choose(split), &[]);
    let number = match before.file.opened {
        false => 1,
        true if !before.clone().fits() => 3,
        true => 0,
    };
    let expected = CallResult {
        number,
        ..CallResult::default()
    };
    let left = with_choice(
        before,
        if number == 0 {
            split
        } else {
            before.file.split
        },
    );
    let about = || format!("{split} on {:?}: {result:?}", before.file);
    let right = result == expected && after == left;
    properties.choosing.check(right, about);
}

/// One call that was made, and the same call with the other choice.
pub fn check_choice(properties: &mut ChoiceProperties, made: &Made, after: &mut Owner) {
    let about = || format!("{:?} on {:?}: {:?}", made.call, made.before, made.result);
    if made.result.number == 16 {
        let right = rightly_given(made, after);
        properties.given.check(right, about);
    }
    let kept = after.file.split == expected_choice(made);
    properties.kept.check(kept, about);
    for split in [true, false] {
        check_choosing(properties, made.before, split);
    }
    match made.call {
        Call::PutString(text) => {
            check_on_one_line(properties, made, after, text);
            check_as_characters(properties, made, text);
            if !made.before.file.split {
                check_alike(properties, made, after);
            }
        }
        _ => check_other_call(properties, made, after),
    }
}
