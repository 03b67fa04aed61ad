//! Checks of what C-11 promises, on random pairs of books. The spans are held against what the
//! views of the two books show, not against how they were found.

use crate::calls::{differ, view, CallResult};
use crate::checks::{Owner, Property};
use crate::pairs::other_scene;
use crate::random::Random;
use crate::scenes::{hints_of, random_call, random_scene, Scene};
use crate::spans::{differing_spans, Looked, Span};

/// The properties that are checked.
pub struct SpanProperties {
    order: Property,
    inside: Property,
    outside: Property,
    maximal: Property,
    nothing: Property,
    refusals: Property,
    untouched: Property,
    unseen: Property,
}

impl SpanProperties {
    pub fn new() -> SpanProperties {
        SpanProperties {
            order: Property::new("spans are in position order and do not touch"),
            inside: Property::new("inside a span every place differs"),
            outside: Property::new("outside the spans the shown lines agree"),
            maximal: Property::new("a span is as long as it can be"),
            nothing: Property::new("nothing is listed exactly when the same is shown"),
            refusals: Property::new("a look that is refused has its number and leaves the list"),
            untouched: Property::new("entries past the count stay"),
            unseen: Property::new("characters that are not seen make no difference to the spans"),
        }
    }

    /// The properties in the order in which they are told.
    pub fn all(self) -> [Property; 8] {
        [
            self.order,
            self.inside,
            self.outside,
            self.maximal,
            self.nothing,
            self.refusals,
            self.untouched,
            self.unseen,
        ]
    }
}

impl Default for SpanProperties {
    fn default() -> SpanProperties {
        SpanProperties::new()
    }
}

/// What each of the two books shows on one line; none where it does not show the line.
struct ShownLine {
    page: u32,
    line: u32,
    texts: [Option<Vec<u8>>; 2],
}

impl ShownLine {
    /// "A place differs when the characters do, or when only one book shows one there."
    fn differs(&self, place: u32) -> bool {
        let [one, other] = self.texts.each_ref().map(|text| {
            let index = (place as usize).checked_sub(1)?;
            text.as_ref()?.get(index).copied()
        });
        one != other
    }

    /// The longer of the two lengths.
    fn length(&self) -> u32 {
        let lengths = self.texts.iter().flatten().map(Vec::len);
        lengths.max().unwrap_or(0) as u32
    }

    fn in_one_book_only(&self) -> bool {
        let [one, other] = &self.texts;
        one.is_some() != other.is_some()
    }

    fn holds(&self, span: &Span) -> bool {
        (span.page, span.line) == (self.page, self.line)
    }
}

/// Lends both books for one question.
fn ask_both<T>(pair: &mut [Owner; 2], question: impl FnOnce(Looked, Looked) -> T) -> T {
    let [one, other] = pair;
    one.asked(|file, book| {
        let one = Looked { file, book };
        other.asked(|file, book| question(one, Looked { file, book }))
    })
}

/// All lines up to the larger numbers of pages and lines, by the views of both books.
fn shown_lines(pair: &mut [Owner; 2]) -> Vec<ShownLine> {
    let text = |looked: Looked, page, line| {
        let view = view(looked.file, looked.book, page, line, &[]);
        Some(view.bytes).filter(|_| view.number == 0)
    };
    ask_both(pair, |one, other| {
        let pages = one.file.shape.pages.max(other.file.shape.pages);
        let lines = one.file.shape.lines.max(other.file.shape.lines);
        let places = (1..=pages).flat_map(|page| (1..=lines).map(move |line| (page, line)));
        let shown = places.map(|(page, line)| ShownLine {
            page,
            line,
            texts: [text(one, page, line), text(other, page, line)],
        });
        shown.collect()
    })
}

/// True when the later of two neighbours in the list is further on and does not touch the
/// other.
fn apart(one: &Span, next: &Span) -> bool {
    if (one.page, one.line) == (next.page, next.line) {
        return next.first > one.last + 1;
    }
    (one.page, one.line) < (next.page, next.line)
}

/// "Inside them every place differs"; "a line shown in only one book is one span from 1, ending
/// at 0 when empty".
fn differs_inside(line: &ShownLine, span: &Span) -> bool {
    if line.in_one_book_only() {
        return (span.first, span.last) == (1, line.length());
    }
    let on_line = 1 <= span.first && span.first <= span.last && span.last <= line.length();
    on_line && (span.first..=span.last).all(|place| line.differs(place))
}

/// "Outside the spans the shown lines agree."
fn agrees_outside(line: &ShownLine, spans: &[Span]) -> bool {
    let here: Vec<&Span> = spans.iter().filter(|span| line.holds(span)).collect();
    let listed = |place: u32| {
        here.iter()
            .any(|span| span.first <= place && place <= span.last)
    };
    let places_agree = (1..=line.length()).all(|place| listed(place) || !line.differs(place));
    places_agree && (here.len() == 1 || !line.in_one_book_only())
}

/// All that is said of a list of spans.
fn check_spans(properties: &mut SpanProperties, pair: &mut [Owner; 2], spans: &[Span]) {
    let lines = shown_lines(pair);
    let about = || format!("{spans:?} of {pair:?}");
    let in_order = spans.windows(2).all(|two| apart(&two[0], &two[1]));
    properties.order.check(in_order, about);
    let of_line = |span: &Span| lines.iter().find(|line| line.holds(span));
    let all = |holds: fn(&ShownLine, &Span) -> bool| {
        let mut each = spans.iter();
        each.all(|span| of_line(span).is_some_and(|line| holds(line, span)))
    };
    properties.inside.check(all(differs_inside), about);
    let maximal = all(|line, span| {
        let before = span.first > 0 && line.differs(span.first - 1);
        !before && !line.differs(span.last + 1)
    });
    properties.maximal.check(maximal, about);
    let outside = lines.iter().all(|line| agrees_outside(line, spans));
    properties.outside.check(outside, about);
    let same = lines.iter().all(|line| line.texts[0] == line.texts[1]);
    properties.nothing.check(same == spans.is_empty(), about);
}

/// The number that a look must have, from how many spans there are and how many entries.
fn expected_number(pair: &mut [Owner; 2], needed: usize, size: usize) -> u32 {
    let [one, other] = pair;
    if !one.file.opened || !other.file.opened {
        1
    } else if !one.fits() || !other.fits() {
        3
    } else if needed > size {
        12
    } else {
        0
    }
}

/// Entries of anything, so that one that is written by mistake is noticed.
fn random_list(random: &mut Random, size: usize) -> Vec<Span> {
    let entries = (0..size).map(|_| Span {
        page: random.byte().into(),
        line: random.byte().into(),
        first: random.byte().into(),
        last: random.byte().into(),
    });
    entries.collect()
}

/// Makes the call on a pair.
fn look(pair: &mut [Owner; 2], list: &mut [Span]) -> CallResult {
    ask_both(pair, |one, other| differ(one, other, list))
}

/// One look with a list of some size, and all that is said of its list.
fn check_look(
    random: &mut Random,
    properties: &mut SpanProperties,
    pair: &mut [Owner; 2],
    (needed, size): (usize, usize),
) {
    let before = random_list(random, size);
    let mut list = before.clone();
    let result = look(pair, &mut list);
    let about = |what: &str| format!("{what}: {result:?}, entries {size}");
    let right = result.number == expected_number(pair, needed, size);
    let left = result.number == 0 || (result.count == 0 && list == before);
    properties
        .refusals
        .check(right && left, || about("refusal"));
    let stay = list
        .iter()
        .skip(result.count)
        .eq(before.iter().skip(result.count));
    let bytes: Vec<u8> = list.iter().flat_map(|entry| entry.bytes()).collect();
    properties
        .untouched
        .check(stay && bytes == result.bytes, || about("entries"));
    let mut twins = random_twins(random, pair);
    let mut twin_list = before;
    let same = look(&mut twins, &mut twin_list) == result && twin_list == list;
    let alike = pair[0].book.alike(&twins[0].book) && pair[1].book.alike(&twins[1].book);
    properties.unseen.check(same && alike, || about("twins"));
    if result.number == 0 && size == needed {
        check_spans(properties, pair, &list);
    }
}

/// A twin of either book or of both.
fn random_twins(random: &mut Random, pair: &[Owner; 2]) -> [Owner; 2] {
    let mut twins = pair.clone();
    let which = random.below(3);
    for (index, twin) in twins.iter_mut().enumerate() {
        if which != index {
            *twin = twin.twin(random);
        }
    }
    twins
}

/// The record and the book of a scene after a few calls.
fn used_owner(random: &mut Random, scene: &Scene) -> Owner {
    let mut owner = Owner::of_scene(scene);
    for _ in 0..random.below(10).saturating_sub(5) {
        let hints = owner.asked(|file, book| hints_of(file, book, scene.style));
        owner.make(&random_call(random, &hints), &[]);
    }
    owner
}

/// One pair of books, looked at with lists just long enough, longer, too short and empty.
pub fn check_pair(random: &mut Random, properties: &mut SpanProperties) {
    let scene = random_scene(random);
    let other = other_scene(random, &scene);
    let mut pair = [&scene, &other].map(|scene| used_owner(random, scene));
    let fit = pair.iter_mut().all(Owner::fits);
    let needed = match fit {
        true => ask_both(&mut pair, |one, other| differing_spans(one, other).len()),
        false => random.below(5),
    };
    let longer = needed + 1 + random.below(5);
    for size in [needed, longer, needed.saturating_sub(1), 0] {
        check_look(random, properties, &mut pair, (needed, size));
    }
}
