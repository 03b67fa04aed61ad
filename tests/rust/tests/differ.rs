//! C-11, where two books differ, by examples through the safe wrapper.

use transput::{calls, Book, File, Position, Refusal, Rights, Shape, Span};

/// What a list holds where nothing was written.
const UNTOUCHED: Span = span(0xee, 0xee, 0xee, 0xee);

const fn span(page: u8, line: u8, first: u8, last: u8) -> Span {
    Span {
        page,
        line,
        first,
        last,
    }
}

const fn shape(pages: usize, lines: usize, characters: usize) -> Shape {
    Shape {
        pages,
        lines,
        characters,
    }
}

/// A record and its book.
#[derive(Clone)]
struct Scene {
    file: File,
    book: Book,
}

impl Scene {
    fn established(shape: Shape) -> Scene {
        let rights = Rights {
            put: true,
            compress: true,
            ..Rights::default()
        };
        let mut scene = Scene {
            file: File::new(shape, rights),
            book: Book::new(shape),
        };
        assert_eq!(scene.file.establish(&mut scene.book).refusal, None);
        scene
    }

    /// A book of 2·3·8 with these lines, the last of them not ended.
    fn with_lines(lines: &[&str]) -> Scene {
        let mut scene = Scene::established(shape(2, 3, 8));
        for (index, line) in lines.iter().enumerate() {
            if index > 0 {
                let newline = scene.file.newline(&mut scene.book, &[]);
                assert_eq!(newline.refusal, None);
            }
            let put = scene.file.put_string(&mut scene.book, line.as_bytes(), &[]);
            assert_eq!(put.refusal, None);
        }
        scene
    }

    /// A book of a shape that shows the same character in every place.
    fn full_of(shape: Shape, byte: u8) -> Scene {
        let mut scene = Scene::established(shape);
        scene.book.text.fill(byte);
        scene.book.end = Position::new(shape.pages, shape.lines, shape.characters + 1);
        scene
    }

    fn differences(&self, other: &Scene) -> Result<Vec<Span>, Refusal> {
        let count = self
            .file
            .difference_count(&self.book, &other.file, &other.book);
        let spans = self.file.differences(&self.book, &other.file, &other.book);
        assert_eq!(
            spans.as_ref().map(Vec::len).map_err(|refusal| *refusal),
            count
        );
        spans
    }

    fn differ(&self, other: &Scene, list: &mut [Span]) -> Result<usize, Refusal> {
        self.file.differ(&self.book, &other.file, &other.book, list)
    }
}

/// The spans of two books, which are the same whichever of them comes first.
fn spans_of(one: &Scene, other: &Scene) -> Vec<Span> {
    let spans = one.differences(other);
    assert_eq!(spans, other.differences(one));
    spans.expect("the comparison is done")
}

fn spans_of_lines(one: &[&str], other: &[&str]) -> Vec<Span> {
    spans_of(&Scene::with_lines(one), &Scene::with_lines(other))
}

#[test]
fn characters_that_differ_on_a_line() {
    let spans = spans_of_lines(&["abXdYZ9"], &["abcdef"]);
    assert_eq!(spans, [span(1, 1, 3, 3), span(1, 1, 5, 7)]);
}

#[test]
fn a_book_and_itself() {
    let scene = Scene::with_lines(&["permit", "", "deny"]);
    assert_eq!(spans_of(&scene, &scene), []);
    assert_eq!(spans_of(&scene, &scene.clone()), []);
    assert_eq!(scene.differ(&scene, &mut []), Ok(0));
}

#[test]
fn a_blank_is_not_nothing() {
    assert_eq!(spans_of_lines(&["a "], &["a"]), [span(1, 1, 2, 2)]);
    assert_eq!(spans_of_lines(&["  "], &[""]), [span(1, 1, 1, 2)]);
}

#[test]
fn a_line_that_only_one_book_shows() {
    assert_eq!(spans_of_lines(&["a", "bcd"], &["a"]), [span(1, 2, 1, 3)]);
    assert_eq!(spans_of_lines(&["a", ""], &["a"]), [span(1, 2, 1, 0)]);
    let three = spans_of_lines(&["a", "", "d"], &["b"]);
    assert_eq!(
        three,
        [span(1, 1, 1, 1), span(1, 2, 1, 0), span(1, 3, 1, 1)]
    );
}

#[test]
fn what_is_not_shown_makes_no_difference() {
    let one = Scene::with_lines(&["abc", "de"]);
    let mut other = one.clone();
    other.book.text[3] = b'X';
    other.book.text[10] = b'X';
    other.file.position = Position::START;
    other.file.writing = false;
    assert_eq!(spans_of(&one, &other), []);
}

#[test]
fn shapes_that_differ() {
    let small = Scene::full_of(shape(1, 1, 2), b'a');
    let wide = Scene::full_of(shape(1, 2, 3), b'a');
    let long = Scene::full_of(shape(2, 1, 2), b'a');
    assert_eq!(
        spans_of(&small, &wide),
        [span(1, 1, 3, 3), span(1, 2, 1, 3)]
    );
    assert_eq!(spans_of(&small, &long), [span(2, 1, 1, 2)]);
    assert_eq!(
        spans_of(&wide, &long),
        [span(1, 1, 3, 3), span(1, 2, 1, 3), span(2, 1, 1, 2)]
    );
}

#[test]
fn the_largest_numbers_of_a_span() {
    let largest = [
        (shape(255, 1, 255), span(255, 1, 1, 255)),
        (shape(1, 255, 255), span(1, 255, 1, 255)),
    ];
    for (shape, last) in largest {
        let spans = spans_of(&Scene::full_of(shape, b'a'), &Scene::full_of(shape, b'b'));
        assert_eq!((spans.len(), spans[254]), (255, last));
    }
}

#[test]
fn many_spans() {
    let one = Scene::full_of(shape(32, 32, 64), b'a');
    let mut other = one.clone();
    for place in other.book.text.iter_mut().step_by(2) {
        *place = b'b';
    }
    let spans = spans_of(&one, &other);
    assert_eq!(spans.len(), 32_768);
    assert!(spans.windows(2).all(|pair| pair[0] < pair[1]));
    assert!(spans
        .iter()
        .all(|span| span.first % 2 == 1 && span.first == span.last));
    let mut short = vec![UNTOUCHED; 32_767];
    assert_eq!(one.differ(&other, &mut short), Err(Refusal::OutputTooShort));
    assert!(short.iter().all(|entry| *entry == UNTOUCHED));
}

#[test]
fn a_list_just_long_enough_and_others() {
    let (one, other) = (Scene::with_lines(&["xbxdx"]), Scene::with_lines(&["abcde"]));
    let spans = [span(1, 1, 1, 1), span(1, 1, 3, 3), span(1, 1, 5, 5)];
    for entries in 0..=5 {
        let mut list = vec![UNTOUCHED; entries];
        let counted = one.differ(&other, &mut list);
        let expected = if entries < 3 {
            (Err(Refusal::OutputTooShort), vec![UNTOUCHED; entries])
        } else {
            let rest = vec![UNTOUCHED; entries - 3];
            (Ok(3), [spans.to_vec(), rest].concat())
        };
        assert_eq!((counted, list), expected, "{entries} entries");
    }
}

#[test]
fn a_list_of_any_length_in_bytes() {
    let (one, other) = (Scene::with_lines(&["xbx"]), Scene::with_lines(&["abc"]));
    let written = [1, 1, 1, 1, 1, 1, 3, 3];
    for length in 0..=13 {
        let mut list = vec![0xee; length];
        let listed = calls::differ(&one.file, &one.book, &other.file, &other.book, &mut list);
        let mut expected = vec![0xee; length];
        if length >= 8 {
            expected[..8].copy_from_slice(&written);
            assert_eq!((listed.number, listed.count), (0, 2), "{length} bytes");
        } else {
            assert_eq!((listed.number, listed.count), (12, 0), "{length} bytes");
        }
        assert_eq!(list, expected, "{length} bytes");
    }
}

/// The refusal of a comparison with an empty list, and with one that is long enough and stays as it was.
fn refusals_of(one: &Scene, other: &Scene) -> [Option<Refusal>; 2] {
    let mut list = [UNTOUCHED; 2];
    let refusals = [
        one.differ(other, &mut []).err(),
        one.differ(other, &mut list).err(),
    ];
    assert_eq!(one.differences(other).err(), refusals[1]);
    assert!(refusals[1].is_none() || list == [UNTOUCHED; 2]);
    refusals
}

#[test]
fn refusals_in_their_order() {
    let (good, near) = (Scene::with_lines(&["a"]), Scene::with_lines(&["b"]));
    let (mut closed, mut bad) = (near.clone(), near.clone());
    assert_eq!(closed.file.close(&closed.book).refusal, None);
    bad.book.lines[0] = 9;
    let mut both = closed.clone();
    both.book.lines[0] = 9;
    let mut no_memory = near.clone();
    no_memory.book = Book::new(shape(0, 0, 0));
    assert_eq!(
        refusals_of(&good, &near),
        [Some(Refusal::OutputTooShort), None]
    );
    let refused = [
        (&closed, &good, Refusal::NotOpen),
        (&closed, &bad, Refusal::NotOpen),
        (&both, &good, Refusal::NotOpen),
        (&bad, &good, Refusal::BadBook),
        (&bad, &bad, Refusal::BadBook),
        (&no_memory, &good, Refusal::BadBook),
    ];
    for (one, other, refusal) in refused {
        assert_eq!(refusals_of(one, other), [Some(refusal); 2]);
        assert_eq!(refusals_of(other, one), [Some(refusal); 2]);
    }
}
