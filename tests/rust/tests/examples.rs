//! The examples E1 to E11 of document 01, its program `shown`, and an event of a refusal, through the safe wrapper.

use transput::{
    whole, Answer, Book, Event, File, Outcome, Position, Refusal, Rights, Shape, Signalled, Stop,
    View,
};

/// A record and its book.
struct Scene {
    file: File,
    book: Book,
}

impl Scene {
    /// "Book 2·3·8, rights get, put, reset, compress", or with lines of another length, established.
    fn established(characters: usize) -> Scene {
        let shape = Shape {
            pages: 2,
            lines: 3,
            characters,
        };
        let rights = Rights {
            get: true,
            put: true,
            set: false,
            reset: true,
            compress: true,
        };
        let mut scene = Scene {
            file: File::new(shape, rights),
            book: Book::new(shape),
        };
        let established = scene.file.establish(&mut scene.book);
        assert_eq!(established.refusal, None);
        scene
    }

    /// The same with the Report's split, under which E1 to E5 are kept.
    fn splitting() -> Scene {
        let mut scene = Scene::established(8);
        assert_eq!(scene.file.split(&scene.book).refusal, None);
        scene
    }

    fn after_e1() -> Scene {
        let mut scene = Scene::splitting();
        assert_eq!(scene.put("abcdefghij").refusal, None);
        scene
    }

    fn after_e2() -> Scene {
        let mut scene = Scene::after_e1();
        scene.reset();
        assert_eq!(scene.get(&[]).0, "abcdefgh");
        scene
    }

    fn put(&mut self, string: &str) -> Outcome {
        self.file.put_string(&mut self.book, string.as_bytes(), &[])
    }

    fn reset(&mut self) {
        assert_eq!(self.file.reset(&self.book).refusal, None);
    }

    /// Gets a string into 20. The output past the count is untouched.
    fn get(&mut self, row: &[u32]) -> (String, Outcome) {
        let mut output = [0xee; 20];
        let outcome = self.file.get_string(&mut self.book, b"", &mut output, row);
        let (got, rest) = output.split_at(outcome.count);
        assert!(rest.iter().all(|&byte| byte == 0xee));
        (String::from_utf8_lossy(got).into_owned(), outcome)
    }
}

#[test]
fn e1_put_over_a_line_end() {
    let mut scene = Scene::splitting();
    let outcome = scene.put("abcdefghij");
    assert_eq!(
        (outcome.refusal, outcome.events, outcome.taken),
        (None, 1, 0)
    );
    assert_eq!(
        scene.file.line_view(&scene.book, 1, 1, b""),
        Ok(View::Line(b"abcdefgh"))
    );
    assert_eq!(scene.file.position, Position::new(1, 2, 3));
    assert_eq!(scene.book.end, Position::new(1, 2, 3));
}

#[test]
fn e1_twin_is_refused_at_the_line_end() {
    let mut scene = Scene::established(8);
    let outcome = scene.put("abcdefghij");
    assert_eq!(
        (outcome.refusal, outcome.events, outcome.taken),
        (Some(Refusal::StringDoesNotFit), 1, 0)
    );
    let told = Signalled {
        event: Event::LineEnd,
        at: Position::new(1, 1, 9),
    };
    assert_eq!(outcome.signalled, Some(told));
    assert_eq!(
        scene.file.line_view(&scene.book, 1, 1, b""),
        Ok(View::Line(b"abcdefgh"))
    );
    assert_eq!(scene.book.end, Position::new(1, 1, 9));
}

#[test]
fn reset_and_fit_and_the_choice() {
    let mut scene = Scene::splitting();
    scene.reset();
    assert!(scene.file.split);
    assert_eq!(scene.file.fit(&scene.book).refusal, None);
    assert!(!scene.file.split);
}

#[test]
fn e2_get_to_the_line_end() {
    let mut scene = Scene::after_e1();
    scene.reset();
    let (got, outcome) = scene.get(&[]);
    assert_eq!(
        (got.as_str(), outcome.stop),
        ("abcdefgh", Some(Stop::LineEnded))
    );
    assert_eq!(scene.file.position, Position::new(1, 1, 9));
}

#[test]
fn e3_get_again_is_empty() {
    let mut scene = Scene::after_e2();
    let (got, outcome) = scene.get(&[]);
    assert_eq!((got.as_str(), outcome.stop), ("", Some(Stop::LineEnded)));
}

#[test]
fn e4_get_with_one_newline_answered() {
    let mut scene = Scene::after_e2();
    let (got, outcome) = scene.get(&[Answer::Newline.word()]);
    assert_eq!((got.as_str(), outcome.stop), ("ij", Some(Stop::FileEnded)));
    assert_eq!((outcome.events, outcome.taken), (2, 1));
}

#[test]
fn e5_a_put_after_reset_is_the_end() {
    let mut scene = Scene::after_e1();
    scene.reset();
    assert_eq!(scene.put("Z").refusal, None);
    assert_eq!(scene.book.end, Position::new(1, 1, 2));
}

#[test]
fn e6_a_put_on_the_end_line_leaves_the_end() {
    let mut scene = Scene::established(8);
    assert_eq!(scene.put("abcdef").refusal, None);
    let set = scene.file.set_character_number(&mut scene.book, 3, &[]);
    assert_eq!(set.refusal, None);
    assert_eq!(scene.put("X").refusal, None);
    assert_eq!(
        scene.file.line_view(&scene.book, 1, 1, b""),
        Ok(View::Line(b"abXdef"))
    );
    assert_eq!(scene.book.end, Position::new(1, 1, 7));
}

#[test]
fn e7_an_integer_on_a_line_of_10() {
    let mut scene = Scene::established(10);
    let outcome = scene.file.put_integer(&mut scene.book, 7, &[]);
    assert_eq!(outcome.refusal, Some(Refusal::LineTooShort));
}

#[test]
fn e8_an_integer_on_a_line_of_11() {
    let mut scene = Scene::established(11);
    let outcome = scene.file.put_integer(&mut scene.book, 7, &[]);
    assert_eq!(outcome.refusal, None);
    assert_eq!(&scene.book.text[..11], b"         +7");
}

/// whole(value, width) as text.
fn whole_text(value: i32, width: i32) -> String {
    let mut output = [0; 3];
    let count = whole(value, width, &mut output).expect("whole is done");
    String::from_utf8_lossy(&output[..count]).into_owned()
}

#[test]
fn e9_whole() {
    assert_eq!(whole_text(7, 3), " +7");
    assert_eq!(whole_text(7, -3), "  7");
    assert_eq!(whole_text(7, 1), "*");
    assert_eq!(whole_text(-7, -1), "*");
}

#[test]
fn e10_whole_of_0_and_of_too_little_room() {
    assert_eq!(whole_text(0, 0), "0");
    assert_eq!(whole_text(123, 3), "***");
}

#[test]
fn e11_the_least_integer() {
    assert_eq!(whole(i32::MIN, 0, &mut [0; 20]), Err(Refusal::BadValue));
    let mut scene = Scene::established(11);
    let outcome = scene.file.put_integer(&mut scene.book, i32::MIN, &[]);
    assert_eq!(outcome.refusal, Some(Refusal::BadValue));
}

/// Document 02, C-12: "A refusal that an event ends in .. gives that event and the position at which it was signalled; any other
/// result gives none."
#[test]
fn a_refusal_tells_its_event() {
    let mut scene = Scene::established(8);
    let jump = [Answer::Jump.word()];
    let outcome = scene.file.put_string(&mut scene.book, b"abcdefghij", &jump);
    assert_eq!(outcome.refusal, Some(Refusal::Jumped));
    let told = Signalled {
        event: Event::LineEnd,
        at: Position::new(1, 1, 9),
    };
    assert_eq!(outcome.signalled, Some(told));
    let outcome = scene.file.put_integer(&mut scene.book, i32::MIN, &[]);
    assert_eq!(outcome.refusal, Some(Refusal::BadValue));
    assert_eq!(outcome.signalled, None);
}

/// Every shown line as the program `shown` prints it: page, line, count of characters, and the line or the marker.
fn shown(scene: &Scene) -> Vec<String> {
    let places = (1..=2).flat_map(|page| (1..=3).map(move |line| (page, line)));
    let mut lines = Vec::new();
    for (page, line) in places {
        let view = scene.file.line_view(&scene.book, page, line, b"(blank)");
        let number = scene.file.view_number(&scene.book, page, line);
        assert_eq!(view.err(), number.refusal);
        let Ok(view) = view else { continue };
        let count = match view {
            View::Line(characters) => characters.len(),
            View::Marker(_) => 0,
        };
        let text = String::from_utf8_lossy(view.characters());
        lines.push(format!("{page} {line} {count} {text}"));
    }
    lines
}

#[test]
fn the_program_shown() {
    let mut scene = Scene::established(8);
    assert_eq!(scene.put("permit").refusal, None);
    for _ in 0..2 {
        let newline = scene.file.newline(&mut scene.book, &[]);
        assert_eq!(newline.refusal, None);
    }
    assert_eq!(scene.put("deny").refusal, None);
    assert_eq!(
        shown(&scene),
        ["1 1 6 permit", "1 2 0 (blank)", "1 3 4 deny"]
    );
    assert_eq!(scene.book.end, Position::new(1, 3, 5));
}
