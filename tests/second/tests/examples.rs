//! The examples E1 to E11 of document 01, the program `shown`, and points easily misread. C-14:
//! "E1 to E5 are kept under [the Report's split] and E1 gains a twin."

use second::book::{Book, File, Position, Rights, Shape};
use second::calls;
use second::calls::CallResult;
use second::refusals::{Event, Signalled};
use second::replay::replay;

const NEWLINE: u32 = 0x2000_0000;

/// A record and a book that owns its parts.
struct Owner {
    file: File,
    text: Vec<u8>,
    line_lengths: Vec<u8>,
    page_lengths: Vec<u8>,
    end: Position,
}

impl Owner {
    /// "Book 2·3·8, rights get, put, reset, compress", with lines of any length, established.
    fn established(characters: u32) -> Owner {
        let mut owner = Owner {
            file: File {
                opened: false,
                read_mood: false,
                write_mood: false,
                position: Position::START,
                shape: Shape {
                    pages: 2,
                    lines: 3,
                    characters,
                },
                rights: Rights {
                    get: true,
                    put: true,
                    set: false,
                    reset: true,
                    compress: true,
                },
                split: false,
            },
            text: vec![0; 6 * characters as usize],
            line_lengths: vec![0; 6],
            page_lengths: vec![0; 2],
            end: Position::START,
        };
        assert_eq!(owner.call(calls::establish).number, 0);
        owner
    }

    /// The same book of lines of 8, with the Report's split chosen.
    fn splitting() -> Owner {
        let mut owner = Owner::established(8);
        let chosen = owner.call(|file, book| calls::choose(file, book, true));
        assert_eq!(chosen.number, 0);
        owner
    }

    /// Makes a call on the lent parts.
    fn call(&mut self, call: impl FnOnce(&mut File, &mut Book) -> CallResult) -> CallResult {
        let mut book = Book {
            text: &mut self.text,
            line_lengths: &mut self.line_lengths,
            page_lengths: &mut self.page_lengths,
            logical_end: self.end,
        };
        let result = call(&mut self.file, &mut book);
        self.end = book.logical_end;
        result
    }

    fn put(&mut self, text: &str) -> CallResult {
        self.call(|file, book| calls::put_string(file, book, &[], text.as_bytes()))
    }

    fn put_integer(&mut self, value: i32) -> CallResult {
        self.call(|file, book| calls::put_integer(file, book, &[], value))
    }

    fn get_20(&mut self, row: &[u32]) -> (CallResult, String) {
        let mut output = [0xee; 20];
        let result = self.call(|file, book| calls::get_string(file, book, row, &[], &mut output));
        let (got, rest) = output.split_at(result.count);
        assert!(rest.iter().all(|&byte| byte == 0xee));
        (result, String::from_utf8_lossy(got).into_owned())
    }

    fn after_e1() -> Owner {
        let mut owner = Owner::splitting();
        owner.put("abcdefghij");
        owner
    }

    fn after_e2() -> Owner {
        let mut owner = Owner::after_e1();
        owner.call(calls::reset);
        owner.get_20(&[]);
        owner
    }
}

fn place(page: u32, line: u32, character: u32) -> Position {
    Position::new(page, line, character)
}

#[test]
fn e1_put_over_a_line_end() {
    let mut owner = Owner::splitting();
    let result = owner.put("abcdefghij");
    assert_eq!((result.number, result.events, result.taken), (0, 1, 0));
    assert_eq!(&owner.text[..10], b"abcdefghij");
    assert_eq!(owner.file.position, place(1, 2, 3));
    assert_eq!(owner.end, place(1, 2, 3));
}

#[test]
fn the_twin_of_e1_is_refused_at_the_line_end() {
    let mut owner = Owner::established(8);
    let result = owner.put("abcdefghij");
    assert_eq!((result.number, result.events, result.taken), (16, 1, 0));
    let signalled = Signalled {
        event: Event::LineEnd,
        position: place(1, 1, 9),
    };
    assert_eq!(result.signalled, Some(signalled));
    assert_eq!(&owner.text[..10], b"abcdefgh\0\0");
    assert_eq!(owner.file.position, place(1, 1, 9));
    assert_eq!(owner.end, place(1, 1, 9));
}

#[test]
fn e2_get_to_the_line_end() {
    let mut owner = Owner::after_e1();
    owner.call(calls::reset);
    let (result, got) = owner.get_20(&[]);
    assert_eq!((got.as_str(), result.stop), ("abcdefgh", 2));
    assert_eq!(owner.file.position, place(1, 1, 9));
}

#[test]
fn e3_get_again_is_empty() {
    let mut owner = Owner::after_e2();
    let (result, got) = owner.get_20(&[]);
    assert_eq!((got.as_str(), result.stop), ("", 2));
}

#[test]
fn e4_get_with_one_newline_answered() {
    let mut owner = Owner::after_e2();
    let (result, got) = owner.get_20(&[NEWLINE]);
    assert_eq!((got.as_str(), result.stop), ("ij", 3));
    assert_eq!((result.events, result.taken), (2, 1));
}

#[test]
fn e5_and_e6_the_logical_end() {
    let mut owner = Owner::after_e1();
    owner.call(calls::reset);
    owner.put("Z");
    assert_eq!(owner.end, place(1, 1, 2));
    let mut owner = Owner::established(8);
    owner.put("abcdef");
    owner.call(|file, book| calls::set_char_number(file, book, &[], 3));
    owner.put("X");
    assert_eq!(&owner.text[..6], b"abXdef");
    assert_eq!(owner.end, place(1, 1, 7));
}

#[test]
fn e7_and_e8_integers_on_short_and_just_long_lines() {
    assert_eq!(Owner::established(10).put_integer(7).number, 10);
    let mut owner = Owner::established(11);
    assert_eq!(owner.put_integer(7).number, 0);
    assert_eq!(&owner.text[..11], b"         +7");
}

#[test]
fn e9_and_e10_whole() {
    let text = |value, width| {
        let mut output = [0; 3];
        let result = calls::whole(value, width, &mut output);
        assert_eq!(result.number, 0);
        String::from_utf8_lossy(&output[..result.count]).into_owned()
    };
    assert_eq!(text(7, 3), " +7");
    assert_eq!(text(7, -3), "  7");
    assert_eq!(text(7, 1), "*");
    assert_eq!(text(-7, -1), "*");
    assert_eq!(text(0, 0), "0");
    assert_eq!(text(123, 3), "***");
}

#[test]
fn e11_the_least_integer() {
    assert_eq!(calls::whole(i32::MIN, 0, &mut [0; 20]).number, 9);
    assert_eq!(Owner::established(11).put_integer(i32::MIN).number, 9);
}

/// The lines that the program `shown` prints for one line of its input.
fn shown_line(owner: &mut Owner, line: &str) -> String {
    let result = match line {
        "N" => owner.call(|file, book| calls::newline(file, book, &[])),
        "G" => owner.call(|file, book| calls::newpage(file, book, &[])),
        _ => match line.strip_prefix("S ") {
            Some(text) => owner.put(text),
            None => return "refused 6\n".to_string(),
        },
    };
    match result.number {
        0 => String::new(),
        number => format!("refused {number}\n"),
    }
}

/// The program `shown` over lines of input.
fn shown(input: &[&str]) -> String {
    let mut owner = Owner::established(8);
    let mut output = String::new();
    for line in input {
        output += &shown_line(&mut owner, line);
    }
    for (page, line) in (1..=2).flat_map(|page| (1..=3).map(move |line| (page, line))) {
        let view = owner.call(|file, book| calls::view(file, book, page, line, b"(blank)"));
        if view.number == 0 {
            let text = String::from_utf8_lossy(&view.bytes);
            output += &format!("{page} {line} {} {text}\n", view.count);
        }
    }
    let end = owner.end;
    output + &format!("end {} {} {}\n", end.page, end.line, end.character)
}

#[test]
fn the_program_shown() {
    let output = shown(&["S permit", "N", "N", "S deny"]);
    let expected = "1 1 6 permit\n1 2 0 (blank)\n1 3 4 deny\nend 1 3 5\n";
    assert_eq!(output, expected);
    assert!(shown(&["S", "x", "S \u{1}"]).starts_with("refused 6\nrefused 6\nrefused 8\n"));
}

#[test]
fn the_program_shown_refuses_a_text_that_is_too_long() {
    let output = shown(&["S permit all", "N", "S deny"]);
    let expected = "refused 16\n1 1 8 permit a\n1 2 4 deny\nend 1 2 5\n";
    assert_eq!(output, expected);
}

/// What a script writes, as text.
fn play(script: &str) -> String {
    String::from_utf8_lossy(&replay(script.as_bytes())).into_owned()
}

#[test]
fn the_example_of_replay() {
    let output = play("establish\nsplit\nputs 6162636465666768696a\nreset\ngets 4 -");
    let expected = "establish 0 0 0 0 0 - - | 1 0 1 1 1 1 0 | 1 1 1 | -\n\
        split 0 0 0 0 0 - - | 1 0 1 1 1 1 1 | 1 1 1 | -\n\
        puts 0 1 0 0 0 - - | 1 0 1 1 2 3 1 | 1 2 3 | -\n\
        reset 0 0 0 0 0 - - | 1 0 0 1 1 1 1 | 1 2 3 | -\n\
        gets 0 0 0 4 4 - 61626364 | 1 1 0 1 1 5 1 | 1 2 3 | -\n";
    assert_eq!(output, expected);
}

#[test]
fn good_file_is_tested_again_after_a_default_newpage() {
    let output = play("shape 1 1 1\nlend 1 1 1\nestablish\nsplit\nputs 6161");
    let expected = "puts 15 3 0 0 0 - - | 1 0 1 2 1 1 1 | 2 1 1 | physical 2 1 1\n";
    assert!(output.ends_with(expected));
}

#[test]
fn a_reader_at_the_end_of_a_full_last_line_hears_logical_end() {
    let scene = "shape 1 1 2\nlend 2 1 1\nrights g\nlines 0 02\npages 0 01\nend 1 1 3\n";
    let output = play(&format!("{scene}record 1 1 0 1 1 3\ngets 1 -"));
    assert_eq!(output, "gets 0 1 0 3 0 - ee | 1 1 0 1 1 3 0 | 1 1 3 | -\n");
}

#[test]
fn set_asks_beyond_before_bounds() {
    let output = play("rights gps\nestablish\nset 9 0 0\nset 1 0 9");
    assert!(output.contains("\nset 14 1 0 "));
    assert!(output.contains("\nset 6 0 0 "));
}

#[test]
fn a_row_serves_one_call_and_bad_lines_leave_it() {
    let start = "establish\nsplit\nrow 80000000\ndump\n puts\n";
    let output = play(&format!("{start}puts 616161616161616161\nputs 61"));
    assert!(output.contains("bad line 5\nputs 11 1 1 "));
    assert!(output.ends_with("puts 0 1 0 0 0 - - | 1 0 1 1 2 2 1 | 1 2 2 | -\n"));
}

#[test]
fn lines_that_cannot_be_read() {
    let lines = [
        "puti +5",
        "puti  5",
        "newline ",
        "set 1 1 65536",
        "putc 6",
        "newline\r",
        "rights gg",
        "record 2 0 0 1 1 1",
        "lend 70001 1 1",
        "gets 4097 -",
        "whole 1 32768 1",
    ];
    for line in lines {
        assert_eq!(play(line), "bad line 1\n", "{line}");
    }
    assert_eq!(play("# all is well\n\nputs -"), play("\n\nputs -"));
    let long = "#".repeat(140_000);
    assert_eq!(play(&long), "");
    assert_eq!(play(&format!("{long}#")), "bad line 1\n");
}

#[test]
fn any_bytes_are_taken() {
    let mut random = second::random::Random::new(7);
    let bytes: Vec<u8> = (0..200_000).map(|_| random.byte()).collect();
    let output = replay(&bytes);
    assert!(output.starts_with(b"bad line 1\n"));
}

#[test]
fn numbers_of_any_size_are_refused() {
    let big = u32::MAX;
    let far = place(big, big, big);
    let mut owner = Owner::established(8);
    let mut numbers = Vec::new();
    numbers.push(owner.call(|file, book| calls::set_char_number(file, book, &[], big)));
    numbers.push(owner.call(|file, book| calls::view(file, book, big, big, b"")));
    owner.file.rights.set = true;
    numbers.push(owner.call(|file, book| calls::set(file, book, &[], far)));
    owner.file.position = far;
    numbers.push(owner.put("a"));
    owner.end = far;
    numbers.push(owner.call(calls::open));
    owner.file.shape.lines = big;
    numbers.push(owner.call(calls::backspace));
    owner.file.shape.pages = big;
    owner.file.shape.characters = big;
    numbers.push(owner.call(calls::establish));
    let numbers: Vec<u32> = numbers.iter().map(|result| result.number).collect();
    assert_eq!(numbers, [6, 6, 14, 3, 3, 3, 3]);
}
