//! C-11: where two books differ, by scripts and by the call itself.

use second::book::{Book, File, Position, Rights, Shape};
use second::calls;
use second::replay::replay;
use second::spans::{Looked, Span};

/// What a script writes, as text.
fn play(script: &str) -> String {
    String::from_utf8_lossy(&replay(script.as_bytes())).into_owned()
}

/// The number, the count and the list of the last line, which a look at two books wrote.
fn looked(script: &str) -> (u32, u32, String) {
    let output = play(script);
    let line = output.lines().last().unwrap_or_default();
    let words: Vec<&str> = line.split(' ').collect();
    assert_eq!((words[0], words[2], words[3]), ("differ", "0", "0"));
    assert_eq!((words[4], words[6]), ("0", "-"), "no stop, no value");
    let number = |index: usize| words[index].parse().expect("a number");
    (number(1), number(5), words[7].to_string())
}

/// A look with nothing refused.
fn listed(script: &str) -> String {
    let (number, count, list) = looked(script);
    assert_eq!(number, 0, "{script}");
    let untouched = list.matches("eeeeeeee").count();
    let entries = if list == "-" { 0 } else { list.len() / 8 };
    assert_eq!(count as usize, entries - untouched, "{script}");
    list
}

/// A scene with an open record on a book that has the right to get: its shape and lent sizes,
/// its line lengths, page lengths and text in hex, and its end.
fn scene(shape: &str, sizes: &str, parts: [&str; 3], end: &str) -> String {
    let [lines, pages, text] = parts;
    format!(
        "shape {shape}\nlend {sizes}\nrights g\nlines 0 {lines}\npages 0 {pages}\n\
         text 0 {text}\nend {end}\nrecord 1 0 0 1 1 1\n"
    )
}

/// A script that puts one text in the first book and another in the second, and looks.
fn two_texts(one: &str, other: &str, entries: usize) -> String {
    format!("establish\nputs {other}\nswap\nestablish\nputs {one}\ndiffer {entries}")
}

#[test]
fn the_worked_example() {
    let output =
        play("establish\nputs 616263646566\nswap\nestablish\nputs 61625864595a39\ndiffer 3");
    let expected = "establish 0 0 0 0 0 - - | 1 0 1 1 1 1 0 | 1 1 1 | -\n\
        puts 0 0 0 0 0 - - | 1 0 1 1 1 7 0 | 1 1 7 | -\n\
        establish 0 0 0 0 0 - - | 1 0 1 1 1 1 0 | 1 1 1 | -\n\
        puts 0 0 0 0 0 - - | 1 0 1 1 1 8 0 | 1 1 8 | -\n\
        differ 0 0 0 0 2 - 0101030301010507eeeeeeee | 1 0 1 1 1 8 0 | 1 1 8 | -\n";
    assert_eq!(output, expected);
}

#[test]
fn the_first_side_is_told_after_the_bars() {
    let script = "establish\nputs 6162\nswap\nopen\ndiffer 1\nswap\ndiffer 0";
    let output = play(script);
    assert!(output.contains("\ndiffer 0 0 0 0 1 - 01010102 | 1 0 0 1 1 1 0 | 1 1 1 | -\n"));
    assert!(output.ends_with("\ndiffer 12 0 0 0 0 - - | 1 0 1 1 1 3 0 | 1 1 3 | -\n"));
}

#[test]
fn books_alike_need_no_entry() {
    assert_eq!(listed(&two_texts("6162", "6162", 0)), "-");
    assert_eq!(listed(&two_texts("6162", "6162", 1)), "eeeeeeee");
    let empty = "establish\nswap\nestablish\ndiffer 0";
    assert_eq!(listed(empty), "-");
}

#[test]
fn a_line_shown_in_only_one_book() {
    let script = "establish\nputs 61\nswap\nestablish\nputs 61\nnewline\nputs 626364\ndiffer 2";
    assert_eq!(listed(script), "01020103eeeeeeee");
    let other_way = script.replace("differ", "swap\ndiffer");
    assert_eq!(listed(&other_way), "01020103eeeeeeee");
}

#[test]
fn an_empty_line_shown_in_only_one_book() {
    let script = "establish\nputs 61\nswap\nestablish\nputs 61\nnewline\ndiffer 1";
    assert_eq!(listed(script), "01020100");
}

#[test]
fn an_empty_line_that_both_show_is_no_special_case() {
    assert_eq!(listed(&two_texts("-", "616263", 1)), "01010103");
    let script = "establish\nputs 61\nnewline\nswap\nestablish\nputs 61\nnewline\nputs 62\n";
    assert_eq!(listed(&format!("{script}differ 1")), "01020101");
}

#[test]
fn a_blank_is_not_nothing() {
    assert_eq!(listed(&two_texts("6120", "61", 1)), "01010202");
    assert_eq!(listed(&two_texts("2020", "-", 1)), "01010102");
    assert_eq!(listed(&two_texts("20", "61", 1)), "01010101");
}

#[test]
fn spans_end_where_a_place_agrees() {
    assert_eq!(
        listed(&two_texts("6178637865", "6162636465", 2)),
        "0101020201010404"
    );
    assert_eq!(
        listed(&two_texts("787863", "616263", 2)),
        "01010102eeeeeeee"
    );
    assert_eq!(listed(&two_texts("617879", "6162", 1)), "01010203");
}

#[test]
fn different_shapes_are_compared_by_their_numbers() {
    let small = scene("1 1 2", "2 1 1", ["02", "01", "6162"], "1 1 3");
    let wide = scene("1 2 3", "6 2 1", ["0303", "02", "616263646566"], "1 2 4");
    let long = scene("2 1 2", "4 2 2", ["0202", "0101", "61625a5a"], "2 1 3");
    let look = |one: &str, other: &str| listed(&format!("{one}swap\n{other}differ 4"));
    assert_eq!(look(&small, &wide), "0101030301020103eeeeeeeeeeeeeeee");
    assert_eq!(look(&wide, &small), "0101030301020103eeeeeeeeeeeeeeee");
    assert_eq!(look(&small, &long), "02010102eeeeeeeeeeeeeeeeeeeeeeee");
    assert_eq!(look(&long, &wide), "010103030102010302010102eeeeeeee");
    let same_text = scene("2 3 8", "48 6 2", ["020000000000", "0100", "6162"], "1 1 3");
    assert_eq!(look(&small, &same_text), "ee".repeat(16));
}

#[test]
fn a_line_that_is_not_in_its_page_is_not_shown() {
    let short_page = scene("2 2 1", "4 4 2", ["01010101", "0102", "61626364"], "2 2 2");
    let full_page = scene("2 2 1", "4 4 2", ["01010101", "0202", "61626364"], "2 2 2");
    let empty_line = scene("2 2 1", "4 4 2", ["01000101", "0202", "61626364"], "2 2 2");
    let look = |other: &str| listed(&format!("{short_page}swap\n{other}differ 1"));
    assert_eq!(look(&full_page), "01020101");
    assert_eq!(look(&empty_line), "01020100");
}

#[test]
fn a_list_just_long_enough_and_one_too_short() {
    let apart = |entries| two_texts("7862786478", "6162636465", entries);
    let full = "010101010101030301010505";
    assert_eq!(looked(&apart(3)), (0, 3, full.to_string()));
    assert_eq!(looked(&apart(2)), (12, 0, "ee".repeat(8)));
    assert_eq!(looked(&apart(0)), (12, 0, "-".to_string()));
    assert_eq!(looked(&apart(4)), (0, 3, format!("{full}eeeeeeee")));
}

#[test]
fn refusals_come_in_their_order_for_either_side() {
    let open = "establish\nputs 61\n";
    let closed = "establish\nclose\n";
    let bad = "establish\nputs 61\nend 1 1 9\nlines 0 09\n";
    let closed_and_bad = "establish\nclose\nlines 0 09\n";
    let number = |one: &str, other: &str| {
        let (number, count, list) = looked(&format!("{one}swap\n{other}differ 2"));
        assert!(number == 0 || (count == 0 && list == "ee".repeat(8)));
        number
    };
    assert_eq!(number(open, open), 0);
    assert_eq!((number(open, closed), number(closed, open)), (1, 1));
    assert_eq!((number(open, bad), number(bad, open)), (3, 3));
    assert_eq!((number(closed, bad), number(bad, closed)), (1, 1));
    assert_eq!(number(closed_and_bad, open), 1);
    let too_short = format!("{bad}swap\n{open}differ 0");
    assert_eq!(looked(&too_short), (3, 0, "-".to_string()));
}

#[test]
fn a_look_needs_no_right_and_no_mood() {
    let texts = two_texts("61", "62", 1);
    for rights in ["g", "p", "gprsc"] {
        let script = format!("{texts}\nrecord 1 0 0 1 1 1\nrights {rights}\ndiffer 1");
        assert_eq!(listed(&script), "01010101");
    }
    let no_right = format!("{texts}\nrecord 1 0 0 1 1 1\nrights -\ndiffer 1");
    assert_eq!(looked(&no_right), (3, 0, "eeeeeeee".to_string()));
}

#[test]
fn a_swap_leaves_the_row_and_a_look_uses_it_up() {
    let start = "establish\nswap\nestablish\n";
    let nine = "puts 616161616161616161";
    let output = play(&format!("{start}row 80000000\nswap\n{nine}"));
    assert!(output.contains("\nputs 11 1 1 "));
    let output = play(&format!("{start}row 80000000\ndiffer 0\n{nine}"));
    assert!(output.contains("\nputs 16 1 0 "));
    let output = play(&format!("{start}row f0000000\ndiffer 0"));
    assert!(output.contains("\ndiffer 0 0 0 0 0 - - "));
}

#[test]
fn a_swap_exchanges_everything_else() {
    let scene = "shape 1 1 2\nlend 2 1 1\nrights g\nlines 0 02\npages 0 01\ntext 0 6162\n\
        end 1 1 3\nrecord 1 1 0 1 1 2 1\n";
    let look = "dump\nspace\nopen\nputs 61\nreset\n";
    let untouched = play(look);
    let set = play(&format!("{scene}{look}"));
    assert!(!set.is_empty() && set != untouched);
    assert_eq!(play(&format!("{scene}swap\n{look}")), untouched);
    assert_eq!(play(&format!("{scene}swap\nfill 5a\nswap\n{look}")), set);
    assert_eq!(play(&format!("{scene}swap\nswap\n{look}")), set);
}

#[test]
fn lines_that_cannot_be_read() {
    let lines = [
        "swap 1",
        "swap ",
        "Swap",
        "differ",
        "differ ",
        "differ -",
        "differ -1",
        "differ +1",
        "differ 4097",
        "differ 1 1",
        "differ ee",
    ];
    for line in lines {
        assert_eq!(play(line), "bad line 1\n", "{line}");
    }
    assert!(play("differ 004096").starts_with("differ 1 0 0 0 0 - eeee"));
}

/// Two books of a shape, one full of one character and the other of another.
fn full_books(shape: [u32; 3]) -> String {
    let [pages, lines, characters] = shape;
    let sizes = (pages * lines * characters, pages * lines, pages);
    let side = |byte: &str| {
        let lengths = format!("{characters:02x}").repeat(sizes.1 as usize);
        let page_lengths = format!("{lines:02x}").repeat(pages as usize);
        scene(
            &format!("{pages} {lines} {characters}"),
            &format!("{} {} {}", sizes.0, sizes.1, sizes.2),
            [&lengths, &page_lengths, "-"],
            &format!("{pages} {lines} {}", characters + 1),
        ) + &format!("fill {byte}\n")
    };
    format!("{}swap\n{}", side("61"), side("62"))
}

#[test]
fn the_largest_numbers_of_a_span() {
    let list = listed(&format!("{}differ 255", full_books([255, 1, 255])));
    assert!(list.starts_with("010101ff020101ff") && list.ends_with("ff0101ff"));
    let list = listed(&format!("{}differ 255", full_books([1, 255, 1])));
    assert!(list.starts_with("0101010101020101") && list.ends_with("01ff0101"));
}

#[test]
fn more_spans_than_any_list_of_a_script_holds() {
    let books = full_books([32, 32, 64]);
    let agree = "text 0 ".to_string() + &"6261".repeat(32 * 1024);
    let (number, count, list) = looked(&format!("{books}{agree}\ndiffer 4096"));
    assert_eq!((number, count), (12, 0));
    assert_eq!(list, "ee".repeat(4 * 4096));
    assert_eq!(listed(&format!("{books}differ 1024")).len(), 8 * 1024);
}

/// A record, open with the right to get, for a book of one page.
fn reader(lines: u32, characters: u32) -> File {
    File {
        opened: true,
        read_mood: false,
        write_mood: false,
        position: Position::START,
        shape: Shape {
            pages: 1,
            lines,
            characters,
        },
        rights: Rights {
            get: true,
            ..Rights::default()
        },
        split: false,
    }
}

/// Looks at two books of two lines of four, with the end in the middle of the second line.
fn look_at_texts(one: &[u8; 8], other: &[u8; 8], list: &mut [Span]) -> (u32, usize) {
    let file = reader(2, 4);
    let (mut one, mut other) = (*one, *other);
    let (mut line_lengths, mut page_lengths) = ([3, 4], [2]);
    let (mut other_line_lengths, mut other_page_lengths) = (line_lengths, page_lengths);
    let book = Book {
        text: &mut one,
        line_lengths: &mut line_lengths,
        page_lengths: &mut page_lengths,
        logical_end: Position::new(1, 2, 3),
    };
    let other_book = Book {
        text: &mut other,
        line_lengths: &mut other_line_lengths,
        page_lengths: &mut other_page_lengths,
        logical_end: Position::new(1, 2, 3),
    };
    let one = Looked {
        file: &file,
        book: &book,
    };
    let other = Looked {
        file: &file,
        book: &other_book,
    };
    let result = calls::differ(one, other, list);
    (result.number, result.count)
}

#[test]
fn characters_that_are_not_shown_make_no_difference() {
    let mut list = [Span::filled(7); 3];
    assert_eq!(look_at_texts(b"abc.ef..", b"abc!ef!!", &mut list), (0, 0));
    assert_eq!(list, [Span::filled(7); 3]);
    assert_eq!(look_at_texts(b"abX.Xf..", b"abc!ef!!", &mut list), (0, 2));
    let span = |line, place| Span {
        page: 1,
        line,
        first: place,
        last: place,
    };
    assert_eq!(list, [span(1, 3), span(2, 1), Span::filled(7)]);
}

#[test]
fn a_refused_look_leaves_what_the_list_held() {
    let mut list: Vec<Span> = (1..=2).map(Span::filled).collect();
    let before = list.clone();
    let looked = look_at_texts(b"XbX.Xf..", b"abc!ef!!", &mut list);
    assert_eq!((looked, list), ((12, 0), before));
}
