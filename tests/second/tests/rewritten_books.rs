//! C-13: lengths that come back when sequential output takes the logical end back, by scripts.

use second::replay::replay;

/// What a script writes, as text.
fn play(script: &str) -> String {
    String::from_utf8_lossy(&replay(script.as_bytes())).into_owned()
}

/// The line lengths and the page lengths that a script leaves.
fn lengths(script: &str) -> (String, String) {
    let output = play(&format!("{script}\ndump"));
    let part = |name: &str| {
        let lines = output.lines();
        let found = lines.filter_map(|line| line.strip_prefix(name)).next_back();
        found.unwrap_or_default().to_string()
    };
    (part("lines "), part("pages "))
}

/// Line lengths and page lengths as they are expected.
fn are(lines: &str, pages: &str) -> (String, String) {
    (lines.to_string(), pages.to_string())
}

/// The number and the events of the last call, and the logical end that it left.
fn last_call(script: &str) -> (u32, u32, String) {
    let output = play(script);
    let line = output.lines().last().unwrap_or_default();
    let words: Vec<&str> = line.split(' ').collect();
    let groups: Vec<&str> = line.split(" | ").collect();
    let number = |index: usize| words[index].parse().expect("a number");
    (number(1), number(2), groups[2].to_string())
}

/// A call that is done, with its events and the end that it left.
fn done(events: u32, end: &str) -> (u32, u32, String) {
    (0, events, end.to_string())
}

/// The book 2·3·8 after a night of short lines: "abc" and "de" on a first page of two lines,
/// "f" on the second page. The end is (2, 1, 2).
const SHORT_NIGHT: &str = "establish\nputs 616263\nnewline\nputs 6465\nnewpage\nputs 66\n";

/// A writer on an old book 2·3·8 with short lines and pages everywhere.
fn old_book(rights: &str, position: &str, end: &str) -> String {
    format!(
        "rights {rights}\nlines 0 040302030303\npages 0 0202\nend {end}\nrecord 1 0 1 {position}\n"
    )
}

#[test]
fn a_night_of_short_lines_cuts_lines_and_pages() {
    assert_eq!(last_call(SHORT_NIGHT), done(0, "2 1 2"));
    assert_eq!(lengths(SHORT_NIGHT), are("030208080808", "0203"));
}

#[test]
fn the_next_nights_find_the_whole_book() {
    let short_night_again = SHORT_NIGHT.replace("establish", "reset");
    let mut script = SHORT_NIGHT.to_string();
    for _ in 0..3 {
        script += "reset\nputs 4142434445464748";
        assert_eq!(last_call(&script), done(0, "1 1 9"));
        assert_eq!(lengths(&script), are("080808080808", "0303"));
        script += "\nnewline\nputs 49\nnewline\nputs 4a\nnewpage\nputs 4b";
        assert_eq!(last_call(&script), done(0, "2 1 2"));
        assert_eq!(lengths(&script), are("080101080808", "0303"));
        script += &format!("\n{short_night_again}");
        assert_eq!(last_call(&script), done(0, "2 1 2"));
        assert_eq!(lengths(&script), are("030208080808", "0203"));
    }
}

#[test]
fn the_lengths_hold_for_the_next_character_of_the_call() {
    let script = format!("{SHORT_NIGHT}reset\nsplit\nputs 41424344454647484950");
    assert_eq!(last_call(&script), done(1, "1 2 3"));
    assert_eq!(lengths(&script), are("080808080808", "0303"));
    let without_split = script.replace("split", "fit");
    assert_eq!(last_call(&without_split), (16, 1, "1 1 9".to_string()));
    assert_eq!(lengths(&without_split), are("080808080808", "0303"));
}

#[test]
fn open_does_as_reset_and_neither_gives_lengths_back_alone() {
    for start in ["reset", "close\nopen", "open"] {
        let script = format!("{SHORT_NIGHT}{start}");
        assert_eq!(lengths(&script), are("030208080808", "0203"), "{start}");
        let put = format!("{script}\nputc 5a");
        assert_eq!(last_call(&put), done(0, "1 1 2"), "{start}");
        assert_eq!(lengths(&put), are("080808080808", "0303"), "{start}");
    }
}

#[test]
fn nothing_before_the_new_end_alters() {
    let second_line = format!("{}putc 61", old_book("gprc", "1 2 3", "2 2 2"));
    assert_eq!(last_call(&second_line), done(0, "1 2 4"));
    assert_eq!(lengths(&second_line), are("040808080808", "0303"));
    let second_page = format!("{}putc 61", old_book("gprc", "2 1 1", "2 2 2"));
    assert_eq!(last_call(&second_page), done(0, "2 1 2"));
    assert_eq!(lengths(&second_page), are("040302080808", "0203"));
    let after_newline = format!("{SHORT_NIGHT}reset\nputs -\nnewline\nputc 61");
    assert_eq!(last_call(&after_newline), done(0, "1 2 2"));
    assert_eq!(lengths(&after_newline), are("030808080808", "0303"));
}

#[test]
fn only_a_character_that_takes_the_end_back_gives_lengths_back() {
    let short = are("040302030303", "0202");
    let line_of_end = format!("{}putc 61", old_book("gprc", "1 1 1", "1 1 4"));
    assert_eq!(last_call(&line_of_end), done(0, "1 1 4"));
    assert_eq!(lengths(&line_of_end), short);
    let at_end = format!("{}putc 61", old_book("gprc", "1 1 4", "1 1 4"));
    assert_eq!(last_call(&at_end), done(0, "1 1 5"));
    assert_eq!(lengths(&at_end), short);
    for call in ["newline", "newpage", "space", "setc 3", "puts -"] {
        let script = format!("{}{call}", old_book("gprc", "1 1 1", "2 2 2"));
        assert_eq!(last_call(&script), done(0, "2 2 2"), "{call}");
        assert_eq!(lengths(&script), short, "{call}");
    }
}

#[test]
fn a_character_that_is_not_stored_gives_nothing_back() {
    let refused = format!("{}putc 01", old_book("gprc", "1 1 1", "2 2 2"));
    assert_eq!(last_call(&refused), (8, 1, "2 2 2".to_string()));
    assert_eq!(lengths(&refused), are("040302030303", "0202"));
    let after_one = format!("{}puts 6101", old_book("gprc", "1 1 1", "2 2 2"));
    assert_eq!(last_call(&after_one), (8, 1, "1 1 2".to_string()));
    assert_eq!(lengths(&after_one), are("080808080808", "0303"));
}

#[test]
fn a_reset_in_an_answer_takes_the_end_back_in_the_same_call() {
    let scene = "shape 1 2 3\nlend 6 2 1\nestablish\nputs 61\nnewline\nputs 626364\n";
    assert_eq!(lengths(scene), are("0103", "02"));
    let script = format!("{scene}row 60000000\nputs 6566");
    assert_eq!(last_call(&script), done(1, "1 1 3"));
    assert_eq!(lengths(&script), are("0303", "02"));
}

#[test]
fn lengths_that_came_back_are_cut_again_in_the_same_call() {
    let book = old_book("gprc", "1 1 1", "2 2 2");
    let script = format!("{book}row 20000000 30000000\nputs 61626364656601610161");
    assert_eq!(last_call(&script), done(2, "2 1 3"));
    assert_eq!(lengths(&script), are("060208080808", "0203"));
}

#[test]
fn a_first_line_of_length_0_stays_so() {
    let one_line_on = "establish\nnewline\nputs 6162\nreset\nputc 78";
    assert_eq!(last_call(one_line_on), done(1, "1 2 3"));
    assert_eq!(lengths(one_line_on), are("000808080808", "0303"));
    let two_lines_on = "establish\nnewline\nputs 6162\nnewline\nputs 63\nreset\nputc 78";
    assert_eq!(last_call(two_lines_on), done(1, "1 2 2"));
    assert_eq!(lengths(two_lines_on), are("000808080808", "0303"));
}

#[test]
fn an_integer_on_a_line_that_is_still_short_is_refused() {
    let scene = "shape 1 3 12\nlend 36 3 1\nestablish\nputs 616263\nnewline\nputs 64\nnewline\n";
    let refused = format!("{scene}reset\nputi 7");
    assert_eq!(last_call(&refused), (10, 0, "1 3 1".to_string()));
    assert_eq!(lengths(&refused), are("03010c", "03"));
    let after_a_character = format!("{refused}\nputc 78\nreset\nputi 7");
    assert_eq!(last_call(&after_a_character), done(0, "1 1 12"));
    assert_eq!(lengths(&after_a_character), are("0c0c0c", "03"));
}

#[test]
fn an_integer_that_finds_room_gives_lengths_back() {
    let scene = "shape 1 3 14\nlend 42 3 1\nestablish\nputs 616161616161616161616161\nnewline\n\
                 puts 62\nnewline\nputs 63\n";
    assert_eq!(lengths(scene), are("0c010e", "03"));
    let script = format!("{scene}reset\nputi 7");
    assert_eq!(last_call(&script), done(0, "1 1 12"));
    assert_eq!(lengths(&script), are("0e0e0e", "03"));
}

#[test]
fn a_book_without_compress_keeps_its_lengths() {
    let script = format!("{}putc 61", old_book("gpr", "1 1 1", "2 2 2"));
    assert_eq!(last_call(&script), done(0, "1 1 2"));
    assert_eq!(lengths(&script), are("040302030303", "0202"));
}

#[test]
fn a_book_with_set_keeps_its_end_and_its_lengths() {
    let script = format!("{}putc 61", old_book("gpsrc", "1 1 1", "2 2 2"));
    assert_eq!(last_call(&script), done(0, "2 2 2"));
    assert_eq!(lengths(&script), are("040302030303", "0202"));
}

#[test]
fn what_came_back_is_not_shown() {
    let script = format!("{SHORT_NIGHT}reset\nputc 5a\n");
    let first = play(&format!("{script}view 1 1 2d"));
    assert!(first.ends_with("view 0 0 0 0 1 - 5a | 1 0 1 1 1 2 0 | 1 1 2 | -\n"));
    let second = format!("{script}view 1 2 2d");
    assert_eq!(last_call(&second), (6, 0, "1 1 2".to_string()));
}
