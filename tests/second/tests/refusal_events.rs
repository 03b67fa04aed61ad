//! C-12: the event that a refusal ended in, and where it was signalled, by scripts and by a call
//! itself. Strings that go over a line end by default have the Report's split chosen; without it
//! they are refused 16 there (C-14).

use second::book::{Book, Position};
use second::calls;
use second::refusals::{Event, Signalled};
use second::replay::replay;
use second::side::Side;

/// What a script writes, as text.
fn play(script: &str) -> String {
    String::from_utf8_lossy(&replay(script.as_bytes())).into_owned()
}

/// The number, the events and the answers taken of the last line, and its last group.
fn ended(script: &str) -> (u32, u32, u32, String) {
    let output = play(script);
    let line = output.lines().last().unwrap_or_default();
    let groups: Vec<&str> = line.split(" | ").collect();
    assert_eq!(groups.len(), 4, "{line}");
    let words: Vec<&str> = line.split(' ').collect();
    let number = |index: usize| words[index].parse().expect("a number");
    (number(1), number(2), number(3), groups[3].to_string())
}

/// The number and the last group.
fn told(script: &str) -> (u32, String) {
    let (number, _, _, event) = ended(script);
    (number, event)
}

/// A number and the group that is expected with it.
fn tells(number: u32, event: &str) -> (u32, String) {
    (number, event.to_string())
}

/// A reader at the start of a book 1·2·12 whose text is given in hex, up to the given end.
fn reader(text: &str, end: &str) -> String {
    format!(
        "shape 1 2 12\nlend 24 2 1\nrights gsr\nlines 0 0c0c\npages 0 02\ntext 0 {text}\n\
         end {end}\nrecord 1 1 0 1 1 1\n"
    )
}

/// A fresh book 1·1·2 with all its places put, and the writer after them, with the split.
const FULL: &str = "shape 1 1 2\nlend 2 1 1\nestablish\nsplit\nputs 6162\n";

#[test]
fn the_worked_example() {
    let output = play("shape 1 1 1\nlend 1 1 1\nestablish\nsplit\nputs 6161");
    let expected = "establish 0 0 0 0 0 - - | 1 0 1 1 1 1 0 | 1 1 1 | -\n\
        split 0 0 0 0 0 - - | 1 0 1 1 1 1 1 | 1 1 1 | -\n\
        puts 15 3 0 0 0 - - | 1 0 1 2 1 1 1 | 2 1 1 | physical 2 1 1\n";
    assert_eq!(output, expected);
}

#[test]
fn logical_end() {
    let scene = reader("6162", "1 1 3");
    for call in ["getc", "geti", "space", "newline", "newpage", "setc 4"] {
        let script = format!("{scene}record 1 1 0 1 1 3\n{call}");
        assert_eq!(told(&script), tells(14, "logical 1 1 3"), "{call}");
    }
    let jumped = format!("{scene}record 1 1 0 1 1 3\nrow 80000000\ngets 4 -");
    assert_eq!(told(&jumped), tells(11, "logical 1 1 3"));
}

#[test]
fn logical_end_in_set_is_told_at_that_end() {
    let script = "rights gps\nestablish\nputs 616263\nset 1 1 1\nset 2 1 1";
    assert_eq!(told(script), tells(14, "logical 1 1 4"));
    let jumped = script.replace("set 2 1 1", "row 80000000\nset 2 1 1");
    assert_eq!(told(&jumped), tells(11, "logical 1 1 4"));
    let no_mood = script.replace("set 2 1 1", "record 1 0 0 1 1 2\nset 2 1 1");
    assert_eq!(told(&no_mood), tells(14, "logical 1 1 4"));
}

#[test]
fn physical_end() {
    for call in ["putc 63", "puts 63", "space", "newline", "newpage"] {
        let script = format!("{FULL}newpage\n{call}");
        assert_eq!(told(&script), tells(15, "physical 2 1 1"), "{call}");
        let jumped = format!("{FULL}newpage\nrow 80000000\n{call}");
        assert_eq!(told(&jumped), tells(11, "physical 2 1 1"), "{call}");
    }
}

#[test]
fn page_end() {
    for call in ["putc 63", "space", "newline"] {
        let script = format!("{FULL}newline\nrow 80000000\n{call}");
        assert_eq!(told(&script), tells(11, "page 1 2 1"), "{call}");
    }
}

#[test]
fn line_end() {
    let script = format!("{FULL}row 80000000\nputs 63");
    assert_eq!(told(&script), tells(11, "line 1 1 3"));
    let got = "establish\nsplit\nputs 6162636465666768696a\nreset\nrow 80000000\ngets 20 -";
    assert_eq!(told(got), tells(11, "line 1 1 9"));
    let does_not_fit = format!("{FULL}fit\nputs 63");
    assert_eq!(told(&does_not_fit), tells(16, "line 1 1 3"));
}

#[test]
fn line_end_for_want_of_room_for_an_integer() {
    let script = "shape 1 2 12\nlend 24 2 1\nestablish\nputs 6162\nrow 80000000\nputi 7";
    assert_eq!(told(script), tells(11, "line 1 1 3"));
}

#[test]
fn a_character_put_is_told_before_it_is_passed() {
    assert_eq!(told("establish\nputc 01"), tells(8, "character 1 1 1"));
    let second = "establish\nputs 617f";
    assert_eq!(told(second), tells(8, "character 1 1 2"));
    let jumped = "establish\nrow 80000000\nputs 617f";
    assert_eq!(told(jumped), tells(11, "character 1 1 2"));
    let next_line = "establish\nsplit\nputs 616161616161616101";
    assert_eq!(told(next_line), tells(8, "character 1 2 1"));
}

#[test]
fn a_character_got_is_told_after_it_is_passed() {
    let scene = reader("6101", "1 1 3");
    assert_eq!(
        told(&format!("{scene}gets 4 -")),
        tells(8, "character 1 1 3")
    );
    assert_eq!(
        told(&format!("{scene}getc\ngetc")),
        tells(8, "character 1 1 3")
    );
    assert_eq!(told(&format!("{scene}geti")), tells(8, "character 1 1 2"));
    let jumped = format!("{scene}row 80000000\ngeti");
    assert_eq!(told(&jumped), tells(11, "character 1 1 2"));
}

#[test]
fn a_suggestion_that_is_not_accepted() {
    let scene = reader("2061", "1 1 3");
    let letter = format!("{scene}row 70000041\ngeti");
    assert_eq!(ended(&letter), (8, 1, 1, "character 1 1 3".to_string()));
    let bad_again = "establish\nrow 70000001\nputc 02";
    assert_eq!(ended(bad_again), (8, 2, 1, "character 1 1 1".to_string()));
}

#[test]
fn value_is_told_after_the_last_character_of_the_text() {
    let scene = reader("2d3939393939393939393920", "1 1 13");
    assert_eq!(told(&format!("{scene}geti")), tells(9, "value 1 1 12"));
    let jumped = format!("{scene}row 80000000\ngeti");
    assert_eq!(told(&jumped), tells(11, "value 1 1 12"));
    let to_the_end = reader("323134373438333634382020", "1 1 11");
    let script = format!("{to_the_end}geti");
    assert_eq!(ended(&script), (9, 2, 0, "value 1 1 11".to_string()));
}

#[test]
fn the_innermost_event_is_told() {
    let scene = reader("01616162", "1 1 5");
    let newline = format!("{scene}row 20000000\ngetc");
    assert_eq!(ended(&newline), (14, 2, 1, "logical 1 1 5".to_string()));
    let jumped = format!("{scene}row 20000000 80000000\ngetc");
    assert_eq!(ended(&jumped), (11, 2, 2, "logical 1 1 5".to_string()));
    let deeper = format!("{scene}row 20000000 30000000 20000000 80000000\ngetc");
    assert_eq!(ended(&deeper), (11, 4, 4, "logical 1 1 5".to_string()));
}

#[test]
fn a_set_in_an_answer_tells_the_logical_end() {
    let scene = "rights gps\nestablish\nsplit\nputs 6162636465666768696a\nset 1 1 9\n";
    let set = format!("{scene}row 40100401\nputs 63");
    assert_eq!(ended(&set), (14, 2, 1, "logical 1 2 3".to_string()));
    let mended = format!("{scene}row 40100401 10000000 80000000\nputs 63");
    assert_eq!(ended(&mended), (0, 2, 2, "-".to_string()));
}

#[test]
fn a_default_newline_tells_what_it_ended_in() {
    let script = format!("{FULL}row 00000000 80000000\nputs 63");
    assert_eq!(ended(&script), (11, 2, 2, "page 1 2 1".to_string()));
    let script = format!("{FULL}row 00000000 00000000 80000000\nputs 63");
    assert_eq!(ended(&script), (11, 3, 3, "physical 2 1 1".to_string()));
}

#[test]
fn refusals_that_are_no_events_end_tell_none_in_an_answer() {
    let backspace = format!("{FULL}newline\nrow 50000000\nputs 63");
    assert_eq!(ended(&backspace), (6, 1, 1, "-".to_string()));
    let reset = format!("{FULL}rights gp\nrow 60000000\nputs 63");
    assert_eq!(ended(&reset), (4, 1, 1, "-".to_string()));
    let newline = "rights gps\nestablish\nrecord 1 0 0 1 1 1\nrow 20000000\nset 2 1 1";
    assert_eq!(ended(newline), (5, 1, 1, "-".to_string()));
    let too_short = "shape 1 2 11\nlend 22 2 1\nestablish\nlines 1 0a\nputs 61\nputi 7";
    assert_eq!(ended(too_short), (10, 1, 0, "-".to_string()));
}

#[test]
fn refusals_before_work_tell_none() {
    let refused = [
        (9, "establish\nputi -2147483648"),
        (9, "whole -2147483648 0 20"),
        (1, "newline"),
        (2, "establish\nrow 90000000\nputs 61"),
        (3, "shape 0 3 8\nestablish"),
        (4, "rights g\nestablish"),
        (5, "establish\ngetc"),
        (6, "establish\nbackspace"),
        (6, "establish\nview 2 1 -"),
        (12, "whole 1 0 0"),
    ];
    for (number, script) in refused {
        assert_eq!(ended(script), (number, 0, 0, "-".to_string()), "{script}");
    }
}

#[test]
fn stops_tell_none() {
    let scene = reader("616263", "1 1 4");
    let line_end = "establish\nsplit\nputs 6162636465666768696a\nreset\ngets 20 -";
    assert_eq!(ended(line_end), (0, 1, 0, "-".to_string()));
    let logical_end = format!("{scene}gets 20 -");
    assert_eq!(ended(&logical_end), (0, 1, 0, "-".to_string()));
    for call in ["gets 20 62", "gets 1 -"] {
        let script = format!("{scene}{call}");
        assert_eq!(ended(&script), (0, 0, 0, "-".to_string()), "{call}");
    }
}

#[test]
fn an_event_that_was_mended_is_not_told() {
    let suggested = "establish\nrow 70000041\nputc 01";
    assert_eq!(ended(suggested), (0, 1, 1, "-".to_string()));
    let too_large = reader("39393939393939393939", "1 1 11");
    let value = format!("{too_large}row 00000000 10000000\ngeti");
    assert_eq!(ended(&value), (0, 2, 2, "-".to_string()));
    let other_event = "establish\nrow 70000041\nputs 01016161";
    assert_eq!(ended(other_event), (8, 2, 1, "character 1 1 2".to_string()));
}

#[test]
fn a_call_hands_the_event_back() {
    let mut side = Side::new();
    side.lend(calls::establish);
    let put = |side: &mut Side, row: &[u32], text: &[u8]| {
        side.lend(|file, book: &mut Book| calls::put_string(file, book, row, text))
    };
    assert_eq!(put(&mut side, &[], b"ab").signalled, None);
    let refused = put(&mut side, &[], b"c\x1fd");
    let signalled = Signalled {
        event: Event::Character,
        position: Position::new(1, 1, 4),
    };
    assert_eq!((refused.number, refused.signalled), (8, Some(signalled)));
    let jumped = put(&mut side, &[8 << 28], b"defghij");
    let signalled = Signalled {
        event: Event::LineEnd,
        position: Position::new(1, 1, 9),
    };
    assert_eq!((jumped.number, jumped.signalled), (11, Some(signalled)));
    assert_eq!(side.file.position, signalled.position);
}
