//! C-14: strings that do not fit their line, and the choice between the refusal and the Report's
//! split, by scripts and by the calls themselves.

use second::book::Position;
use second::calls;
use second::calls::CallResult;
use second::refusals::{Event, Signalled};
use second::replay::{call_name, read_line, replay, Call, Line};
use second::side::Side;

/// What a script writes, as text.
fn play(script: &str) -> String {
    String::from_utf8_lossy(&replay(script.as_bytes())).into_owned()
}

/// The last line that a script writes.
fn last_line(script: &str) -> String {
    play(script).lines().last().unwrap_or_default().to_string()
}

/// The text that a script leaves in its book, in hex.
fn text_left(script: &str) -> String {
    let line = last_line(&format!("{script}\ndump"));
    line.strip_prefix("text ").unwrap_or_default().to_string()
}

/// The number, the events, the answers taken, and the groups of the record, the logical end and
/// the event of the last call.
fn ended(script: &str) -> (u32, u32, u32, [String; 3]) {
    let line = last_line(script);
    let groups: Vec<&str> = line.split(" | ").collect();
    let [call, record, end, event] = groups[..] else {
        panic!("{line}");
    };
    let words: Vec<&str> = call.split(' ').collect();
    let number = |index: usize| words[index].parse().expect("a number");
    let told = [record, end, event].map(str::to_string);
    (number(1), number(2), number(3), told)
}

/// What is expected of the last call: its numbers and its groups.
fn are(numbers: [u32; 3], groups: [&str; 3]) -> (u32, u32, u32, [String; 3]) {
    let [number, events, taken] = numbers;
    (number, events, taken, groups.map(str::to_string))
}

/// The choice that a script leaves, as the last call's line has it.
fn choice_left(script: &str) -> String {
    let (_, _, _, [record, _, _]) = ended(script);
    record.split(' ').nth(6).unwrap_or_default().to_string()
}

/// A fresh book 2·3·8 full of points, with a choice made by a call.
fn fresh(choice: &str) -> String {
    format!("fill 2e\nestablish\n{choice}\n")
}

/// Ten letters, "abcdefghij": two more than a line of eight holds.
const TEN: &str = "6162636465666768696a";

/// The eight letters that the first line takes of them.
const EIGHT: &str = "6162636465666768";

/// Points where nothing was stored, in hex.
fn points(count: usize) -> String {
    "2e".repeat(count)
}

#[test]
fn the_worked_example() {
    let expected = "puts 16 1 0 0 0 - - | 1 0 1 1 1 9 0 | 1 1 9 | line 1 1 9";
    assert_eq!(last_line(&format!("establish\nputs {TEN}")), expected);
}

#[test]
fn an_address_that_does_not_fit_is_refused_and_what_was_stored_stays() {
    let script = format!("{}puts {TEN}", fresh("fit"));
    let expected = are([16, 1, 0], ["1 0 1 1 1 9 0", "1 1 9", "line 1 1 9"]);
    assert_eq!(ended(&script), expected);
    assert_eq!(text_left(&script), format!("{EIGHT}{}", points(40)));
}

#[test]
fn the_same_address_is_split_where_that_is_chosen() {
    let script = format!("{}puts {TEN}", fresh("split"));
    let expected = are([0, 1, 0], ["1 0 1 1 2 3 1", "1 2 3", "-"]);
    assert_eq!(ended(&script), expected);
    assert_eq!(text_left(&script), format!("{TEN}{}", points(38)));
}

#[test]
fn a_refused_line_is_neither_filled_nor_cut() {
    for rights in ["gpr", "gprc", "gps", "p"] {
        let start = "establish\nputs 6162\nlines 0 05\n";
        let script = format!("fill 2e\nrights {rights}\n{start}puts 63646566");
        let expected = are([16, 1, 0], ["1 0 1 1 1 6 0", "1 1 6", "line 1 1 6"]);
        assert_eq!(ended(&script), expected, "{rights}");
        assert_eq!(text_left(&script), format!("6162636465{}", points(43)));
        let output = play(&format!("{script}\ndump"));
        assert!(output.contains("\nlines 050808080808\npages 0303\n"));
    }
}

#[test]
fn a_string_that_just_fits_is_done_and_the_next_stores_nothing() {
    let script = format!("{}puts {EIGHT}", fresh("fit"));
    let expected = are([0, 0, 0], ["1 0 1 1 1 9 0", "1 1 9", "-"]);
    assert_eq!(ended(&script), expected);
    let next = format!("{script}\nputs 69");
    let expected = are([16, 1, 0], ["1 0 1 1 1 9 0", "1 1 9", "line 1 1 9"]);
    assert_eq!(ended(&next), expected);
    assert_eq!(text_left(&next), text_left(&script));
    let empty = format!("{script}\nputs -");
    assert_eq!(
        ended(&empty),
        are([0, 0, 0], ["1 0 1 1 1 9 0", "1 1 9", "-"])
    );
}

#[test]
fn the_rest_can_be_put_on_the_next_line() {
    let script = format!("{}puts {TEN}\nnewline\nputs 696a", fresh("fit"));
    let expected = are([0, 0, 0], ["1 0 1 1 2 3 0", "1 2 3", "-"]);
    assert_eq!(ended(&script), expected);
    assert_eq!(text_left(&script), format!("{TEN}{}", points(38)));
    let chosen_later = format!("{}puts {TEN}\nsplit\nputs 696a", fresh("fit"));
    let expected = are([0, 1, 0], ["1 0 1 1 2 3 1", "1 2 3", "-"]);
    assert_eq!(ended(&chosen_later), expected);
    assert_eq!(text_left(&chosen_later), text_left(&script));
}

#[test]
fn an_answered_newline_goes_on_under_both_choices() {
    for (choice, number) in [("fit", 0), ("split", 1)] {
        let script = format!("{}row 20000000\nputs {TEN}", fresh(choice));
        let record = format!("1 0 1 1 2 3 {number}");
        let expected = are([0, 1, 1], [&record, "1 2 3", "-"]);
        assert_eq!(ended(&script), expected, "{choice}");
        assert_eq!(text_left(&script), format!("{TEN}{}", points(38)));
    }
}

#[test]
fn the_first_line_end_that_is_answered_0_refuses() {
    let text = format!("{EIGHT}{EIGHT}78");
    let script = format!("{}row 20000000\nputs {text}", fresh("fit"));
    let expected = are([16, 2, 1], ["1 0 1 1 2 9 0", "1 2 9", "line 1 2 9"]);
    assert_eq!(ended(&script), expected);
    assert_eq!(text_left(&script), format!("{EIGHT}{EIGHT}{}", points(32)));
    let answered_0 = format!("{}row 00000000 20000000\nputs {text}", fresh("fit"));
    let expected = are([16, 1, 1], ["1 0 1 1 1 9 0", "1 1 9", "line 1 1 9"]);
    assert_eq!(ended(&answered_0), expected);
}

/// The last line of a script with either choice, without the choice itself.
fn with_both(script: &str) -> [(u32, u32, u32, [String; 3]); 2] {
    ["fit", "split"].map(|choice| {
        let (number, events, taken, groups) = ended(&script.replace("CHOICE", choice));
        let [record, end, event] = groups;
        let record = record[..record.len() - 2].to_string();
        (number, events, taken, [record, end, event])
    })
}

#[test]
fn other_answers_do_as_before_in_both() {
    let answered = [
        ("20000000", [0, 1, 1], ["1 0 1 1 2 3", "1 2 3", "-"]),
        ("30000000", [0, 1, 1], ["1 0 1 2 1 3", "2 1 3", "-"]),
        (
            "10000000 20000000",
            [0, 2, 2],
            ["1 0 1 1 2 3", "1 2 3", "-"],
        ),
        (
            "70000041 30000000",
            [0, 2, 2],
            ["1 0 1 2 1 3", "2 1 3", "-"],
        ),
        ("40080404", [0, 1, 1], ["1 0 1 1 1 6", "1 1 9", "-"]),
        (
            "50000000 50000000",
            [0, 2, 2],
            ["1 0 1 1 1 9", "1 1 9", "-"],
        ),
        ("60000000", [0, 1, 1], ["1 0 1 1 1 3", "1 1 9", "-"]),
        (
            "80000000",
            [11, 1, 1],
            ["1 0 1 1 1 9", "1 1 9", "line 1 1 9"],
        ),
    ];
    for (row, numbers, groups) in answered {
        let script = format!("rights gpsr\nestablish\nCHOICE\nrow {row}\nputs {TEN}");
        let expected = are(numbers, groups);
        assert_eq!(with_both(&script), [expected.clone(), expected], "{row}");
    }
}

#[test]
fn a_true_answer_that_mends_nothing_leaves_the_next_to_the_choice() {
    let script = format!("{}row 10000000\nputs {TEN}", fresh("fit"));
    let expected = are([16, 2, 1], ["1 0 1 1 1 9 0", "1 1 9", "line 1 1 9"]);
    assert_eq!(ended(&script), expected);
    let split = script.replace("fit", "split");
    let expected = are([0, 2, 1], ["1 0 1 1 2 3 1", "1 2 3", "-"]);
    assert_eq!(ended(&split), expected);
}

#[test]
fn integers_keep_the_newline() {
    let scene = "shape 1 3 12\nlend 36 3 1\nestablish\nCHOICE\n";
    let no_room = format!("{scene}puts 6162\nputi 7");
    let expected = are([0, 1, 0], ["1 0 1 1 2 12", "1 2 12", "-"]);
    assert_eq!(with_both(&no_room), [expected.clone(), expected]);
    let full_line = format!("{scene}puts {TEN}7879\nputi -7");
    let expected = are([0, 1, 0], ["1 0 1 1 2 12", "1 2 12", "-"]);
    assert_eq!(with_both(&full_line), [expected.clone(), expected]);
}

#[test]
fn single_characters_and_spaces_keep_the_newline() {
    for call in ["putc 69", "space"] {
        let script = format!("establish\nCHOICE\nputs {EIGHT}\n{call}");
        let expected = are([0, 1, 0], ["1 0 1 1 2 2", "1 2 2", "-"]);
        assert_eq!(with_both(&script), [expected.clone(), expected], "{call}");
    }
}

#[test]
fn a_string_of_one_character_takes_the_choice() {
    let script = format!("establish\nputs {EIGHT}\nputs 69");
    let expected = are([16, 1, 0], ["1 0 1 1 1 9 0", "1 1 9", "line 1 1 9"]);
    assert_eq!(ended(&script), expected);
}

#[test]
fn gets_know_no_choice() {
    let scene = format!("establish\nsplit\nputs {TEN}\nreset\nCHOICE\ngets 8 -\n");
    for (call, numbers, place) in [
        ("getc", [0, 1, 0], "1 1 0 1 2 2"),
        ("gets 4 -", [0, 1, 0], "1 1 0 1 1 9"),
        ("space", [0, 1, 0], "1 1 0 1 2 2"),
    ] {
        let script = format!("{scene}{call}");
        let expected = are(numbers, [place, "1 2 3", "-"]);
        assert_eq!(with_both(&script), [expected.clone(), expected], "{call}");
    }
}

/// A book 2·1·2 whose first page is full, with the writer after its last line.
const PAGE_FULL: &str = "shape 2 1 2\nlend 4 2 2\nestablish\nCHOICE\nputs 6162\nnewline\n";

#[test]
fn page_end_and_physical_end_do_as_before() {
    let page_end = format!("{PAGE_FULL}puts 6364");
    let expected = are([0, 1, 0], ["1 0 1 2 1 3", "2 1 3", "-"]);
    assert_eq!(with_both(&page_end), [expected.clone(), expected]);
    let physical_end = format!("{page_end}\nnewpage\nputs 65");
    let expected = are([15, 1, 0], ["1 0 1 3 1 1", "3 1 1", "physical 3 1 1"]);
    assert_eq!(with_both(&physical_end), [expected.clone(), expected]);
}

#[test]
fn a_line_end_after_a_page_end_is_the_strings_own() {
    let script = format!("{PAGE_FULL}lines 1 00\nputs 63").replace("CHOICE", "fit");
    let expected = are([16, 2, 0], ["1 0 1 2 1 1 0", "2 1 1", "line 2 1 1"]);
    assert_eq!(ended(&script), expected);
    let split = script.replace("fit", "split");
    let expected = are([15, 4, 0], ["1 0 1 3 1 1 1", "3 1 1", "physical 3 1 1"]);
    assert_eq!(ended(&split), expected);
}

#[test]
fn the_line_is_tested_before_the_character_and_again_after_its_answer() {
    let improper = format!("establish\nputs {EIGHT}\nputs 01");
    let expected = are([16, 1, 0], ["1 0 1 1 1 9 0", "1 1 9", "line 1 1 9"]);
    assert_eq!(ended(&improper), expected);
    let start = format!("rights gps\nestablish\nputs {EIGHT}\nset 1 1 1\n");
    let moved = format!("{start}row 40080409\nputs 01");
    let expected = are([16, 2, 1], ["1 0 1 1 1 9 0", "1 1 9", "line 1 1 9"]);
    assert_eq!(ended(&moved), expected);
    let refused = "establish\nputs 61017a";
    let expected = are([8, 1, 0], ["1 0 1 1 1 2 0", "1 1 2", "character 1 1 2"]);
    assert_eq!(ended(refused), expected);
}

#[test]
fn establish_and_open_choose_the_refusal() {
    assert_eq!(choice_left("establish\nsplit"), "1");
    assert_eq!(choice_left("establish\nsplit\nestablish"), "0");
    assert_eq!(choice_left("establish\nsplit\nopen"), "0");
    assert_eq!(choice_left("establish\nsplit\nclose\nopen"), "0");
    assert_eq!(choice_left("record 0 0 0 1 1 1 1\nestablish"), "0");
}

#[test]
fn a_refused_establish_or_open_leaves_the_choice() {
    let refused = [
        (4, "rights g\nestablish"),
        (3, "rights -\nestablish"),
        (3, "lend 47 6 2\nestablish"),
        (3, "rights r\nopen"),
        (3, "end 3 2 1\nopen"),
    ];
    for (number, script) in refused {
        let script = format!("record 0 0 0 1 1 1 1\n{script}");
        assert_eq!(ended(&script).0, number, "{script}");
        assert_eq!(choice_left(&script), "1", "{script}");
    }
}

#[test]
fn close_reset_and_all_other_calls_leave_the_choice() {
    let calls = [
        "close",
        "reset",
        "putc 61",
        "puts 61",
        "puti 1",
        "getc",
        "gets 4 -",
        "geti",
        "space",
        "backspace",
        "newline",
        "newpage",
        "set 1 1 1",
        "setc 2",
        "view 1 1 -",
        "whole 1 0 4",
        "differ 1",
    ];
    for call in calls {
        let script = format!("rights gpsr\nestablish\nsplit\n{call}");
        assert_eq!(choice_left(&script), "1", "{call}");
        let script = format!("rights gpsr\nestablish\nsplit\nfit\n{call}");
        assert_eq!(choice_left(&script), "0", "{call}");
    }
}

#[test]
fn a_reset_in_an_answer_leaves_the_choice() {
    for (choice, number) in [("fit", "0"), ("split", "1")] {
        let script = format!("establish\n{choice}\nputs {EIGHT}\nrow 60000000\nputs 7879");
        assert_eq!(ended(&script).0, 0, "{choice}");
        assert_eq!(choice_left(&script), number, "{choice}");
    }
    let again = format!("establish\nputs {EIGHT}\nrow 60000000\nputs {EIGHT}78");
    let expected = are([16, 2, 1], ["1 0 1 1 1 9 0", "1 1 9", "line 1 1 9"]);
    assert_eq!(ended(&again), expected);
}

#[test]
fn a_choice_needs_no_right_and_no_mood() {
    for rights in ["g", "p", "gp", "gpsrc"] {
        for (call, number) in [("split", "1"), ("fit", "0")] {
            let script = format!("establish\nrecord 1 0 0 1 1 1\nrights {rights}\n{call}");
            let record = format!("1 0 0 1 1 1 {number}");
            let expected = are([0, 0, 0], [&record, "1 1 1", "-"]);
            assert_eq!(ended(&script), expected, "{rights} {call}");
        }
    }
}

#[test]
fn a_choice_is_refused_1_and_3() {
    for call in ["split", "fit"] {
        for choice in ["0", "1"] {
            let closed = format!("establish\nrecord 0 0 1 1 1 1 {choice}\n{call}");
            let record = format!("0 0 1 1 1 1 {choice}");
            let expected = are([1, 0, 0], [&record, "1 1 1", "-"]);
            assert_eq!(ended(&closed), expected, "{call}");
            let bad = format!("establish\nrecord 1 1 1 1 1 1 {choice}\n{call}");
            let record = format!("1 1 1 1 1 1 {choice}");
            let expected = are([3, 0, 0], [&record, "1 1 1", "-"]);
            assert_eq!(ended(&bad), expected, "{call}");
        }
        let both = format!("establish\nclose\nlines 0 09\n{call}");
        assert_eq!(ended(&both).0, 1, "{call}");
        for scene in ["rights -", "lines 0 09", "lend 48 6 3", "end 3 2 1"] {
            let script = format!("establish\n{scene}\n{call}");
            assert_eq!(ended(&script).0, 3, "{call} {scene}");
        }
    }
}

#[test]
fn a_choice_takes_no_row_but_uses_it_up() {
    let bad_row = "establish\nrow f0000000\nsplit";
    assert_eq!(ended(bad_row).0, 0);
    let used_up = format!("establish\nrow 20000000\nfit\nputs {TEN}");
    let expected = are([16, 1, 0], ["1 0 1 1 1 9 0", "1 1 9", "line 1 1 9"]);
    assert_eq!(ended(&used_up), expected);
}

#[test]
fn a_record_line_sets_the_choice_or_leaves_it() {
    let start = "establish\n";
    let set = format!("{start}record 1 0 1 1 1 1 1\nputs -");
    assert_eq!(choice_left(&set), "1");
    let left = format!("{start}split\nrecord 1 0 1 1 1 1\nputs -");
    assert_eq!(choice_left(&left), "1");
    let cleared = format!("{start}split\nrecord 1 0 1 1 1 1 00\nputs -");
    assert_eq!(choice_left(&cleared), "0");
    let split = format!("{start}record 1 0 1 1 1 1 01\nputs {TEN}");
    assert_eq!(ended(&split).0, 0);
    assert_eq!(choice_left("newline"), "0");
}

#[test]
fn a_swap_exchanges_the_choice() {
    let start = "establish\nsplit\nswap\n";
    assert_eq!(choice_left(&format!("{start}establish")), "0");
    let first = format!("{start}establish\nputs {TEN}");
    assert_eq!(ended(&first).0, 16);
    let second = format!("{start}establish\nswap\nputs {TEN}");
    assert_eq!(ended(&second).0, 0);
    assert_eq!(choice_left(&second), "1");
}

#[test]
fn lines_that_cannot_be_read() {
    let lines = [
        "split 1",
        "split ",
        "Split",
        "splits",
        "split\r",
        "fit 0",
        "fit ",
        "FIT",
        "record 1 0 1 1 1 1 2",
        "record 1 0 1 1 1 1 -",
        "record 1 0 1 1 1 1 ",
        "record 1 0 1 1 1 1 0 0",
        "record 1 0 1 1 1",
        "record",
    ];
    for line in lines {
        assert_eq!(play(line), "bad line 1\n", "{line}");
    }
}

#[test]
fn the_two_calls_are_one_call_with_a_choice() {
    for (name, split) in [("split", true), ("fit", false)] {
        let call = Call::Choose(split);
        assert_eq!(call_name(&call), name);
        assert_eq!(read_line(name.as_bytes()), Some(Line::Call(call)));
    }
    let flags = [true, false, true];
    for (line, choice) in [
        ("record 1 0 1 1 2 3", None),
        ("record 1 0 1 1 2 3 0", Some(false)),
        ("record 1 0 1 1 2 3 1", Some(true)),
    ] {
        let record = Line::Record(flags, Position::new(1, 2, 3), choice);
        assert_eq!(read_line(line.as_bytes()), Some(record));
    }
}

#[test]
fn the_calls_hand_back_what_the_scripts_show() {
    let mut side = Side::new();
    assert!(!side.file.split);
    let choose = |side: &mut Side, split| side.lend(|file, book| calls::choose(file, book, split));
    let put = |side: &mut Side, text: &[u8]| {
        side.lend(|file, book| calls::put_string(file, book, &[], text))
    };
    assert_eq!(choose(&mut side, true).number, 1);
    assert!(!side.file.split);
    side.lend(calls::establish);
    assert_eq!(choose(&mut side, true), CallResult::default());
    assert!(side.file.split);
    side.lend(calls::reset);
    assert!(side.file.split);
    assert_eq!(choose(&mut side, false), CallResult::default());
    let refused = put(&mut side, b"abcdefghij");
    let signalled = Signalled {
        event: Event::LineEnd,
        position: Position::new(1, 1, 9),
    };
    let expected = CallResult {
        number: 16,
        events: 1,
        signalled: Some(signalled),
        ..CallResult::default()
    };
    assert_eq!(refused, expected);
    let single = side.lend(|file, book| calls::put_character(file, book, &[], b'i'));
    assert_eq!((single.number, single.events), (0, 1));
    assert_eq!(side.file.position, Position::new(1, 2, 2));
}
