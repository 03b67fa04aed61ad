//! Sizes, alignments, offsets, constants and answer words: Rust's own numbers against those that a C compiler makes of the
//! header.

#[path = "common/compile.rs"]
mod compile;

use std::mem::{align_of, offset_of, size_of};
use std::process::Command;

use transput::declarations::{Differences, ViewPlace, Wrote};
use transput::{
    Answer, CallResult, Event, File, Given, Position, Refusal, Rights, Shape, Span, Stop,
};

/// The size of the field that a function picks.
fn field_size<Struct, Field>(_: fn(&Struct) -> &Field) -> usize {
    size_of::<Field>()
}

/// The lines of a struct and of its fields, as layout.c prints them.
macro_rules! struct_lines {
    ($name:literal, $type:ty, $($field:ident)*) => {{
        let (size, alignment) = (size_of::<$type>(), align_of::<$type>());
        let mut lines = vec![format!("{} size {size} alignment {alignment}", $name)];
        $(
            let offset = offset_of!($type, $field);
            let size = field_size(|value: &$type| &value.$field);
            lines.push(format!("{}.{} offset {offset} size {size}", $name, stringify!($field)));
        )*
        lines
    }};
}

fn structs() -> Vec<String> {
    [
        struct_lines!("transput_position", Position, page line character),
        struct_lines!("transput_shape", Shape, pages lines characters),
        struct_lines!("transput_rights", Rights, get put set reset compress),
        struct_lines!("transput_file", File, position shape opened reading writing split rights),
        struct_lines!("transput_result", CallResult, number stop given event value events taken count end signalled),
        struct_lines!("transput_view", ViewPlace, number marker from count),
        struct_lines!("transput_wrote", Wrote, number count),
        struct_lines!("transput_span", Span, page line first last),
        struct_lines!("transput_differences", Differences, number count),
    ]
    .concat()
}

/// The names of the header for each refusal, each event and each stop.
fn numbers_and_stops() -> Vec<(&'static str, u32)> {
    let number = |refusal: Refusal| u32::from(refusal.number());
    let event = |event: Event| u32::from(event.number());
    let stop = |stop: Stop| u32::from(stop.number());
    vec![
        ("TRANSPUT_DONE", 0),
        ("TRANSPUT_NOT_OPEN", number(Refusal::NotOpen)),
        ("TRANSPUT_BAD_ANSWERS", number(Refusal::BadAnswers)),
        ("TRANSPUT_BAD_BOOK", number(Refusal::BadBook)),
        ("TRANSPUT_NO_RIGHT", number(Refusal::NoRight)),
        ("TRANSPUT_NO_MOOD", number(Refusal::NoMood)),
        ("TRANSPUT_OUT_OF_RANGE", number(Refusal::OutOfRange)),
        ("TRANSPUT_BAD_CHARACTER", number(Refusal::BadCharacter)),
        ("TRANSPUT_BAD_VALUE", number(Refusal::BadValue)),
        ("TRANSPUT_LINE_TOO_SHORT", number(Refusal::LineTooShort)),
        ("TRANSPUT_JUMPED", number(Refusal::Jumped)),
        ("TRANSPUT_OUTPUT_TOO_SHORT", number(Refusal::OutputTooShort)),
        (
            "TRANSPUT_LOGICAL_END_UNMENDED",
            number(Refusal::LogicalEndUnmended),
        ),
        (
            "TRANSPUT_PHYSICAL_END_UNMENDED",
            number(Refusal::PhysicalEndUnmended),
        ),
        (
            "TRANSPUT_STRING_DOES_NOT_FIT",
            number(Refusal::StringDoesNotFit),
        ),
        ("TRANSPUT_EVENT_NONE", 0),
        ("TRANSPUT_EVENT_LOGICAL_END", event(Event::LogicalEnd)),
        ("TRANSPUT_EVENT_PHYSICAL_END", event(Event::PhysicalEnd)),
        ("TRANSPUT_EVENT_PAGE_END", event(Event::PageEnd)),
        ("TRANSPUT_EVENT_LINE_END", event(Event::LineEnd)),
        ("TRANSPUT_EVENT_CHARACTER", event(Event::Character)),
        ("TRANSPUT_EVENT_VALUE", event(Event::Value)),
        ("TRANSPUT_NO_STOP", 0),
        ("TRANSPUT_TERMINATOR", stop(Stop::Terminator)),
        ("TRANSPUT_LINE_ENDED", stop(Stop::LineEnded)),
        ("TRANSPUT_FILE_ENDED", stop(Stop::FileEnded)),
        ("TRANSPUT_OUTPUT_FULL", stop(Stop::OutputFull)),
    ]
}

/// The names of the header for what is given and for each kind of answer.
fn given_and_kinds() -> Vec<(&'static str, u32)> {
    let given = |given: Given| u32::from(given.number());
    vec![
        ("TRANSPUT_NOTHING", given(Given::Nothing)),
        ("TRANSPUT_CHARACTER", given(Given::Character(0))),
        ("TRANSPUT_INTEGER", given(Given::Integer(0))),
        ("TRANSPUT_FALSE", Answer::False.kind()),
        ("TRANSPUT_TRUE", Answer::True.kind()),
        ("TRANSPUT_TRUE_NEWLINE", Answer::Newline.kind()),
        ("TRANSPUT_TRUE_NEWPAGE", Answer::Newpage.kind()),
        ("TRANSPUT_TRUE_SET", Answer::Set(Position::START).kind()),
        ("TRANSPUT_TRUE_BACKSPACE", Answer::Backspace.kind()),
        ("TRANSPUT_TRUE_RESET", Answer::Reset.kind()),
        ("TRANSPUT_TRUE_SUGGEST", Answer::Suggest(0).kind()),
        ("TRANSPUT_JUMP", Answer::Jump.kind()),
    ]
}

/// The names of the header for what bounds a book and a row, as document 01 says them.
fn limits() -> Vec<(&'static str, u32)> {
    vec![
        ("TRANSPUT_MOST_PAGES", 255),
        ("TRANSPUT_MOST_LINES", 255),
        ("TRANSPUT_MOST_CHARACTERS", 255),
        ("TRANSPUT_MOST_LINES_IN_ALL", 1024),
        ("TRANSPUT_MOST_CHARACTERS_IN_ALL", 65536),
        ("TRANSPUT_MOST_ANSWERS", 64),
        ("TRANSPUT_INTEGER_WIDTH", 11),
    ]
}

/// The answer words that layout.c prints, in its order.
fn words() -> Vec<String> {
    let places = [
        (1, 2, 3),
        (511, 511, 1023),
        (512, 513, 1025),
        (0, 0, 0),
        (256, 1, 1),
    ];
    let sets =
        places.map(|(page, line, character)| Answer::Set(Position::new(page, line, character)));
    let suggestions = (0..=255).map(Answer::Suggest);
    let kinds = [
        Answer::False,
        Answer::True,
        Answer::Newline,
        Answer::Newpage,
        Answer::Set(Position::new(0, 0, 0)),
        Answer::Backspace,
        Answer::Reset,
        Answer::Suggest(0),
        Answer::Jump,
    ];
    let answers = sets.into_iter().chain(suggestions).chain(kinds);
    answers
        .map(|answer| format!("word {:08x}", answer.word()))
        .collect()
}

fn printed_by_c() -> Vec<String> {
    let output = Command::new(compile::compile("layout"))
        .output()
        .expect("layout can be run");
    assert!(output.status.success());
    let text = String::from_utf8(output.stdout).expect("layout prints text");
    text.lines().map(str::to_string).collect()
}

/// What a line of ours must begin with, for each constant, struct and field that the header has.
fn starts_of_header() -> Vec<String> {
    let header = compile::header();
    let mut names = compile::names_with_prefix(&header, "TRANSPUT_");
    names.retain(|name| name != "TRANSPUT_H");
    let mut starts: Vec<String> = names.iter().map(|name| format!("{name} ")).collect();
    for part in header.split("typedef struct ").skip(1) {
        let (name, rest) = part.split_once(" { ").expect("a struct has a name");
        let (fields, _) = rest.split_once("; }").expect("a struct has an end");
        starts.push(format!("{name} size "));
        let fields = fields.split(';').filter_map(|field| field.rsplit_once(' '));
        starts.extend(fields.map(|(_, field)| format!("{name}.{field} offset ")));
    }
    starts
}

#[test]
fn c_and_rust_lay_out_alike() {
    let constants = [numbers_and_stops(), given_and_kinds(), limits()].concat();
    let constants = constants
        .iter()
        .map(|(name, value)| format!("{name} {value}"));
    let named: Vec<String> = structs().into_iter().chain(constants).collect();
    let ours = [named.clone(), words()].concat();
    let printed = printed_by_c();
    for (one, other) in ours.iter().zip(&printed) {
        assert_eq!(one, other, "Rust, C");
    }
    assert_eq!(ours.len(), printed.len());
    // What the header gains must come here too.
    let starts = starts_of_header();
    for start in &starts {
        assert!(named.iter().any(|line| line.starts_with(start)), "{start}");
    }
    assert_eq!(named.len(), starts.len());
}
