//! The declarations of Rust, those of the header and the archive agree: random scripts are played through the header by a C
//! program and through Rust's declarations here, and every field of every result, record and book must be the same.

#[path = "common/compile.rs"]
mod compile;
#[path = "common/episodes.rs"]
mod episodes;

use std::collections::BTreeSet;
use std::fmt::Write;
use std::process::Command;

use episodes::{Episode, Side, Stage};
use second::replay::{call_name, Call, Line, Player};
use transput::declarations::Differences;
use transput::{calls, CallResult, Position};

/// Episodes in the script; every call comes many times.
const EPISODES: u64 = 600;

fn print_bytes(printed: &mut String, name: &str, bytes: &[u8]) {
    let digits = b"0123456789abcdef";
    *printed += name;
    printed.push(' ');
    for byte in bytes {
        printed.push(char::from(digits[usize::from(byte >> 4)]));
        printed.push(char::from(digits[usize::from(byte & 15)]));
    }
    printed.push('\n');
}

fn print_line(printed: &mut String, line: std::fmt::Arguments) {
    writeln!(printed, "{line}").expect("a string takes every line");
}

fn print_position(printed: &mut String, name: &str, place: Position) {
    let Position {
        page,
        line,
        character,
    } = place;
    print_line(printed, format_args!("{name} {page} {line} {character}"));
}

/// A record and its book, as play.c prints them.
fn print_side(printed: &mut String, side: &Side) {
    let file = &side.file;
    let flag = u8::from;
    let flags = [file.opened, file.reading, file.writing, file.split];
    let [opened, reading, writing, split] = flags.map(flag);
    print_line(
        printed,
        format_args!("record {opened} {reading} {writing} {split}"),
    );
    print_position(printed, "position", file.position);
    let (pages, lines, characters) = (file.shape.pages, file.shape.lines, file.shape.characters);
    print_line(printed, format_args!("shape {pages} {lines} {characters}"));
    let rights = file.rights;
    let all = [
        rights.get,
        rights.put,
        rights.set,
        rights.reset,
        rights.compress,
    ];
    let [get, put, set, reset, compress] = all.map(flag);
    print_line(
        printed,
        format_args!("rights {get} {put} {set} {reset} {compress}"),
    );
    print_position(printed, "book end", side.book.end);
    print_bytes(printed, "text", &side.book.text);
    print_bytes(printed, "lines", &side.book.lines);
    print_bytes(printed, "pages", &side.book.pages);
}

/// The first side and the output, as play.c prints them.
fn print_stage(printed: &mut String, stage: &Stage, output: &[u8]) {
    print_side(printed, &stage.first);
    print_bytes(printed, "output", output);
}

fn print_result(printed: &mut String, result: &CallResult) {
    let CallResult {
        number,
        stop,
        given,
        event,
        value,
        events,
        taken,
        count,
        end,
        signalled,
    } = *result;
    print_line(
        printed,
        format_args!("number {number} stop {stop} event {event}"),
    );
    print_line(printed, format_args!("given {given} value {value}"));
    print_line(
        printed,
        format_args!("events {events} taken {taken} count {count}"),
    );
    print_position(printed, "end", end);
    print_position(printed, "signalled", signalled);
}

/// Makes a call through Rust's declarations.
fn make_call(stage: &mut Stage, call: &Call, output: &mut [u8]) -> CallResult {
    let row = std::mem::take(&mut stage.row);
    let [page, line, number] = stage.numbers(call);
    let Side { file, book, .. } = &mut stage.first;
    match call {
        Call::Establish => calls::establish(file, book),
        Call::Open => calls::open(file, book),
        Call::Close => calls::close(file, book),
        Call::Choose(split) => calls::choose(file, book, *split),
        Call::Reset => calls::reset(file, book),
        Call::Backspace => calls::backspace(file, book),
        Call::PutCharacter(byte) => calls::put_character(file, book, *byte, &row),
        Call::PutString(bytes) => calls::put_string(file, book, bytes, &row),
        Call::PutInteger(value) => calls::put_integer(file, book, *value, &row),
        Call::GetCharacter => calls::get_character(file, book, &row),
        Call::GetString(_, stops) => calls::get_string(file, book, stops, output, &row),
        Call::GetInteger => calls::get_integer(file, book, &row),
        Call::Space => calls::space(file, book, &row),
        Call::Newline => calls::newline(file, book, &row),
        Call::Newpage => calls::newpage(file, book, &row),
        Call::Set(_) => calls::set(file, book, Position::new(page, line, number), &row),
        Call::SetCharNumber(_) => calls::set_character_number(file, book, number, &row),
        Call::View(_, _, _) => calls::view_number(file, book, page, line),
        Call::Whole(_, _, _) => unreachable!("whole has no such result"),
    }
}

/// What a view and whole hand back beside, or instead of, a result.
fn print_own_line(stage: &Stage, call: &Call, output: &mut [u8], printed: &mut String) {
    let [page, line, _] = stage.numbers(call);
    let Side { file, book, .. } = &stage.first;
    if let Call::View(_, _, marker) = call {
        let view = calls::line_view(file, book, page, line, marker);
        let (number, flag) = (view.number, u8::from(view.marker));
        let (from, count) = (view.from, view.count);
        print_line(printed, format_args!("view {number} {flag} {from} {count}"));
    }
    if let Call::Whole(value, width, _) = call {
        let wrote = calls::whole(*value, *width, output);
        let (number, count) = (wrote.number, wrote.count);
        print_line(printed, format_args!("wrote {number} {count}"));
    }
}

/// Plays a call as play.c does.
fn play_call(stage: &mut Stage, call: &Call, printed: &mut String) {
    let mut output = episodes::output_for(call);
    print_line(printed, format_args!("call {}", call_name(call)));
    print_own_line(stage, call, &mut output, printed);
    if let Call::Whole(_, _, _) = call {
        stage.row.clear();
    } else {
        let result = make_call(stage, call, &mut output);
        stage.first.book.end = result.end;
        print_result(printed, &result);
    }
    print_stage(printed, stage, &output);
}

fn print_differences(printed: &mut String, name: &str, differences: Differences) {
    let Differences { number, count } = differences;
    print_line(printed, format_args!("{name} {number} {count}"));
}

/// Plays a look at where the two books differ, and the count apart, as play.c does.
fn play_differ(stage: &mut Stage, entries: usize, printed: &mut String) {
    let mut list = episodes::list_for(entries);
    let (one, other) = (&stage.first, &stage.other);
    let listed = calls::differ(&one.file, &one.book, &other.file, &other.book, &mut list);
    let counted = calls::difference_count(&one.file, &one.book, &other.file, &other.book);
    print_line(printed, format_args!("call differ"));
    print_differences(printed, "listed", listed);
    print_differences(printed, "counted", counted);
    print_bytes(printed, "list", &list);
    print_side(printed, one);
    print_side(printed, other);
    stage.row.clear();
}

/// What play.c prints for a line of a script.
fn play_line(stage: &mut Stage, line: &Line, printed: &mut String) {
    match line {
        Line::Call(call) => play_call(stage, call, printed),
        Line::Differ(entries) => play_differ(stage, *entries, printed),
        Line::Dump => print_stage(printed, stage, &[]),
        scene => stage.set_scene(scene),
    }
}

/// The script of all episodes for play.c.
fn script_of(episodes: &[Episode]) -> Vec<u8> {
    let mut script = Vec::new();
    for episode in episodes {
        script.extend(format!("large {}\n", episode.large).bytes());
        for (text, _) in &episode.lines {
            script.extend_from_slice(text);
            script.push(b'\n');
        }
    }
    script
}

/// What play.c prints for a script.
fn played_by_c(script: &[u8]) -> String {
    let path = std::path::Path::new(env!("CARGO_TARGET_TMPDIR")).join("play.script");
    std::fs::write(&path, script).expect("the script can be written");
    let script = std::fs::File::open(&path).expect("the script can be read");
    let program = compile::compile("play");
    let output = Command::new(program)
        .stdin(script)
        .output()
        .expect("play can be run");
    let said = String::from_utf8_lossy(&output.stderr);
    assert!(output.status.success(), "{}: {said}", output.status);
    String::from_utf8(output.stdout).expect("play prints text")
}

/// The first line that differs, after the call that it belongs to.
fn assert_same_lines(ours: &str, printed: &str) {
    let mut call = "";
    for (number, (one, other)) in ours.lines().zip(printed.lines()).enumerate() {
        call = if one.starts_with("call ") { one } else { call };
        assert_eq!(one, other, "line {number}, {call}: Rust, C");
    }
    assert_eq!(ours.len(), printed.len());
}

/// The name of the call that a line makes, if it makes one.
fn name_of(line: &Line) -> Option<&'static str> {
    match line {
        Line::Call(call) => Some(call_name(call)),
        Line::Differ(_) => Some("differ"),
        _ => None,
    }
}

#[test]
fn c_and_rust_play_alike() {
    let seed = episodes::seed();
    second::say(&format!("declarations: seed {seed}, {EPISODES} episodes"));
    let mut player = Player::new();
    let episodes: Vec<Episode> = (0..EPISODES)
        .map(|number| episodes::make(seed, number, &mut player))
        .collect();
    let mut stage = Stage::new();
    let mut printed = String::new();
    let mut called = BTreeSet::new();
    for episode in &episodes {
        stage.large = episode.large;
        for (_, line) in &episode.lines {
            play_line(&mut stage, line, &mut printed);
            called.extend(name_of(line));
        }
    }
    assert_eq!(called.len(), 21, "every call is in the script: {called:?}");
    assert_same_lines(&printed, &played_by_c(&script_of(&episodes)));
}

/// The functions that the header declares, each as its name, its result and its parameters.
fn functions_of_header() -> Vec<(String, String, String)> {
    let header = compile::header();
    let statements = header.split(';').map(str::trim);
    // Before the first stands the end of the inline function, which is no declaration.
    let declarations = statements.filter(|text| text.ends_with(')') && !text.contains('{'));
    let mut functions = Vec::new();
    for declaration in declarations {
        let declaration = declaration.trim_start_matches("} ").trim_end_matches(')');
        let (head, parameters) = declaration.split_once('(').expect("a parameter list");
        let (result, name) = head.rsplit_once(' ').expect("a result and a name");
        functions.push((name.to_string(), result.to_string(), parameters.to_string()));
    }
    functions
}

/// A type of the header in Rust.
fn rust_type(name: &str) -> &str {
    match name {
        "bool" => "bool",
        "size_t" => "usize",
        "int32_t" => "i32",
        "uint8_t" => "u8",
        "uint32_t" => "u32",
        "transput_position" => "Position",
        "transput_file" => "File",
        "transput_result" => "CallResult",
        "transput_view" => "ViewPlace",
        "transput_wrote" => "Wrote",
        "transput_differences" => "Differences",
        _ => panic!("the header has a new type, {name}"),
    }
}

/// A parameter of the header in Rust.
fn rust_parameter(parameter: &str) -> String {
    let (kind, name) = parameter.rsplit_once(' ').expect("a type and a name");
    match (kind.strip_prefix("const "), name.strip_prefix('*')) {
        (Some(kind), Some(name)) => format!("{name}: *const {}", rust_type(kind)),
        (None, Some(name)) => format!("{name}: *mut {}", rust_type(kind)),
        _ => format!("{name}: {}", rust_type(kind)),
    }
}

#[test]
fn the_header_and_rust_declare_alike() {
    let source = compile::on_one_line(include_str!("../src/declarations.rs"));
    let source = source.replace("( ", "(").replace(", )", ")");
    let functions = functions_of_header();
    for (name, result, parameters) in &functions {
        let parameters: Vec<String> = parameters.split(", ").map(rust_parameter).collect();
        let parameters = parameters.join(", ");
        let declared = format!("pub fn {name}({parameters}) -> {};", rust_type(result));
        assert!(source.contains(&declared), "not in Rust: {declared}");
    }
    assert_eq!(source.matches("pub fn ").count(), functions.len());
}

#[test]
fn the_archive_has_the_functions_of_the_header() {
    let output = Command::new("nm")
        .args(["--extern-only", "--defined-only", env!("TRANSPUT_ARCHIVE")])
        .output()
        .expect("nm can be run");
    let symbols = String::from_utf8_lossy(&output.stdout).into_owned();
    let exported = compile::names_with_prefix(&symbols, "transput_");
    let functions = functions_of_header().into_iter().map(|function| function.0);
    let mut functions: Vec<String> = functions.collect();
    functions.sort();
    assert_eq!(exported, functions, "archive, header");
    let player = include_str!("c/play.c");
    for name in &functions {
        assert!(player.contains(&format!("{name}(")), "play.c: {name}");
    }
}
