//! Plays random episodes on this implementation and on another program, and compares every
//! line that they write.

use std::io::{Read, Write};
use std::process::{Child, Command, Stdio};
use std::sync::mpsc;
use std::thread;
use std::time::{Duration, Instant};

use crate::episodes::{make_episode, Books, Script};
use crate::random::Random;
use crate::replay::{replay, Player};
use crate::say;
use crate::shrink::shrink;

/// What `second differ` was asked to do.
pub struct Options {
    pub ours: String,
    pub seed: u64,
    pub books: Books,
    pub episodes: u64,
    pub seconds: Option<u64>,
}

/// Episodes that one run of the other program plays.
const BATCH: u64 = 250;

/// "Stops after the first few differences."
const MOST_DIFFERENCES: u64 = 3;

/// How long the other program may take for a batch, for one script while shrinking, and how
/// long shrinking may take.
const BATCH_PATIENCE: Duration = Duration::from_secs(120);
const SCRIPT_PATIENCE: Duration = Duration::from_secs(15);
const SHRINK_PATIENCE: Duration = Duration::from_secs(60);

/// Lines that a report shows of a script or an output.
const MOST_LINES: usize = 80;

/// What the other program wrote, and a remark when it did not end well.
pub struct Reply {
    pub output: Vec<u8>,
    pub remark: String,
}

/// Episodes played in one script, with where each one's output ends.
struct Batch {
    episodes: Vec<Script>,
    output: Vec<u8>,
    ends: Vec<usize>,
}

/// A script as the bytes to be read.
fn script_bytes(lines: &Script) -> Vec<u8> {
    let mut bytes = Vec::new();
    for line in lines {
        bytes.extend_from_slice(line);
        bytes.push(b'\n');
    }
    bytes
}

/// Reads what the other program writes, but not much more than it should write.
fn read_reply(mut child: Child, most: u64, patience: Duration) -> Reply {
    let mut output = Vec::new();
    let (sender, receiver) = mpsc::channel();
    let stdout = child.stdout.take();
    thread::spawn(move || {
        let mut bytes = Vec::new();
        let read = stdout.map(|stdout| stdout.take(most).read_to_end(&mut bytes));
        let _ = sender.send((bytes, matches!(read, Some(Ok(_)))));
    });
    let mut remark = String::new();
    match receiver.recv_timeout(patience) {
        Ok((bytes, true)) if (bytes.len() as u64) < most => output = bytes,
        Ok((bytes, _)) => {
            output = bytes;
            remark = "wrote far too much, or could not be read".to_string();
            let _ = child.kill();
        }
        Err(_) => {
            remark = format!("gave no end in {} seconds", patience.as_secs());
            let _ = child.kill();
        }
    }
    match child.wait() {
        Ok(status) if remark.is_empty() && status.code().is_none_or(|code| code == 101) => {
            remark = format!("died: {status}");
        }
        _ => (),
    }
    Reply { output, remark }
}

/// Runs the other program with a script on its standard input.
fn run_other(
    path: &str,
    script: Vec<u8>,
    expected: usize,
    patience: Duration,
) -> std::io::Result<Reply> {
    let mut child = Command::new(path)
        .stdin(Stdio::piped())
        .stdout(Stdio::piped())
        .stderr(Stdio::null())
        .spawn()?;
    let stdin = child.stdin.take();
    let writer = thread::spawn(move || {
        if let Some(mut stdin) = stdin {
            let _ = stdin.write_all(&script);
        }
    });
    let reply = read_reply(child, expected as u64 + 1_000_000, patience);
    if reply.remark.is_empty() {
        let _ = writer.join();
    }
    Ok(reply)
}

/// True when the two write something different for a script.
fn differs(path: &str, lines: &Script) -> std::io::Result<bool> {
    let script = script_bytes(lines);
    let expected = replay(&script);
    let reply = run_other(path, script, expected.len(), SCRIPT_PATIENCE)?;
    Ok(reply.output != expected || !reply.remark.is_empty())
}

/// Makes a batch of episodes, from one number to another, on one player.
fn make_batch(seed: u64, books: Books, from: u64, to: u64) -> Batch {
    let mut player = Player::new();
    let mut batch = Batch {
        episodes: Vec::new(),
        output: Vec::new(),
        ends: Vec::new(),
    };
    for number in from..to {
        let random = Random::for_episode(seed, number);
        let episode = make_episode(random, books, &mut player, &mut batch.output);
        batch.episodes.push(episode);
        batch.ends.push(batch.output.len());
    }
    batch
}

/// Random episodes as one script, for a program that is not started from here.
pub fn scripts(options: &Options) -> Vec<u8> {
    let batch = make_batch(options.seed, options.books, 0, options.episodes);
    batch.episodes.iter().flat_map(script_bytes).collect()
}

/// The first episode of a batch whose output differs, if any does.
fn first_difference(batch: &Batch, reply: &Reply) -> Option<usize> {
    if batch.output == reply.output && reply.remark.is_empty() {
        return None;
    }
    let pairs = batch.output.iter().zip(&reply.output);
    let same = pairs.take_while(|(one, other)| one == other).count();
    let index = batch.ends.iter().position(|&end| end > same);
    Some(index.unwrap_or(batch.episodes.len().saturating_sub(1)))
}

/// The episode that differs, made alone if it differs alone, else with all before it.
fn isolate(path: &str, batch: &Batch, index: usize) -> std::io::Result<Script> {
    let alone = batch.episodes[index].clone();
    if differs(path, &alone)? {
        return Ok(alone);
    }
    Ok(batch.episodes[..=index].concat())
}

/// A line of output to be shown, cut when it is very long.
fn shown_line(line: &[u8]) -> String {
    let text = String::from_utf8_lossy(line);
    let short: String = text.chars().take(300).collect();
    if short.len() < text.len() {
        format!("{short}... ({} bytes)", line.len())
    } else {
        short
    }
}

/// Several lines to be shown, each with a little space before it, and not too many.
fn shown_lines(bytes: &[u8]) -> String {
    let lines: Vec<&[u8]> = bytes.split_inclusive(|&byte| byte == b'\n').collect();
    let mut shown = String::new();
    for line in lines.iter().take(MOST_LINES) {
        let line = line.strip_suffix(b"\n").unwrap_or(line);
        shown += &format!("    {}\n", shown_line(line));
    }
    if lines.len() > MOST_LINES {
        shown += &format!("    ... ({} lines)\n", lines.len());
    }
    shown
}

/// The first line in which two outputs differ, as a report.
fn first_differing_line(expected: &[u8], output: &[u8]) -> String {
    let mut ones = expected.split(|&byte| byte == b'\n');
    let mut others = output.split(|&byte| byte == b'\n');
    let mut number = 1;
    if expected == output {
        return "none".to_string();
    }
    loop {
        let (one, other) = (ones.next(), others.next());
        if one != other || one.is_none() {
            let one = one.map_or("(no line)".to_string(), shown_line);
            let other = other.map_or("(no line)".to_string(), shown_line);
            return format!("line {number}\n    second: {one}\n    other:  {other}");
        }
        number += 1;
    }
}

/// Shrinks a script that differs and says all about it.
fn report(path: &str, script: Script, title: &str) -> std::io::Result<()> {
    let start = Instant::now();
    let mut question =
        |lines: &Script| start.elapsed() < SHRINK_PATIENCE && differs(path, lines).unwrap_or(false);
    let short = shrink(script, &mut question);
    let bytes = script_bytes(&short);
    let expected = replay(&bytes);
    let reply = run_other(path, bytes.clone(), expected.len(), SCRIPT_PATIENCE)?;
    say(title);
    say(&format!("  script:\n{}", shown_lines(&bytes)));
    say(&format!("  second writes:\n{}", shown_lines(&expected)));
    say(&format!("  {path} writes:\n{}", shown_lines(&reply.output)));
    if !reply.remark.is_empty() {
        say(&format!("  {path} {}", reply.remark));
    }
    let line = first_differing_line(&expected, &reply.output);
    say(&format!("  first differing line: {line}"));
    Ok(())
}

/// Plays one batch on the other program. Gives how many episodes were played up to and with
/// the first that differs, and whether one did.
fn play_batch(options: &Options, from: u64, to: u64) -> std::io::Result<(u64, bool)> {
    let batch = make_batch(options.seed, options.books, from, to);
    let lines = batch.episodes.concat();
    let script = script_bytes(&lines);
    let reply = run_other(&options.ours, script, batch.output.len(), BATCH_PATIENCE)?;
    let Some(index) = first_difference(&batch, &reply) else {
        return Ok((to - from, false));
    };
    let number = from + index as u64;
    let title = format!("difference in episode {number} of seed {}", options.seed);
    let script = isolate(&options.ours, &batch, index)?;
    report(&options.ours, script, &title)?;
    Ok((index as u64 + 1, true))
}

/// Plays all episodes. Gives how many were played and how many differed.
pub fn differ(options: &Options) -> std::io::Result<(u64, u64)> {
    let start = Instant::now();
    let (mut done, mut differences) = (0, 0);
    while done < options.episodes && differences < MOST_DIFFERENCES {
        let late = |seconds| start.elapsed() >= Duration::from_secs(seconds);
        if options.seconds.is_some_and(late) {
            break;
        }
        let to = (done + BATCH).min(options.episodes);
        let (played, differed) = play_batch(options, done, to)?;
        done += played;
        differences += u64::from(differed);
    }
    Ok((done, differences))
}

#[cfg(test)]
mod tests {
    use std::collections::BTreeMap;

    use super::*;
    use crate::replay::{read_line, Line};

    /// Output without its bad lines, whose numbers depend on what stands before.
    fn without_bad_lines(output: &[u8]) -> Script {
        let lines = output.split(|&byte| byte == b'\n').map(<[u8]>::to_vec);
        lines.filter(|line| !line.starts_with(b"bad")).collect()
    }

    #[test]
    fn episodes_are_independent() {
        let batch = make_batch(42, Books::Two, 0, 300);
        let mut start = 0;
        for (episode, &end) in batch.episodes.iter().zip(&batch.ends) {
            let alone = replay(&script_bytes(episode));
            let in_batch = &batch.output[start..end];
            assert!(without_bad_lines(&alone) == without_bad_lines(in_batch));
            start = end;
        }
    }

    #[test]
    fn the_first_difference_is_found() {
        let batch = make_batch(42, Books::Two, 0, 20);
        let same = Reply {
            output: batch.output.clone(),
            remark: String::new(),
        };
        assert_eq!(first_difference(&batch, &same), None);
        let mut other = same;
        other.output[batch.ends[7]] ^= 1;
        let found = first_difference(&batch, &other);
        assert!(found.is_some_and(|index| batch.ends[index] > batch.ends[7]));
    }

    /// The words of the lines that a look at two books wrote.
    fn looks(output: &[u8]) -> Vec<Vec<String>> {
        let text = String::from_utf8_lossy(output);
        let lines = text.lines().filter(|line| line.starts_with("differ "));
        let words = lines.map(|line| line.split(' ').map(str::to_string).collect());
        words.collect()
    }

    #[test]
    fn one_book_needs_no_second_side() {
        let batch = make_batch(42, Books::One, 0, 300);
        assert!(looks(&batch.output).is_empty());
        let mut lines = batch.episodes.iter().flatten();
        assert!(!lines.any(|line| line == b"swap"));
    }

    #[test]
    fn two_books_are_looked_at_in_all_ways() {
        let batch = make_batch(42, Books::Two, 0, 600);
        let looks = looks(&batch.output);
        let some = |holds: &dyn Fn(&[String]) -> bool| looks.iter().any(|look| holds(look));
        for number in ["0", "1", "3", "12"] {
            assert!(some(&|look| look[1] == number), "number {number}");
        }
        assert!(some(&|look| look[1] == "0" && look[5] == "0"), "alike");
        assert!(some(&|look| look[1] == "12" && look[7] == "-"), "no entry");
        assert!(some(&|look| look[7].ends_with("eeeeeeee")), "too long");
        let just_long_enough = |look: &[String]| look[5] == "3" && look[7].len() == 3 * 8;
        assert!(some(&just_long_enough), "just long enough");
        let empty_line = |look: &[String]| look[5] == "1" && look[7].contains("0100");
        assert!(some(&empty_line), "an empty line");
    }

    /// The number and the event of each call's line, as "11 line", with " later" where more
    /// than one answer was taken.
    fn told_events(output: &[u8]) -> Vec<String> {
        let text = String::from_utf8_lossy(output);
        let told = text.lines().filter_map(|line| {
            let (_, group) = line.rsplit_once(" | ")?;
            let words: Vec<&str> = line.split(' ').collect();
            let event = group.split(' ').next()?;
            let later = match words[3] {
                "0" | "1" => "",
                _ => " later",
            };
            Some(format!("{} {event}{later}", words[1]))
        });
        told.collect()
    }

    #[test]
    fn calls_end_in_all_events_in_all_ways() {
        let batch = make_batch(42, Books::One, 0, 1500);
        let told = told_events(&batch.output);
        for event in ["logical", "physical", "page", "line", "character", "value"] {
            for way in ["", " later"] {
                let jump = format!("11 {event}{way}");
                assert!(told.contains(&jump), "{jump}");
            }
        }
        let own = [
            "8 character",
            "9 value",
            "14 logical",
            "15 physical",
            "16 line",
        ];
        for way in ["", " later"] {
            for refusal in own {
                let refusal = format!("{refusal}{way}");
                assert!(told.contains(&refusal), "{refusal}");
            }
        }
    }

    /// Whether a put of an episode takes the logical end of a compressible book back (C-13).
    fn takes_end_back(episode: &Script) -> bool {
        let mut player = Player::new();
        let mut output = Vec::new();
        episode.iter().any(|line| {
            let end = player.first.logical_end;
            player.play_line(line, &mut output);
            let went_back = end.beyond(player.first.logical_end);
            line.starts_with(b"put") && went_back && player.first.file.rights.compress
        })
    }

    #[test]
    fn the_end_goes_back_in_one_episode_of_ten() {
        for books in [Books::One, Books::Two] {
            let batch = make_batch(42, books, 0, 400);
            let with = batch.episodes.iter().filter(|it| takes_end_back(it));
            let count = with.count();
            assert!(count >= 40, "{count}");
        }
    }

    /// How often each call's line comes, told as its name, its number, the choice that its
    /// record is left with (C-14), and whether an event was signalled and an answer taken.
    fn ways_of_calls(output: &[u8]) -> BTreeMap<String, u64> {
        let text = String::from_utf8_lossy(output);
        let mut ways = BTreeMap::new();
        for line in text.lines().filter(|line| line.contains(" | ")) {
            let groups: Vec<&str> = line.split(" | ").collect();
            let words: Vec<&str> = groups[0].split(' ').collect();
            let choice = groups[1].split(' ').nth(6).unwrap_or_default();
            let event = if words[2] == "0" { "" } else { " event" };
            let answer = if words[3] == "0" { "" } else { " answer" };
            let way = format!("{} {} {choice}{event}{answer}", words[0], words[1]);
            *ways.entry(way).or_insert(0) += 1;
        }
        ways
    }

    #[test]
    fn strings_meet_line_ends_under_both_choices() {
        let batch = make_batch(42, Books::One, 0, 600);
        let ways = ways_of_calls(&batch.output);
        let expected = [
            ("split 0 1", 100),
            ("split 1 0", 1),
            ("split 1 1", 1),
            ("split 3 0", 1),
            ("split 3 1", 1),
            ("fit 0 0", 100),
            ("fit 1 0", 1),
            ("fit 1 1", 1),
            ("fit 3 0", 1),
            ("fit 3 1", 1),
            ("puts 16 0 event", 60),
            ("puts 16 0 event answer", 20),
            ("puts 0 0 event answer", 20),
            ("puts 0 1 event", 20),
            ("puts 0 1 event answer", 20),
        ];
        for (way, least) in expected {
            let count = ways.get(way).copied().unwrap_or(0);
            assert!(count >= least, "{way}: {count}");
        }
        let with_split = |way: &&String| way.starts_with("puts 16 1");
        assert_eq!(ways.keys().find(with_split), None);
    }

    #[test]
    fn choices_are_made_by_lines_of_a_record_and_left_by_others() {
        let lines = make_batch(42, Books::One, 0, 300).episodes.concat();
        let mut kinds = BTreeMap::new();
        for line in &lines {
            if let Some(Line::Record(_, _, choice)) = read_line(line) {
                *kinds.entry(choice).or_insert(0) += 1;
            }
        }
        for choice in [None, Some(true), Some(false)] {
            let count = kinds.get(&choice).copied().unwrap_or(0);
            assert!(count >= 100, "{choice:?}: {count}");
        }
    }

    #[test]
    fn a_row_stays_over_a_swap_and_serves_a_look() {
        let lines = make_batch(42, Books::Two, 0, 600).episodes.concat();
        let follows = |name: &[u8]| {
            let mut pairs = lines.windows(2);
            pairs.any(|pair| pair[0].starts_with(b"row 2") && pair[1].starts_with(name))
        };
        assert!(follows(b"swap") && follows(b"differ "));
    }
}
