//! `second replay`, `second differ`, `second check` and `second scripts`.

use std::io::{Read, Write};
use std::process::ExitCode;
use std::time::{SystemTime, UNIX_EPOCH};

use second::differ::{differ, scripts, Options};
use second::episodes::Books;
use second::replay::Player;
use second::{checks, say};

const USAGE: &str = "usage: second replay < SCRIPT
       second differ --ours PATH [--seed N] [--episodes N] [--seconds N] [--books 1|2]
       second check [--seed N] [--episodes N]
       second scripts [--seed N] [--episodes N] [--books 1|2] > SCRIPT
With --books 1 the scripts have one book only, as a program without C-11 plays them.";

/// Reads a script on standard input and writes what it plays, piece by piece.
fn run_replay() -> std::io::Result<()> {
    let mut input = std::io::stdin().lock();
    let mut output = std::io::stdout().lock();
    let mut player = Player::new();
    let mut piece = vec![0; 65_536];
    let mut written = Vec::new();
    loop {
        let size = match input.read(&mut piece) {
            Err(error) if error.kind() == std::io::ErrorKind::Interrupted => continue,
            read => read?,
        };
        match piece.get(..size) {
            Some(bytes) if size > 0 => player.feed(bytes, &mut written),
            _ => break,
        }
        output.write_all(&written)?;
        written.clear();
    }
    player.finish(&mut written);
    output.write_all(&written)?;
    output.flush()
}

/// The options after the command's name: each a name and a value.
fn read_options(words: &[String]) -> Option<Vec<(String, String)>> {
    let pairs = words.chunks(2).map(|pair| match pair {
        [name, value] => Some((name.clone(), value.clone())),
        _ => None,
    });
    pairs.collect()
}

/// A seed from the clock.
fn clock_seed() -> u64 {
    let now = SystemTime::now().duration_since(UNIX_EPOCH);
    now.map_or(1, |time| time.as_nanos() as u64 % 1_000_000_000)
}

/// How many books the episodes have.
fn read_books(word: &str) -> Option<Books> {
    match word {
        "1" => Some(Books::One),
        "2" => Some(Books::Two),
        _ => None,
    }
}

/// Fills the options of `differ`, `check` and `scripts`; none when one cannot be read.
fn fill_options(words: &[String], episodes: u64) -> Option<Options> {
    let mut options = Options {
        ours: String::new(),
        seed: clock_seed(),
        books: Books::Two,
        episodes,
        seconds: None,
    };
    for (name, value) in read_options(words)? {
        match name.as_str() {
            "--ours" => options.ours = value,
            "--seed" => options.seed = value.parse().ok()?,
            "--books" => options.books = read_books(&value)?,
            "--episodes" => options.episodes = value.parse().ok()?,
            "--seconds" => options.seconds = Some(value.parse().ok()?),
            _ => return None,
        }
    }
    Some(options)
}

/// `second differ`: true when nothing differed.
fn run_differ(options: &Options) -> bool {
    say(&format!("second: seed {}", options.seed));
    match differ(options) {
        Err(error) => {
            say(&format!("second: cannot run {}: {error}", options.ours));
            false
        }
        Ok((episodes, differences)) => {
            say(&format!(
                "second: {episodes} episodes, {differences} differences"
            ));
            differences == 0
        }
    }
}

/// `second check`: true when nothing failed.
fn run_check(options: &Options) -> bool {
    say(&format!("second: seed {}", options.seed));
    let (checked, failed) = checks::check(options.seed, options.episodes);
    say(&format!("second: {checked} checks, {failed} failed"));
    failed == 0
}

/// `second scripts`: writes random episodes as one script; the seed goes to standard error.
fn run_scripts(options: &Options) -> bool {
    let _ = writeln!(std::io::stderr(), "second: seed {}", options.seed);
    let script = scripts(options);
    std::io::stdout().lock().write_all(&script).is_ok()
}

fn main() -> ExitCode {
    let words: Vec<String> = std::env::args().skip(1).collect();
    let command = words.first().map_or("", String::as_str);
    let rest = words.get(1..).unwrap_or_default();
    let done = match command {
        "replay" if rest.is_empty() => Some(run_replay().is_ok()),
        "differ" => fill_options(rest, 20_000)
            .filter(|options| !options.ours.is_empty())
            .map(|options| run_differ(&options)),
        "check" => fill_options(rest, 5_000).map(|options| run_check(&options)),
        "scripts" => fill_options(rest, 100).map(|options| run_scripts(&options)),
        _ => None,
    };
    match done {
        Some(true) => ExitCode::SUCCESS,
        Some(false) => ExitCode::FAILURE,
        None => {
            let _ = writeln!(std::io::stderr(), "{USAGE}");
            ExitCode::from(2)
        }
    }
}
