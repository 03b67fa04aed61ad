//! Makes a script shorter and simpler as long as something about it stays true.

use crate::episodes::Script;
use crate::replay::write_hex;

/// The question that a script must go on answering with yes.
type Question<'q> = &'q mut dyn FnMut(&Script) -> bool;

/// How often the question may be asked.
const MOST_QUESTIONS: usize = 3_000;

/// Shrinks a script: fewer lines, then simpler lines, until neither helps.
pub fn shrink(script: Script, question: Question) -> Script {
    let mut asked = 0;
    let mut limited = |script: &Script| {
        asked += 1;
        asked <= MOST_QUESTIONS && question(script)
    };
    let mut script = script;
    loop {
        let before = script.clone();
        script = drop_lines(script, &mut limited);
        script = simplify_lines(script, &mut limited);
        if script == before {
            return script;
        }
    }
}

/// Leaves out parts of the script, half of it at first, single lines at last.
fn drop_lines(mut script: Script, question: Question) -> Script {
    let mut size = script.len().div_ceil(2);
    while size > 0 {
        let mut start = 0;
        while start < script.len() {
            let mut shorter = script.clone();
            shorter.drain(start..(start + size).min(script.len()));
            if question(&shorter) {
                script = shorter;
            } else {
                start += size;
            }
        }
        size /= 2;
    }
    script
}

/// Puts simpler lines in the place of each line.
fn simplify_lines(mut script: Script, question: Question) -> Script {
    for index in 0..script.len() {
        let mut again = true;
        while again {
            again = false;
            for line in simpler_lines(&script[index]) {
                let mut simpler = script.clone();
                simpler[index] = line;
                if question(&simpler) {
                    script = simpler;
                    again = true;
                    break;
                }
            }
        }
    }
    script
}

/// The simpler forms of a line: a word of a row left out, a record without its choice, a word
/// made simpler.
fn simpler_lines(line: &[u8]) -> Script {
    let words: Vec<&[u8]> = line.split(|&byte| byte == b' ').collect();
    let name = words.first().copied().unwrap_or_default();
    let mut lines = Vec::new();
    if name == b"row" {
        let half = words.len().div_ceil(2);
        lines.push(words[..half.max(1)].join(&b' '));
        for index in 1..words.len() {
            let mut fewer = words.clone();
            fewer.remove(index);
            lines.push(fewer.join(&b' '));
        }
    }
    if name == b"record" && words.len() == 8 {
        lines.push(words[..7].join(&b' '));
    }
    for index in 1..words.len() {
        for word in simpler_words(name, index, words[index]) {
            let mut simpler = words.clone();
            simpler[index] = &word;
            lines.push(simpler.join(&b' '));
        }
    }
    lines.retain(|simpler| simpler != line);
    lines
}

/// The simpler forms of one word of a line.
fn simpler_words(name: &[u8], index: usize, word: &[u8]) -> Script {
    let hex = matches!(
        (name, index),
        (b"puts" | b"putc" | b"fill", 1)
            | (b"text" | b"lines" | b"pages" | b"gets", 2)
            | (b"view", 3)
    );
    if name == b"row" || name == b"rights" {
        return Vec::new();
    }
    if hex {
        return simpler_hex(word);
    }
    let text = String::from_utf8_lossy(word);
    match text.parse::<i64>() {
        Ok(number) => simpler_numbers(number),
        Err(_) => Vec::new(),
    }
}

/// Shorter hex words, and the same length with plain bytes.
fn simpler_hex(word: &[u8]) -> Script {
    let mut words = vec![b"-".to_vec()];
    let pairs = word.len() / 2;
    for keep in [pairs / 2, pairs.saturating_sub(1)] {
        if keep > 0 {
            words.push(word[..2 * keep].to_vec());
            words.push(word[word.len() - 2 * keep..].to_vec());
        }
    }
    let plain = write_hex(&vec![b'a'; pairs]).into_bytes();
    if word != plain.as_slice() && words.iter().all(|shorter| shorter != word) {
        words.push(plain);
    }
    if word == b"-" {
        words.clear();
    }
    words
}

/// Numbers nearer to 0.
fn simpler_numbers(number: i64) -> Script {
    let mut numbers = vec![0, 1, number / 10, number / 2];
    numbers.push(number - number.signum());
    if number < 0 {
        numbers.push(-number);
    }
    numbers.retain(|simpler| {
        let smaller = simpler.abs() < number.abs();
        smaller || (simpler.abs() == number.abs() && number < 0 && *simpler > 0)
    });
    numbers
        .iter()
        .map(|number| number.to_string().into_bytes())
        .collect()
}
