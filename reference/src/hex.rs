//! Bytes as text, to write journals by hand and to show them.
//!
//! A word is an even number of hexadecimal digits, two for each byte. `30*65518` is the bytes of a
//! word so many times. Words stand apart by spaces or newlines. `#` starts a comment, which goes to
//! the line's end.

use crate::journal;

/// Runs of more equal bytes are shown as one word.
const LONG_RUN: usize = 8;

/// The bytes of a text, or the number of the first line that has another word.
pub fn read(text: &str) -> Result<Vec<u8>, usize> {
    let mut bytes = Vec::new();
    for (place, line) in text.lines().enumerate() {
        let words = line.split('#').next().unwrap_or_default();
        for word in words.split_whitespace() {
            bytes.extend(read_word(word).ok_or(place + 1)?);
        }
    }
    Ok(bytes)
}

fn read_word(word: &str) -> Option<Vec<u8>> {
    let (digits, times) = match word.split_once('*') {
        Some((digits, times)) => (digits, times.parse().ok()?),
        None => (word, 1),
    };
    let digits: Option<Vec<u32>> = digits.chars().map(|digit| digit.to_digit(16)).collect();
    let digits = digits.filter(|digits| !digits.is_empty() && digits.len() % 2 == 0)?;
    let bytes: Vec<u8> = digits.chunks(2).map(|pair| (pair[0] * 16 + pair[1]) as u8).collect();
    Some(bytes.repeat(times))
}

/// A journal as text: a line for the version, for each record, and for what is from the stop on.
pub fn show(journal: &[u8]) -> String {
    journal::parts(journal).into_iter().map(|part| line(part) + "\n").collect()
}

fn line(bytes: &[u8]) -> String {
    let runs: Vec<String> = bytes.chunk_by(|one, next| one == next).map(run).collect();
    runs.join(" ")
}

/// The words of a run of equal bytes.
fn run(bytes: &[u8]) -> String {
    let word = format!("{:02x}", bytes[0]);
    if bytes.len() > LONG_RUN {
        format!("{word}*{}", bytes.len())
    } else {
        vec![word; bytes.len()].join(" ")
    }
}
