//! The reader of map texts by itself, beside an ordinary parser in Rust.

use std::hint::black_box;

use crate::measure::{median, time};
use crate::plain;
use crate::state::FIVE_LINES;

/// How often a text is read in a batch.
const READS: usize = 500;
/// The most bytes of a map's text, and the lines of the texts that are read.
const MAX_TEXT_BYTES: usize = 4095;
const LINES: usize = 5;
/// The reader may take so many times as long as the parser in Rust.
const GOAL: f64 = 1.2;

/// A text that is read; times are in nanoseconds.
pub struct Row {
    name: &'static str,
    reader: f64,
    /// The reader's lowest and highest time of a round.
    range: (f64, f64),
    plain: f64,
}

mod archive {
    //! The reader as its archive exports it.
    #![allow(unsafe_code)]

    #[link(name = "map_reader", kind = "static")]
    unsafe extern "C" {
        fn oarhatchet_read_text(text: *const u8, length: usize, bytes: &mut u64) -> u64;
    }

    /// How many lines a text has, or 0 for one that is no map's, and how many bytes were read.
    pub fn read_text(text: &[u8]) -> (u64, u64) {
        let mut bytes = 0;
        // The slice is valid for its length, and the archive keeps no pointer.
        let lines = unsafe { oarhatchet_read_text(text.as_ptr(), text.len(), &mut bytes) };
        (lines, bytes)
    }
}

/// Five lines in as many bytes as a text may have, a third of which are leading zeros and the rest blanks.
fn longest_text() -> String {
    let width = MAX_TEXT_BYTES / LINES / 3 - 1;
    let line = |index| {
        let (inside, parent, count) = (index * 1000, 100_000 + index * 2000, 1000);
        format!("{inside:>width$} {parent:0>width$} {count:<width$}\n")
    };
    let text: String = (0..LINES).map(line).collect();
    assert_eq!(text.len(), MAX_TEXT_BYTES);
    text
}

fn row(name: &'static str, text: &str) -> Row {
    let text = text.as_bytes().to_vec();
    assert_eq!(archive::read_text(&text), (LINES as u64, text.len() as u64), "{name}");
    let reader = time(&text, READS, |text, _| archive::read_text(text).0 == LINES as u64);
    let plain = time(&text, READS, |text, _| {
        plain::parse(text).is_some_and(|map| black_box(map).count() == LINES)
    });
    let [reader, plain] = [reader, plain].map(|time| time.expect("the text is a map's"));
    Row { name, reader, range: (reader, reader), plain }
}

pub fn rows() -> Vec<Row> {
    vec![row("5 lines, 82 bytes", FIVE_LINES), row("5 lines, 4,095 bytes", &longest_text())]
}

/// Prints the rows of several rounds, each time as the median over them.
pub fn print(rounds: &[Vec<Row>]) {
    println!("| text                 | reader |       rounds | Rust | times | goal      |");
    println!("|----------------------|-------:|-------------:|-----:|------:|-----------|");
    for place in 0..rounds[0].len() {
        let middle = |time: fn(&Row) -> f64| {
            median(rounds.iter().map(|rows| time(&rows[place])).collect())
        };
        let (reader, plain) = (middle(|row| row.reader), middle(|row| row.plain));
        let low = rounds.iter().map(|rows| rows[place].range.0).fold(f64::MAX, f64::min);
        let high = rounds.iter().map(|rows| rows[place].range.1).fold(0.0, f64::max);
        println!(
            "| {:<20} | {reader:>6.0} | {:>12} | {plain:>4.0} | {:>5.2} | {GOAL}, {} |",
            rounds[0][place].name,
            format!("{low:.0} to {high:.0}"),
            plain / reader,
            if reader <= GOAL * plain { "met" } else { "MISSED" }
        );
    }
}
