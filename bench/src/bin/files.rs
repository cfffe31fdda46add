//! The proved reader of the agency's file beside the oracle's: on every small change of the two
//! published files both must give the same number, line, entry and year, and the same lists to the
//! bit; a refused file must leave the lists alone. Then random files, and long ones with the time of
//! each reader.
//!
//!   files [COUNT]     COUNT random files (300000)
use bench::questions::random_count;
use bench::reading::{Answer, COF, LENGTH, LONGEST};
use bench::tally::Tally;
use oracle::cases::Generator;
use oracle::layout::{published_file, SPOILING};
use std::hint::black_box;
use std::process::ExitCode;
use std::time::Instant;

/// How many random files are compared.
const RANDOM: usize = 300_000;
const GOOD: [usize; 4] = [LENGTH; 4];

fn compare(tally: &mut Tally, name: &str, text: &[u8]) {
    COF.compare(tally, name, text, GOOD);
}

/// Each byte deleted, doubled, and replaced by each of the spoiling bytes.
fn bytes(tally: &mut Tally, text: &[u8]) {
    for at in 0..text.len() {
        let mut changed = text.to_vec();
        changed.remove(at);
        compare(tally, &format!("byte {at} deleted"), &changed);
        changed.insert(at, text[at]);
        changed.insert(at, text[at]);
        compare(tally, &format!("byte {at} doubled"), &changed);
        changed.remove(at);
        for byte in SPOILING {
            changed[at] = byte;
            compare(tally, &format!("byte {at} replaced by {byte}"), &changed);
        }
    }
}

/// Each line dropped, doubled, swapped with the next.
fn lines(tally: &mut Tally, text: &[u8]) {
    let lines: Vec<&[u8]> = text.split_inclusive(|byte| *byte == b'\n').collect();
    for at in 0..lines.len() {
        let mut changed = lines.clone();
        changed.remove(at);
        compare(
            tally,
            &format!("line {} dropped", at + 1),
            &changed.concat(),
        );
        changed.insert(at, lines[at]);
        changed.insert(at, lines[at]);
        compare(
            tally,
            &format!("line {} doubled", at + 1),
            &changed.concat(),
        );
        changed.remove(at);
        if at + 1 < lines.len() {
            changed.swap(at, at + 1);
            compare(
                tally,
                &format!("line {} swapped", at + 1),
                &changed.concat(),
            );
        }
    }
}

/// Every beginning of the file, from nothing to all of it, and all of it with CR before each LF.
fn beginnings(tally: &mut Tally, text: &[u8]) {
    for end in 0..=text.len() {
        compare(tally, &format!("the first {end} bytes"), &text[..end]);
    }
    let lines: Vec<&[u8]> = text.split(|byte| *byte == b'\n').collect();
    let both_ends = lines.join(&b"\r\n"[..]);
    for end in 0..=both_ends.len() {
        compare(
            tally,
            &format!("the first {end} bytes, with CR"),
            &both_ends[..end],
        );
    }
}

/// Each list of each length up to the longest, with a good file, a bad one and an empty one.
fn lengths(tally: &mut Tally, text: &[u8]) {
    for file in [text, &text[1000..], b""] {
        for list in 0..4 {
            for length in 0..=LONGEST {
                let mut lengths = GOOD;
                lengths[list] = length;
                COF.compare(tally, &format!("list {list} of {length}"), file, lengths);
            }
        }
    }
}

/// Every word of every line written anew: each value over its cap, at it, and with other digits.
fn words(tally: &mut Tally, text: &[u8]) {
    const WORDS: [&str; 14] = [
        "65536",
        "-65536.0",
        "65536.01",
        "-65536.0040",
        "4096.0",
        "-4096.001",
        "999999999",
        "-0.0",
        "16777217",
        "0.00000001",
        "03",
        "3.0",
        "9",
        "1234567890",
    ];
    let lines: Vec<&[u8]> = text.split_inclusive(|byte| *byte == b'\n').collect();
    for (at, line) in lines.iter().enumerate() {
        let parts: Vec<&[u8]> = line
            .split(|byte| byte.is_ascii_whitespace())
            .filter(|word| !word.is_empty())
            .collect();
        for place in 0..parts.len() {
            for word in WORDS {
                let mut parts = parts.clone();
                parts[place] = word.as_bytes();
                let other = [parts.join(&b' '), b"\n".to_vec()].concat();
                let changed = [lines[..at].concat(), other, lines[at + 1..].concat()].concat();
                compare(
                    tally,
                    &format!("word {place} of line {} is {word}", at + 1),
                    &changed,
                );
            }
        }
    }
}

/// Milliseconds of a call, the least of five.
fn milliseconds(text: &[u8], call: fn(&[u8]) -> Answer) -> f64 {
    let times = (0..5).map(|_| {
        let began = Instant::now();
        black_box(call(black_box(text)));
        began.elapsed().as_secs_f64() * 1e3
    });
    times.fold(f64::INFINITY, f64::min)
}

/// Files as the oracle makes them for its cases, whole and spoilt.
fn random_files(tally: &mut Tally, count: usize) {
    let mut generator = Generator::new(1);
    for number in 0..count {
        compare(
            tally,
            &format!("random file {number}"),
            &generator.file(None),
        );
    }
}

/// A name, and a file made as long as asked: what it begins with, what is repeated, how it ends.
type Long<'a> = (&'static str, &'a [u8], &'a [u8], &'a [u8]);

fn long_kinds(text: &[u8]) -> [Long<'_>; 7] {
    // the year of the header, and the degree of line 2, each with the blanks before it
    let (year, after_year) = text.split_at(10);
    let line_2 = 1 + text.iter().position(|byte| *byte == b'\n').expect("a line");
    let (degree, after_degree) = text.split_at(line_2 + 3);
    [
        ("nines, one line, alone", b"", b"9", b""),
        ("nines, one line, as line 2", b"2025\n", b"9", b""),
        ("nines, one line, at the end", text, b"9", b""),
        ("nines, many lines, at the end", text, b"9999 9999\n", b""),
        ("nines, CR LF, then a blank line", text, b"9\r\n", b"\n"),
        ("blanks in the header", year, b" ", after_year),
        ("blanks in line 2", degree, b"\t", after_degree),
    ]
}

/// Long files. The time of one twice as long should be about twice as much.
fn long_files(tally: &mut Tally, text: &[u8]) {
    println!(
        "{:<32} {:>9} {:>9} {:>9} {:>9}",
        "", "ours 5 MB", "10 MB", "Rust 5 MB", "10 MB"
    );
    for (name, before, unit, after) in long_kinds(text) {
        let made = |size: usize| [before, &unit.repeat(size / unit.len()), after].concat();
        let texts = [5_000_000, 10_000_000].map(made);
        for text in &texts {
            compare(tally, name, text);
        }
        let ours = |text: &[u8]| COF.ours(text, GOOD);
        let rust = |text: &[u8]| COF.rust(text, GOOD);
        let [a, b] = texts.each_ref().map(|text| milliseconds(text, ours));
        let [c, d] = texts.each_ref().map(|text| milliseconds(text, rust));
        println!("{name:<32} {a:>9.2} {b:>9.2} {c:>9.2} {d:>9.2} ms");
    }
}

fn main() -> ExitCode {
    let Some(count) = random_count("files", RANDOM) else {
        return ExitCode::from(2);
    };
    let files =
        [2020, 2025].map(|epoch_year| published_file(epoch_year).expect("a published epoch"));
    type Group = (&'static str, fn(&mut Tally, &[u8]));
    let groups: [Group; 5] = [
        ("a byte changed", bytes),
        ("a line changed", lines),
        ("a word changed", words),
        ("cut short, with LF and CR LF", beginnings),
        ("lists of other lengths", lengths),
    ];
    let mut tally = Tally::default();
    for (name, group) in groups {
        for text in &files {
            group(&mut tally, text);
        }
        tally.group(name);
    }
    random_files(&mut tally, count);
    tally.group("random files");
    long_files(&mut tally, &files[1]);
    tally.group("long files");
    tally.end()
}
