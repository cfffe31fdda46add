//! Damaged lines: a good line with its text spoilt. Most cannot be read. Some still can, and then
//! have their answer.
use super::lists::DEGREE_12;
use super::rng::Rng;
use super::{text_case, Generator, Kind};
use crate::entries::Set;
use crate::format::{parse_second_set, parse_set, put_case, put_second_set, put_set};
use crate::replay::Replay;

/// Bytes that a line can meet. No newline, which would end the line.
const BYTES: &[u8] = b" =-+.;0123456789abcdefABCDEFgGxSUMFIELDQRTVWHO_#\t\r\x7f\xc3\xff";

/// Words that a number may be taken for.
const WORDS: [&[u8]; 26] = [
    b"",
    b"0",
    b"-0",
    b"-",
    b"--1",
    b"+1",
    b"1.0",
    b"1e3",
    b"NaN",
    b"inf",
    b"0x3f800000",
    b"3f80000",
    b"3f8000000",
    b"3f80000g",
    b"3F800000",
    b"7FC00000",
    b"2147483647",
    b"-2147483648",
    b"2147483648",
    b"-2147483649",
    b"4294967296",
    b"0000002020",
    b"00000002020",
    b"-0000000001",
    b"129",
    b"0128",
];

fn spoil(rng: &mut Rng, text: &mut Vec<u8>) {
    let at = rng.below(text.len() + 1);
    match rng.below(12) {
        0 => text.truncate(at),
        1 if at < text.len() => {
            text.remove(at);
        }
        2 => text.insert(at, rng.pick(BYTES)),
        3 if at < text.len() => text[at] = rng.pick(BYTES),
        4 => text.extend_from_slice(b" 0"),
        5 => text.push(rng.pick(b" \r\t=")),
        6 => text.insert(0, b' '),
        7 => text.make_ascii_lowercase(),
        // small hex digits made capital: the line can still be read
        8 => text.make_ascii_uppercase(),
        // another word in the place of one
        9 | 10 => {
            let mut words: Vec<&[u8]> = text.split(|byte| *byte == b' ').collect();
            let place = rng.below(words.len());
            words[place] = rng.pick(&WORDS);
            *text = words.join(&b' ');
        }
        // a word left out
        _ => {
            let mut words: Vec<&[u8]> = text.split(|byte| *byte == b' ').collect();
            words.remove(rng.below(words.len()));
            *text = words.join(&b' ');
        }
    }
}

/// A SET line with short lists, so that the numbers of entries are met often.
fn short_set(rng: &mut Rng) -> Set {
    let way = rng.below(DEGREE_12.sets());
    let epoch_year = rng.pick(&[2020, 2025]);
    let mut lists = DEGREE_12.lists(rng, way);
    let shortest = rng.below(3);
    for list in &mut lists {
        list.truncate(shortest);
    }
    Set { epoch_year, lists }
}

/// A SET2 line of that kind.
pub fn short_second_set(rng: &mut Rng) -> Vec<u8> {
    let mut line = Vec::new();
    put_second_set(&mut line, &short_set(rng));
    line
}

/// A good line without its answer. Before it stands a SET line where it needs one.
fn good_line(generator: &mut Generator, out: &mut Vec<u8>) -> Vec<u8> {
    let mut line = Vec::new();
    let case = match generator.rng.below(10) {
        0 => generator.sum_case(None, out),
        1 => generator.field_case(None, out),
        2 => generator.epoch_case(None),
        3 => generator.str_case(None),
        4 => generator.gv_case(None),
        5 => generator.sqrt_case(None),
        6 => {
            put_set(&mut line, &short_set(&mut generator.rng));
            return line;
        }
        way => {
            let kind = [Kind::Dec, Kind::Whole, Kind::Cof][way - 7];
            let mut text = generator.text(kind, None);
            // the beginning of a file
            text.truncate(1 + generator.rng.below(64));
            put_case(&mut line, &text_case(kind, &text));
            return line;
        }
    };
    put_case(&mut line, &case);
    line
}

/// Writes one damaged line with its answer.
pub fn bad_line(generator: &mut Generator, out: &mut Vec<u8>) {
    damaged_line(generator, out, good_line);
}

/// Damages a good line and writes it with its answer. It is no SET or SET2 line that can be read, and a
/// right run writes it back as it is.
pub fn damaged_line(
    generator: &mut Generator,
    out: &mut Vec<u8>,
    good: impl Fn(&mut Generator, &mut Vec<u8>) -> Vec<u8>,
) {
    loop {
        let mut text = good(generator, out);
        for _ in 0..generator.rng.below(3) + 1 {
            spoil(&mut generator.rng, &mut text);
        }
        if parse_set(&text).is_some() || parse_second_set(&text).is_some() {
            continue;
        }
        let mut line = Vec::new();
        generator.replay.line(&text, &mut line);
        if comes_back(&mut generator.replay, &line) {
            out.extend_from_slice(&line);
            return;
        }
    }
}

/// True if the line, with its newline, is answered by itself. A question that ends in " =" is not.
fn comes_back(replay: &mut Replay, line: &[u8]) -> bool {
    let mut again = Vec::new();
    replay.line(&line[..line.len() - 1], &mut again);
    again == line
}
