//! Files for COF: the published ones and random ones, whole and spoilt.
use super::decimals::any_word;
use super::rng::Rng;
use crate::entries::CAPS;
use crate::format::NEWLINE;
use crate::layout::{published_file, SPOILING};
use crate::replay::LONGEST;
use crate::tables::{N_COEFF, WMM_MAX};

/// The longest text: a line has its name, its mark and its answer beside it.
const LONGEST_TEXT: usize = LONGEST - 64;

/// Headers, good ones and others.
const HEADERS: [&[u8]; 28] = [
    b"2025.0",
    b"    2020.0            WMM-2020     12/10/2019",
    b"2025",
    b"2025.0\tWMM",
    b"2015.0",
    b"-5",
    b"-5.0 x",
    b"0",
    b"-0",
    b"-0.0",
    b"999999999",
    b"-999999999",
    b"00002025",
    b"2025.0000",
    b"",
    b" ",
    b"\t",
    b"\r",
    b"2025.5 WMM-2025",
    b"2025.05",
    b"+2025",
    b"2025.",
    b".0",
    b"1e3",
    b"1234567890",
    b"WMM-2025 2025.0",
    b"2025.0, WMM",
    b"999999999999999999999999999999999999999999999999",
];

/// What can stand after the coefficient lines: nines of all kinds, and what is none.
const ENDS: [&[u8]; 32] = [
    b"",
    b"9",
    b"9\n",
    b"99\n9\n999",
    b"9 9",
    b"9\t99 \n",
    b" 9\n",
    b"9 9 9 9 9 9\n",
    b"9999999999\n",
    b"9\r\n",
    b"9\r\n9\r\n",
    b"9\n9\n9\n9\n9\n9\n9\n9\n",
    b"\n",
    b"\r\n",
    b" ",
    b"\t\n",
    b"8",
    b"9.",
    b"9.0\n",
    b"-9",
    b"+9\n",
    b"9 8",
    b"9x\n",
    b"9\r",
    b"9\r\r\n",
    b"9\0",
    b"\xff\n",
    b"9\n\n",
    b"\n9\n",
    b"9\n8\n9\n",
    b"13 0 1 2 3 4\n",
    b"12 12 1 2 3 4\n",
];

/// Lines in the place of a coefficient line.
const OTHER_LINES: [&[u8]; 12] = [
    b"",
    b" \t",
    b"9",
    b"9 9 9 9 9 9",
    b"999999999999999999999999999999999999999999999999",
    b"9 9 9 9 9",
    b"9\t9999999999",
    b"9 9 9 9 9 9.",
    b"1 0 1 2 3 4",
    b"0 0 0 0 0 0",
    b"12 12 1 2 3 4 5",
    b"-1 0 1 2 3 4",
];

type Lines = Vec<Vec<u8>>;

/// A published file as lines without their ends.
fn published_lines(rng: &mut Rng) -> Lines {
    let text = published_file(rng.pick(&[2020, 2025])).expect("a published epoch");
    let mut lines: Lines = text
        .split(|byte| *byte == b'\n')
        .map(<[u8]>::to_vec)
        .collect();
    lines.pop();
    lines
}

/// A number within its cap, with at most nine digits.
fn any_entry(rng: &mut Rng, list: usize) -> String {
    let cap = CAPS[list] as usize;
    let places = rng.below(if list < 2 { 5 } else { 6 });
    let ten = 10usize.pow(places as u32);
    let size = if rng.once_in(16) {
        cap * ten
    } else {
        rng.below(cap * ten)
    };
    let sign = if rng.once_in(2) { "-" } else { "" };
    match places {
        0 => format!("{sign}{size}"),
        _ => format!("{sign}{}.{:0places$}", size / ten, size % ten),
    }
}

/// A good file of random numbers.
fn any_lines(rng: &mut Rng) -> Lines {
    let mut lines = vec![rng.pick(&HEADERS[..14]).to_vec()];
    for degree in 1..=WMM_MAX {
        for order in 0..=degree {
            let mut line = format!("{degree} {order}");
            for list in 0..4 {
                line.push(' ');
                line.push_str(&any_entry(rng, list));
            }
            lines.push(line.into_bytes());
        }
    }
    lines.push(b"9".repeat(1 + rng.below(60)));
    lines
}

/// A coefficient line, as a rule any of the 90, often the first or the last.
fn place(rng: &mut Rng) -> usize {
    match rng.below(8) {
        0 => 1,
        1 => N_COEFF,
        _ => 1 + rng.below(N_COEFF),
    }
}

/// Puts other bytes in the place of one of a line's words.
fn change_word(line: &mut Vec<u8>, at: usize, change: impl FnOnce(&[u8]) -> Vec<u8>) {
    let mut words: Vec<&[u8]> = line
        .split(|byte| *byte == b' ')
        .filter(|word| !word.is_empty())
        .collect();
    let word = change(words[at]);
    words[at] = &word;
    *line = words.join(&b' ');
}

/// Ways to change the lines of a file.
const LINE_WAYS: usize = 16;

fn change_lines(rng: &mut Rng, lines: &mut Lines, planned: &[Vec<u8>], way: usize) {
    let at = place(rng);
    match way {
        0 => drop(lines.remove(at)),
        1 => lines.insert(at, lines[at].clone()),
        2 => lines.swap(at, at + 1),
        3 => lines.insert(at, rng.pick(&[&b""[..], b" ", b"\t", b"\r"]).to_vec()),
        4 => lines[at] = rng.pick(&OTHER_LINES).to_vec(),
        // degree 9 and order 9, where six nines are a coefficient line
        5 => {
            lines[54] = rng
                .pick(&[&b"9 9 9 9 9 9"[..], b"9.0 9 9 9 9 9", b"9 9 9 9 9"])
                .to_vec()
        }
        // a value over its cap, or just not over it
        6..=9 => {
            let list = rng.below(4);
            let over = rng.pick(&["", ".0", ".002", ".01", "9", "0"]);
            let sign = rng.pick(&["", "-"]);
            let word = format!("{sign}{}{over}", CAPS[list]);
            change_word(&mut lines[at], 2 + list, |_| word.into_bytes());
        }
        // a degree or an order as 3.0, 3.00 or 03
        10 => {
            let end = rng.pick(&[".0", ".00", ".000000", ".1", "."]);
            change_word(&mut lines[at], rng.below(2), |word| {
                [word, end.as_bytes()].concat()
            });
        }
        11 => change_word(&mut lines[at], rng.below(2), |word| [b"0", word].concat()),
        12 | 13 => {
            let word = any_word(rng, planned);
            change_word(&mut lines[at], rng.below(6), |_| word);
        }
        14 => change_word(&mut lines[at], rng.below(6), |_| vec![]),
        _ => change_word(&mut lines[at], rng.below(6), |word| [word, b" 0"].concat()),
    }
}

/// Ways to change the bytes of a file.
const TEXT_WAYS: usize = 7 + SPOILING.len();

fn change_text(rng: &mut Rng, text: &mut Vec<u8>, way: usize) {
    if text.is_empty() {
        return;
    }
    let at = rng.below(text.len());
    match way {
        0 => text.truncate(at),
        1 => drop(text.remove(at)),
        2 => text.insert(at, text[at]),
        3 => drop(text.pop()),
        4 => replace(text, b'\n', || b"\r\n"),
        5 => replace(text, b'\n', || rng.pick(&[&b"\n"[..], b"\r\n"])),
        6 => replace(text, b' ', || rng.pick(&[&b" "[..], b" ", b"\t", b" \t "])),
        _ => text[at] = SPOILING[way - 7],
    }
}

/// Puts other bytes in the place of every byte of a kind.
fn replace(text: &mut Vec<u8>, byte: u8, mut other: impl FnMut() -> &'static [u8]) {
    let mut made = Vec::new();
    for part in text.iter() {
        if *part == byte {
            made.extend_from_slice(other());
        } else {
            made.push(*part);
        }
    }
    *text = made;
}

/// The text of lines, each with its end.
fn joined(lines: &Lines) -> Vec<u8> {
    let mut text = lines.join(&b'\n');
    text.push(b'\n');
    text
}

/// Ways to make a file: lines changed, each header, each end, bytes changed, whole, cut short.
pub const FILES: usize = LINE_WAYS + HEADERS.len() + ENDS.len() + TEXT_WAYS + 4;

fn made(rng: &mut Rng, planned: &[Vec<u8>], way: usize) -> Vec<u8> {
    let mut lines = match rng.below(2) {
        0 => any_lines(rng),
        _ => published_lines(rng),
    };
    if way < LINE_WAYS {
        change_lines(rng, &mut lines, planned, way);
        return joined(&lines);
    }
    let way = way - LINE_WAYS;
    if way < HEADERS.len() {
        lines[0] = HEADERS[way].to_vec();
        return joined(&lines);
    }
    let way = way - HEADERS.len();
    if way < ENDS.len() {
        lines.truncate(1 + N_COEFF);
        return [joined(&lines), ENDS[way].to_vec()].concat();
    }
    let way = way - ENDS.len();
    let mut text = joined(&lines);
    match way {
        0 => {}
        1 => text.clear(),
        2 => text.truncate(lines[0].len()),
        3 => text.truncate(lines[0].len() + 1),
        _ => change_text(rng, &mut text, way - 4),
    }
    text
}

/// The planned file at a place, or a random one.
pub fn file(rng: &mut Rng, planned: &[Vec<u8>], place: Option<usize>) -> Vec<u8> {
    loop {
        // of the random ones half have their lines changed
        let ways = if rng.once_in(2) { LINE_WAYS } else { FILES };
        let way = place.unwrap_or_else(|| rng.below(ways));
        let mut text = made(rng, planned, way);
        if place.is_none() && rng.once_in(4) {
            let way = rng.below(TEXT_WAYS);
            change_text(rng, &mut text, way);
        }
        if text.len() <= LONGEST_TEXT {
            return text;
        }
    }
}

/// A file as it stands in a line.
pub fn in_a_line(mut text: Vec<u8>) -> Vec<u8> {
    replace(&mut text, b'\n', || &[NEWLINE]);
    text
}
