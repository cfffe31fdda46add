//! The agency's coefficient file, WMM.COF: a header, 90 coefficient lines, and lines of nines.
//! README.md has the whole rule.
use crate::entries::Refusal;
use crate::reading::{read_into, Found};
use crate::tables::{N_COEFF, WMM_MAX};
use std::str;

/// The most digits that a number has, before and after its point together.
const MOST_DIGITS: usize = 9;

/// The lines of a file, one after the other.
struct Lines<'a> {
    rest: &'a [u8],
    /// How many lines were taken: the number of the last one.
    taken: usize,
}

impl<'a> Lines<'a> {
    /// The next line without its end, if there is one.
    fn line(&mut self) -> Option<&'a [u8]> {
        if self.rest.is_empty() {
            return None;
        }
        self.taken += 1;
        match self.rest.iter().position(|byte| *byte == b'\n') {
            Some(at) => {
                let line = &self.rest[..at];
                self.rest = &self.rest[at + 1..];
                Some(line.strip_suffix(b"\r").unwrap_or(line))
            }
            None => Some(std::mem::take(&mut self.rest)),
        }
    }

    /// Refusal 13 of the last line.
    fn malformed(&self) -> Refusal {
        Refusal::Malformed { line: self.taken }
    }

    /// The epoch year of the header.
    fn header(&mut self) -> Result<i32, Refusal> {
        let line = self.line().ok_or(Refusal::OutOfOrder { line: 1 })?;
        words(line)
            .next()
            .and_then(whole)
            .ok_or_else(|| self.malformed())
    }

    /// The four numbers of the next line, which must be of this degree and order.
    fn coefficients(&mut self, degree: usize, order: usize) -> Result<[f32; 4], Refusal> {
        let missing = Refusal::OutOfOrder {
            line: self.taken + 1,
        };
        let line = self.line().ok_or(missing)?;
        match coefficient_line(line) {
            Some((n, m, numbers)) if (n, m) == (degree as i32, order as i32) => Ok(numbers),
            Some(_) => Err(missing),
            None if is_nines(line) => Err(missing),
            None => Err(self.malformed()),
        }
    }
}

/// The words of a line. Spaces and tabs stand between them.
fn words(line: &[u8]) -> impl Iterator<Item = &[u8]> {
    line.split(|byte| matches!(byte, b' ' | b'\t'))
        .filter(|word| !word.is_empty())
}

/// The digits of a number before and after its point, if the word is a number.
fn digits(word: &[u8]) -> Option<(&[u8], &[u8])> {
    let size = word.strip_prefix(b"-").unwrap_or(word);
    let (before, after) = match size.iter().position(|byte| *byte == b'.') {
        Some(at) if at + 1 == size.len() => return None,
        Some(at) => (&size[..at], &size[at + 1..]),
        None => (size, &size[..0]),
    };
    let good = !before.is_empty()
        && before.len() + after.len() <= MOST_DIGITS
        && before.iter().all(u8::is_ascii_digit)
        && after.iter().all(u8::is_ascii_digit);
    good.then_some((before, after))
}

/// The f32 nearest to a number, ties to even.
pub fn number(word: &[u8]) -> Option<f32> {
    digits(word)?;
    str::from_utf8(word).ok()?.parse().ok()
}

/// The value of a whole number: one whose digits after the point are all 0.
pub fn whole(word: &[u8]) -> Option<i32> {
    let (before, after) = digits(word)?;
    if after.iter().any(|digit| *digit != b'0') {
        return None;
    }
    let size = before
        .iter()
        .fold(0, |size, digit| 10 * size + i32::from(digit - b'0'));
    Some(if word[0] == b'-' { -size } else { size })
}

/// Degree, order and the four numbers of a line of six words.
fn coefficient_line(line: &[u8]) -> Option<(i32, i32, [f32; 4])> {
    let mut words = words(line);
    let degree = whole(words.next()?)?;
    let order = whole(words.next()?)?;
    let mut numbers = [0.0; 4];
    for entry in &mut numbers {
        *entry = number(words.next()?)?;
    }
    words.next().is_none().then_some((degree, order, numbers))
}

/// A line of nines has one word or more, of the digit 9 alone.
fn is_nines(line: &[u8]) -> bool {
    line.contains(&b'9') && line.iter().all(|byte| matches!(byte, b'9' | b' ' | b'\t'))
}

/// The epoch year and the four lists of a file. Refusals 13 and 14, at the first line that has one.
fn read_lines(text: &[u8]) -> Result<Found, Refusal> {
    let mut lines = Lines {
        rest: text,
        taken: 0,
    };
    let epoch_year = lines.header()?;
    let mut lists = [[0.0; N_COEFF]; 4];
    let mut index = 0;
    for degree in 1..=WMM_MAX {
        for order in 0..=degree {
            let numbers = lines.coefficients(degree, order)?;
            for (list, entry) in lists.iter_mut().zip(numbers) {
                list[index] = entry;
            }
            index += 1;
        }
    }
    while let Some(line) = lines.line() {
        if !is_nines(line) {
            return Err(lines.malformed());
        }
    }
    Ok((epoch_year, lists))
}

/// Reads a file into four lists of 90, and gives its epoch year. Refusals 6, then 13 and 14, then 7.
/// A refused file leaves the lists as they were.
pub fn read_cof(
    text: &[u8],
    g: &mut [f32],
    h: &mut [f32],
    g_dot: &mut [f32],
    h_dot: &mut [f32],
) -> Result<i32, Refusal> {
    read_into([g, h, g_dot, h_dot], || read_lines(text))
}
