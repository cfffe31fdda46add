//! Answers case lines as the program `replay` does: each line is written back up to its mark, with
//! the answer after it. A right list of cases comes back as it went in.
use crate::agency::{number, read_cof, whole};
use crate::entries::{
    components, epoch, grid_variation, horizontal, square_root, sum, total, uncertainty, zone,
    Refusal, Set,
};
use crate::field::{GeomagneticField, WarningZone};
use crate::format::{
    parse_case, parse_second_set, parse_set, put_case, put_float, put_floats, put_hex, put_int,
    put_second_set, put_set, Case, MALFORMED, MARK, NEWLINE,
};
use crate::rates::rates;
use crate::stored::{read_stored, write_stored};
use crate::tables::N_COEFF;
use std::io::{self, BufRead, Write};

/// The longest line that can be read, in bytes without its newline.
pub const LONGEST: usize = 8191;
/// How much of a longer line is written back.
pub const SHOWN: usize = 64;

/// The set that is in force, and the second one of IGRF and IRATES. At first, each: epoch 0 and four
/// empty lists.
#[derive(Default)]
pub struct Replay {
    pub set: Set,
    pub second: Set,
    /// How many times `take` has taken a set.
    pub taken: u64,
}

fn mark_in(line: &[u8]) -> Option<usize> {
    line.windows(MARK.len()).position(|part| part == MARK)
}

impl Replay {
    /// Answers one line, given without its newline. Writes one line, with its newline.
    pub fn line(&mut self, line: &[u8], out: &mut Vec<u8>) {
        if line.len() > LONGEST {
            malformed(&line[..SHOWN], out);
            return;
        }
        match mark_in(line) {
            Some(at) => self.question(&line[..at], out),
            None if self.read_set(line) => {
                out.extend_from_slice(line);
                out.push(b'\n');
            }
            None => self.question(line, out),
        }
    }

    /// Takes the set of a SET or SET2 line, if it is one.
    fn read_set(&mut self, line: &[u8]) -> bool {
        if let Some(set) = parse_set(line) {
            self.set = set;
            return true;
        }
        if let Some(set) = parse_second_set(line) {
            self.second = set;
            return true;
        }
        false
    }

    fn question(&self, question: &[u8], out: &mut Vec<u8>) {
        match parse_case(question) {
            Some(case) => {
                out.extend_from_slice(question);
                out.extend_from_slice(MARK);
                self.put_answer(out, &case);
                out.push(b'\n');
            }
            None => malformed(question, out),
        }
    }

    /// Writes the line of a case, with its answer.
    pub fn case(&self, case: &Case, out: &mut Vec<u8>) {
        put_case(out, case);
        out.extend_from_slice(MARK);
        self.put_answer(out, case);
        out.push(b'\n');
    }

    /// Takes a set, and writes its line.
    pub fn take(&mut self, set: Set, out: &mut Vec<u8>) {
        put_set(out, &set);
        out.push(b'\n');
        self.set = set;
        self.taken += 1;
    }

    /// Takes a second set, and writes its line.
    pub fn take_second(&mut self, set: Set, out: &mut Vec<u8>) {
        put_second_set(out, &set);
        out.push(b'\n');
        self.second = set;
    }

    /// Writes the answer to a case: 0 and the result, or the refusal.
    fn put_answer(&self, out: &mut Vec<u8>, case: &Case) {
        match *case {
            Case::Dec { word } => put_word(out, number(word).map(f32::to_bits)),
            Case::Whole { word } => put_word(out, whole(word).map(|value| value as u32)),
            Case::Cof { text } => put_file(out, text),
            Case::Sread { ref stored } => put_read(out, |g, h, g_dot, h_dot| {
                read_stored(stored, g, h, g_dot, h_dot)
            }),
            Case::Swrite { room } => put_written(out, &self.set, room),
            _ => {
                let start = out.len();
                out.push(b'0');
                let result = match case {
                    Case::InProfile(asked) => asked.put_result(out, &self.set, &self.second),
                    _ => put_result(out, case, &self.set),
                };
                if let Err(refusal) = result {
                    out.truncate(start);
                    put_refusal(out, &refusal);
                }
            }
        }
    }
}

fn malformed(shown: &[u8], out: &mut Vec<u8>) {
    out.extend_from_slice(shown);
    out.extend_from_slice(MARK);
    out.extend_from_slice(MALFORMED);
    out.push(b'\n');
}

/// Writes what a word reads as: 0 and its bits, or 13, which has no line here.
fn put_word(out: &mut Vec<u8>, bits: Option<u32>) {
    match bits {
        Some(bits) => {
            out.push(b'0');
            put_hex(out, bits);
        }
        None => out.extend_from_slice(b"13"),
    }
}

/// What the lists hold before they are read into, by its bits: the largest finite f32.
const UNREAD: u32 = 0x7f7f_ffff;

/// Writes the answer to a file.
fn put_file(out: &mut Vec<u8>, text: &[u8]) {
    let newlines = |byte: &u8| if *byte == NEWLINE { b'\n' } else { *byte };
    let text: Vec<u8> = text.iter().map(newlines).collect();
    put_read(out, |g, h, g_dot, h_dot| {
        read_cof(&text, g, h, g_dot, h_dot)
    });
}

/// Writes 0 and the epoch year that was read, or the refusal; then the sum of the four lists after it.
fn put_read(
    out: &mut Vec<u8>,
    read: impl FnOnce(&mut [f32], &mut [f32], &mut [f32], &mut [f32]) -> Result<i32, Refusal>,
) {
    let mut lists = [[f32::from_bits(UNREAD); N_COEFF]; 4];
    let [g, h, g_dot, h_dot] = &mut lists;
    match read(g, h, g_dot, h_dot) {
        Ok(epoch_year) => put_word(out, Some(epoch_year as u32)),
        Err(refusal) => put_refusal(out, &refusal),
    }
    put_sum(out, lists.iter().flatten().map(|x| x.to_bits()));
}

/// What the bytes hold before a set is written.
const UNWRITTEN: u8 = 0xa5;

/// Writes 0 or the refusal of a set that is stored in this room; then the sum of the bytes after it.
fn put_written(out: &mut Vec<u8>, set: &Set, room: usize) {
    let mut bytes = vec![UNWRITTEN; room];
    let [g, h, g_dot, h_dot] = set.slices();
    match write_stored(set.epoch_year, g, h, g_dot, h_dot, &mut bytes) {
        Ok(()) => out.push(b'0'),
        Err(refusal) => put_refusal(out, &refusal),
    }
    put_sum(out, bytes.into_iter().map(u32::from));
}

/// Writes 64 bits that tell floats or bytes from others: the hash FNV-1a, taken by whole parts.
fn put_sum(out: &mut Vec<u8>, parts: impl Iterator<Item = u32>) {
    let sum = parts.fold(0xcbf2_9ce4_8422_2325_u64, |sum, part| {
        (sum ^ u64::from(part)).wrapping_mul(0x100_0000_01b3)
    });
    put_hex(out, (sum >> 32) as u32);
    put_hex(out, sum as u32);
}

fn put_result(out: &mut Vec<u8>, case: &Case, set: &Set) -> Result<(), Refusal> {
    match *case {
        Case::Sum {
            cos_theta,
            sin_theta,
            sin_lambda,
            cos_lambda,
            ratio,
            offset,
        } => {
            let (x_prime, y, z_prime) = sum(
                cos_theta, sin_theta, sin_lambda, cos_lambda, ratio, offset, &set.lists,
            )?;
            put_floats(out, &[x_prime, y, z_prime]);
        }
        Case::Field(place) => put_field(out, &place.field(set)?),
        Case::Rates(place) => put_floats(out, &rates(&place, set)?),
        Case::Epoch { year, day } => {
            let (epoch_year, offset) = epoch(year, day)?;
            put_int(out, epoch_year);
            put_float(out, offset);
        }
        Case::Str { x, y, z } => {
            let field = components([x, y, z]);
            put_float(out, horizontal(&field)?);
            put_float(out, total(&field)?);
            put_int(
                out,
                match zone(&field)? {
                    None => 0,
                    Some(WarningZone::BlackoutZone) => 1,
                    Some(WarningZone::CautionZone) => 2,
                },
            );
            put_float(out, uncertainty(&field, 2020)?);
            put_float(out, uncertainty(&field, 2025)?);
        }
        Case::Gv {
            latitude_deg,
            longitude_deg,
            declination_deg,
        } => match grid_variation(latitude_deg, longitude_deg, declination_deg)? {
            Some(value) => {
                out.extend_from_slice(b" P");
                put_float(out, value);
            }
            None => out.extend_from_slice(b" N"),
        },
        Case::Sqrt { x } => put_float(out, square_root(x)?),
        Case::Listed(ref listed) => listed.put_result(out, set)?,
        Case::InDegrees(asked) => asked.put_result(out, set)?,
        Case::Dec { .. }
        | Case::Whole { .. }
        | Case::Cof { .. }
        | Case::Sread { .. }
        | Case::Swrite { .. }
        | Case::InProfile(_) => unreachable!("put_answer answers these by itself"),
    }
    Ok(())
}

/// Writes a refusal: its number, then what it carries.
fn put_refusal(out: &mut Vec<u8>, refusal: &Refusal) {
    out.extend_from_slice(refusal.number().to_string().as_bytes());
    match *refusal {
        Refusal::Height { min_km, max_km } => put_floats(out, &[min_km, max_km]),
        Refusal::EpochYear { first, last } => {
            for part in [first.0, first.1, last.0, last.1] {
                put_int(out, part);
            }
        }
        Refusal::Coefficient { list, index } => {
            put_int(out, list as i32);
            put_int(out, index as i32);
        }
        Refusal::OtherEpoch { of_day, of_set } => {
            put_int(out, of_day);
            put_int(out, of_set);
        }
        Refusal::Malformed { line } | Refusal::OutOfOrder { line } => put_int(out, line as i32),
        Refusal::WrongTag { place }
        | Refusal::WrongLength { place }
        | Refusal::WrongEnd { place } => put_int(out, place as i32),
        _ => {}
    }
}

/// Writes the eleven floats of a field: X, Y, Z and the error figures.
pub fn put_field(out: &mut Vec<u8>, field: &GeomagneticField) {
    put_floats(out, &[field.x, field.y, field.z]);
    put_floats(out, &field.error_model.figures());
}

/// Reads a line without its newline. Keeps no more of it than tells that it is too long.
/// Gives false at the end of the input, where no line is left.
fn read_line(input: &mut impl BufRead, line: &mut Vec<u8>) -> io::Result<bool> {
    line.clear();
    let mut seen = false;
    loop {
        let buffer = input.fill_buf()?;
        if buffer.is_empty() {
            return Ok(seen);
        }
        seen = true;
        let end = buffer.iter().position(|byte| *byte == b'\n');
        let part = end.unwrap_or(buffer.len());
        let room = LONGEST + 1 - line.len();
        line.extend_from_slice(&buffer[..part.min(room)]);
        match end {
            Some(at) => {
                input.consume(at + 1);
                return Ok(true);
            }
            None => input.consume(part),
        }
    }
}

/// Answers line after line, to the end of the input.
pub fn answer(input: &mut impl BufRead, output: &mut impl Write) -> io::Result<()> {
    let mut replay = Replay::default();
    let mut line = Vec::new();
    let mut out = Vec::new();
    while read_line(input, &mut line)? {
        out.clear();
        replay.line(&line, &mut out);
        output.write_all(&out)?;
    }
    output.flush()
}
