//! The case lines: reading and writing. README.md has the whole rule.
//! A float is the 8 hex digits of its bits. Years, days, epochs and counts are decimal.
use crate::degrees::InDegrees;
use crate::entries::{Place, Set};
use crate::listed::Listed;
use crate::profile::InProfile;

/// The mark between a question and its answer.
pub const MARK: &[u8] = b" = ";
/// The answer to a line that cannot be read.
pub const MALFORMED: &[u8] = b"malformed";
/// The longest list that a SET line can say.
pub const MAX_COUNT: usize = 128;
/// The most digits of a list's length, and of a room.
pub const COUNT_DIGITS: usize = 3;
const ROOM_DIGITS: usize = 4;

/// The most bytes of a stored set that a line can say, or ask room for.
pub const MAX_STORED: usize = 4000;

/// The byte that stands for a newline in the text of a COF line.
pub const NEWLINE: u8 = b';';

/// One question.
#[derive(Clone, Debug, PartialEq)]
pub enum Case<'a> {
    Sum {
        cos_theta: f32,
        sin_theta: f32,
        sin_lambda: f32,
        cos_lambda: f32,
        ratio: f32,
        offset: f32,
    },
    Field(Place),
    Rates(Place),
    Epoch {
        year: i32,
        day: i32,
    },
    Str {
        x: f32,
        y: f32,
        z: f32,
    },
    Gv {
        latitude_deg: f32,
        longitude_deg: f32,
        declination_deg: f32,
    },
    Sqrt {
        x: f32,
    },
    Dec {
        word: &'a [u8],
    },
    Whole {
        word: &'a [u8],
    },
    /// A file, as it stands in the line.
    Cof {
        text: &'a [u8],
    },
    /// A stored set.
    Sread {
        stored: Vec<u8>,
    },
    /// So many bytes for the set in force.
    Swrite {
        room: usize,
    },
    /// FLIST or ULIST.
    Listed(Listed),
    /// TRIG, DECL, DIR or FDEG.
    InDegrees(InDegrees),
    /// IGRF or IRATES.
    InProfile(InProfile),
}

/// The words of a line. Exactly one space stands between two words.
pub struct Words<'a> {
    /// What is left; `None` after the last word.
    rest: Option<&'a [u8]>,
}

impl<'a> Words<'a> {
    fn of(text: &'a [u8]) -> Words<'a> {
        Words { rest: Some(text) }
    }

    fn word(&mut self) -> Option<&'a [u8]> {
        let text = self.rest?;
        match text.iter().position(|byte| *byte == b' ') {
            Some(at) => {
                self.rest = Some(&text[at + 1..]);
                Some(&text[..at])
            }
            None => {
                self.rest = None;
                Some(text)
            }
        }
    }

    /// A word that is not empty.
    fn some_word(&mut self) -> Option<&'a [u8]> {
        self.word().filter(|word| !word.is_empty())
    }

    /// All that is left, spaces too, if there was a space before it.
    fn rest(&mut self) -> Option<&'a [u8]> {
        self.rest.take()
    }

    /// Exactly 8 hex digits, small or capital.
    pub fn float(&mut self) -> Option<f32> {
        let word = self.word()?;
        if word.len() != 8 {
            return None;
        }
        let mut bits = 0;
        for byte in word {
            bits = bits * 16 + char::from(*byte).to_digit(16)?;
        }
        Some(f32::from_bits(bits))
    }

    /// 1 to 10 digits after an optional '-', in the range of i32.
    pub fn int(&mut self) -> Option<i32> {
        let word = self.word()?;
        let (minus, digits) = match word.strip_prefix(b"-") {
            Some(digits) => (true, digits),
            None => (false, word),
        };
        let size = decimal(digits, 10)?;
        i32::try_from(if minus { -size } else { size }).ok()
    }

    /// 1 to `digits` digits, 0 to `most`.
    pub fn count(&mut self, digits: usize, most: usize) -> Option<usize> {
        let count = decimal(self.word()?, digits)? as usize;
        Some(count).filter(|count| *count <= most)
    }

    /// 0 to 4000 bytes, each of two hex digits, small or capital.
    fn stored(&mut self) -> Option<Vec<u8>> {
        let word = self.word()?;
        if word.len() % 2 != 0 || word.len() > 2 * MAX_STORED {
            return None;
        }
        let digit = |byte: u8| char::from(byte).to_digit(16);
        let byte = |pair: &[u8]| Some((digit(pair[0])? * 16 + digit(pair[1])?) as u8);
        word.chunks_exact(2).map(byte).collect()
    }

    fn list(&mut self) -> Option<Vec<f32>> {
        let count = self.count(COUNT_DIGITS, MAX_COUNT)?;
        (0..count).map(|_| self.float()).collect()
    }

    /// The seven words of a place and a day.
    pub fn place(&mut self) -> Option<Place> {
        Some(Place {
            height: self.float()?,
            sin_phi: self.float()?,
            cos_phi: self.float()?,
            sin_lambda: self.float()?,
            cos_lambda: self.float()?,
            year: self.int()?,
            day: self.int()?,
        })
    }

    /// The value, if no word is left.
    fn end<T>(&self, value: T) -> Option<T> {
        match self.rest {
            None => Some(value),
            Some(_) => None,
        }
    }
}

/// The value of 1 to `most` decimal digits.
fn decimal(digits: &[u8], most: usize) -> Option<i64> {
    if digits.is_empty() || digits.len() > most {
        return None;
    }
    let mut value = 0;
    for byte in digits {
        value = value * 10 + i64::from(char::from(*byte).to_digit(10)?);
    }
    Some(value)
}

/// Reads a question: a line up to its mark.
pub fn parse_case(question: &[u8]) -> Option<Case<'_>> {
    let mut words = Words::of(question);
    let case = match words.word()? {
        b"SUM" => Case::Sum {
            cos_theta: words.float()?,
            sin_theta: words.float()?,
            sin_lambda: words.float()?,
            cos_lambda: words.float()?,
            ratio: words.float()?,
            offset: words.float()?,
        },
        b"FIELD" => Case::Field(words.place()?),
        b"RATES" => Case::Rates(words.place()?),
        b"EPOCH" => Case::Epoch {
            year: words.int()?,
            day: words.int()?,
        },
        b"STR" => Case::Str {
            x: words.float()?,
            y: words.float()?,
            z: words.float()?,
        },
        b"GV" => Case::Gv {
            latitude_deg: words.float()?,
            longitude_deg: words.float()?,
            declination_deg: words.float()?,
        },
        b"SQRT" => Case::Sqrt { x: words.float()? },
        b"DEC" => Case::Dec {
            word: words.some_word()?,
        },
        b"WHOLE" => Case::Whole {
            word: words.some_word()?,
        },
        b"COF" => Case::Cof {
            text: words.rest()?,
        },
        b"SREAD" => Case::Sread {
            stored: words.stored()?,
        },
        b"SWRITE" => Case::Swrite {
            room: words.count(ROOM_DIGITS, MAX_STORED)?,
        },
        b"FLIST" => Case::Listed(Listed::field(&mut words)?),
        b"ULIST" => Case::Listed(Listed::uncertainty(&mut words)?),
        b"IGRF" => Case::InProfile(InProfile::Field(words.place()?)),
        b"IRATES" => Case::InProfile(InProfile::Rates(words.place()?)),
        name => Case::InDegrees(InDegrees::read(name, &mut words)?),
    };
    words.end(case)
}

/// Reads a SET line. It has no mark.
pub fn parse_set(line: &[u8]) -> Option<Set> {
    parse_set_by(b"SET", line)
}

/// Reads a SET2 line, the same by its other name.
pub fn parse_second_set(line: &[u8]) -> Option<Set> {
    parse_set_by(b"SET2", line)
}

fn parse_set_by(name: &[u8], line: &[u8]) -> Option<Set> {
    let mut words = Words::of(line);
    if words.word()? != name {
        return None;
    }
    let set = Set {
        epoch_year: words.int()?,
        lists: [words.list()?, words.list()?, words.list()?, words.list()?],
    };
    words.end(set)
}

/// Writes two hex digits a byte.
fn put_bytes(out: &mut Vec<u8>, bytes: &[u8]) {
    const DIGITS: &[u8; 16] = b"0123456789abcdef";
    for byte in bytes {
        out.push(DIGITS[usize::from(byte >> 4)]);
        out.push(DIGITS[usize::from(byte & 15)]);
    }
}

/// Writes a space and 8 hex digits.
pub fn put_hex(out: &mut Vec<u8>, bits: u32) {
    out.push(b' ');
    put_bytes(out, &bits.to_be_bytes());
}

/// Writes a space and the 8 hex digits of a float.
pub fn put_float(out: &mut Vec<u8>, x: f32) {
    put_hex(out, x.to_bits());
}

/// Writes a space and a decimal number.
pub fn put_int(out: &mut Vec<u8>, value: i32) {
    out.push(b' ');
    out.extend_from_slice(value.to_string().as_bytes());
}

/// Writes each float of a list.
pub fn put_floats(out: &mut Vec<u8>, floats: &[f32]) {
    for x in floats {
        put_float(out, *x);
    }
}

/// Writes a question, with no mark.
pub fn put_case(out: &mut Vec<u8>, case: &Case) {
    match *case {
        Case::Sum {
            cos_theta,
            sin_theta,
            sin_lambda,
            cos_lambda,
            ratio,
            offset,
        } => {
            out.extend_from_slice(b"SUM");
            put_floats(out, &[cos_theta, sin_theta, sin_lambda, cos_lambda]);
            put_floats(out, &[ratio, offset]);
        }
        Case::Field(place) => put_place(out, b"FIELD", &place),
        Case::Rates(place) => put_place(out, b"RATES", &place),
        Case::Epoch { year, day } => {
            out.extend_from_slice(b"EPOCH");
            put_int(out, year);
            put_int(out, day);
        }
        Case::Str { x, y, z } => {
            out.extend_from_slice(b"STR");
            put_floats(out, &[x, y, z]);
        }
        Case::Gv {
            latitude_deg,
            longitude_deg,
            declination_deg,
        } => {
            out.extend_from_slice(b"GV");
            put_floats(out, &[latitude_deg, longitude_deg, declination_deg]);
        }
        Case::Sqrt { x } => {
            out.extend_from_slice(b"SQRT");
            put_float(out, x);
        }
        Case::Dec { word } => put_text(out, b"DEC ", word),
        Case::Whole { word } => put_text(out, b"WHOLE ", word),
        Case::Cof { text } => put_text(out, b"COF ", text),
        Case::Sread { ref stored } => {
            out.extend_from_slice(b"SREAD ");
            put_bytes(out, stored);
        }
        Case::Swrite { room } => {
            out.extend_from_slice(b"SWRITE");
            put_int(out, room as i32);
        }
        Case::Listed(ref listed) => listed.put(out),
        Case::InDegrees(asked) => asked.put(out),
        Case::InProfile(asked) => asked.put(out),
    }
}

/// Writes the name of a line, and the seven words of a place and a day.
pub fn put_place(out: &mut Vec<u8>, name: &[u8], place: &Place) {
    out.extend_from_slice(name);
    put_floats(out, &[place.height, place.sin_phi, place.cos_phi]);
    put_floats(out, &[place.sin_lambda, place.cos_lambda]);
    put_int(out, place.year);
    put_int(out, place.day);
}

fn put_text(out: &mut Vec<u8>, name: &[u8], text: &[u8]) {
    out.extend_from_slice(name);
    out.extend_from_slice(text);
}

/// Writes a SET line, with no newline.
pub fn put_set(out: &mut Vec<u8>, set: &Set) {
    put_set_by(out, b"SET", set);
}

/// Writes a SET2 line, with no newline.
pub fn put_second_set(out: &mut Vec<u8>, set: &Set) {
    put_set_by(out, b"SET2", set);
}

fn put_set_by(out: &mut Vec<u8>, name: &[u8], set: &Set) {
    out.extend_from_slice(name);
    put_int(out, set.epoch_year);
    for list in &set.lists {
        put_int(out, list.len() as i32);
        put_floats(out, list);
    }
}
