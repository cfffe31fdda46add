//! The case lines TRIG, DECL, DIR and FDEG: questions with angles in degrees. README.md has the
//! forms. All that reads, writes and answers them stands here.
use crate::angles::{declination, field_declination, inclination, sine_and_cosine, DegreePlace};
use crate::entries::{components, Refusal, Set};
use crate::format::{put_float, put_floats, put_int, Words};
use crate::replay::put_field;

/// One question.
#[derive(Copy, Clone, Debug, PartialEq)]
pub enum InDegrees {
    /// TRIG: the sine and the cosine of an angle.
    Trig { degrees: f32 },
    /// DECL: the declination of two components.
    Decl { x: f32, y: f32 },
    /// DIR: the declination and the inclination of a field of these components, X, Y and Z.
    Dir { xyz: [f32; 3] },
    /// FDEG: Field in degrees, with the set in force.
    Fdeg(DegreePlace),
}

impl InDegrees {
    /// Reads what follows the name of a line.
    pub fn read(name: &[u8], words: &mut Words) -> Option<InDegrees> {
        Some(match name {
            b"TRIG" => InDegrees::Trig {
                degrees: words.float()?,
            },
            b"DECL" => InDegrees::Decl {
                x: words.float()?,
                y: words.float()?,
            },
            b"DIR" => InDegrees::Dir {
                xyz: [words.float()?, words.float()?, words.float()?],
            },
            b"FDEG" => InDegrees::Fdeg(DegreePlace {
                height: words.float()?,
                latitude_deg: words.float()?,
                longitude_deg: words.float()?,
                year: words.int()?,
                day: words.int()?,
            }),
            _ => return None,
        })
    }

    /// Writes the question, with no mark.
    pub fn put(&self, out: &mut Vec<u8>) {
        match *self {
            InDegrees::Trig { degrees } => {
                out.extend_from_slice(b"TRIG");
                put_float(out, degrees);
            }
            InDegrees::Decl { x, y } => {
                out.extend_from_slice(b"DECL");
                put_floats(out, &[x, y]);
            }
            InDegrees::Dir { xyz } => {
                out.extend_from_slice(b"DIR");
                put_floats(out, &xyz);
            }
            InDegrees::Fdeg(place) => {
                out.extend_from_slice(b"FDEG");
                put_floats(
                    out,
                    &[place.height, place.latitude_deg, place.longitude_deg],
                );
                put_int(out, place.year);
                put_int(out, place.day);
            }
        }
    }

    /// Writes the floats of the answer.
    pub fn put_result(&self, out: &mut Vec<u8>, set: &Set) -> Result<(), Refusal> {
        match *self {
            InDegrees::Trig { degrees } => {
                let (sine, cosine) = sine_and_cosine(degrees)?;
                put_floats(out, &[sine, cosine]);
            }
            InDegrees::Decl { x, y } => put_float(out, declination(x, y)?),
            InDegrees::Dir { xyz } => {
                let field = components(xyz);
                put_floats(out, &[field_declination(&field)?, inclination(&field)?]);
            }
            InDegrees::Fdeg(place) => put_field(out, &place.field(set)?),
        }
        Ok(())
    }
}
