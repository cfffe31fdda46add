//! Why a call gives no answer.
use crate::{Day, STORED_LENGTH, STORED_LENGTH_13};
use core::fmt;

/// Which of the four lists of a set, or of the second set's two that `igrf` reads.
#[derive(Copy, Clone, Debug, PartialEq, Eq)]
pub enum List {
    G,
    H,
    GDot,
    HDot,
    SecondG,
    SecondH,
}

impl fmt::Display for List {
    fn fmt(&self, f: &mut fmt::Formatter<'_>) -> fmt::Result {
        f.write_str(match self {
            List::G => "g",
            List::H => "h",
            List::GDot => "g_dot",
            List::HDot => "h_dot",
            List::SecondG => "the second set's g",
            List::SecondH => "the second set's h",
        })
    }
}

/// A refusal, with what it carries. `number` gives the number that C sees.
#[derive(Copy, Clone, Debug, PartialEq)]
pub enum Refusal {
    /// 1: the two limits, in kilometres.
    Height { min_km: f32, max_km: f32 },
    /// 2
    Latitude,
    /// 3
    Longitude,
    /// 4
    DayOfYear,
    /// 5: the first and the last day that the models serve, or the IGRF profile.
    EpochYear { first: Day, last: Day },
    /// 6: a length neither 90 nor 104, or not 90 of a set that is stored by a call for degree 12.
    Length,
    /// 7: the list and the index from 0.
    Coefficient { list: List, index: usize },
    /// 8: the epoch years of the day and of the set. For the second set of `igrf` the day's is the one
    /// five years later.
    OtherEpoch { of_day: i32, of_set: i32 },
    /// 9
    Colatitude,
    /// 10
    Ratio,
    /// 11
    Offset,
    /// 12
    Unusable,
    /// 13: the line's number, from 1.
    Malformed { line: usize },
    /// 14: the line's number, from 1.
    OutOfOrder { line: usize },
    /// 15
    NoErrorRecord,
    /// 16
    Angle,
    /// 17: the tag's place in the stored bytes, from 0.
    WrongTag { place: usize },
    /// 18: the place of the length's first byte, from 0.
    WrongLength { place: usize },
    /// 19: the number of the bytes where they are cut short, and `STORED_LENGTH` or `STORED_LENGTH_13`,
    /// by the set's degree, where bytes are left over.
    WrongEnd { place: usize },
    /// 20
    NoRoom,
    /// 21
    ZeroDivisor,
    /// 22: a rate above degree 8 is not zero, in the IGRF profile.
    RateAboveEight,
    /// 23: lists of 90 beside lists of 104, or a stored set of the other degree.
    Degree,
}

/// The places that a call lends for what a refusal carries. One that it does not lend stays 0.
#[derive(Default)]
pub(crate) struct Carried {
    pub entry: [usize; 2],
    pub years: [i32; 2],
    pub line: usize,
    pub place: usize,
}

impl Refusal {
    /// The refusal of a number that is not 0.
    #[cold]
    pub(crate) fn of(number: u32, carried: Carried) -> Refusal {
        let Carried {
            entry,
            years,
            line,
            place,
        } = carried;
        match number {
            1 => Refusal::Height {
                min_km: -1.0,
                max_km: 850.0,
            },
            2 => Refusal::Latitude,
            3 => Refusal::Longitude,
            4 => Refusal::DayOfYear,
            5 => Refusal::EpochYear {
                first: Day {
                    year: 2020,
                    day_of_year: 1,
                },
                last: Day {
                    year: 2029,
                    day_of_year: 365,
                },
            },
            6 => Refusal::Length,
            7 => Refusal::Coefficient {
                list: match entry[0] {
                    0 => List::G,
                    1 => List::H,
                    2 => List::GDot,
                    3 => List::HDot,
                    4 => List::SecondG,
                    _ => List::SecondH,
                },
                index: entry[1],
            },
            8 => Refusal::OtherEpoch {
                of_day: years[0],
                of_set: years[1],
            },
            9 => Refusal::Colatitude,
            10 => Refusal::Ratio,
            11 => Refusal::Offset,
            12 => Refusal::Unusable,
            13 => Refusal::Malformed { line },
            14 => Refusal::OutOfOrder { line },
            15 => Refusal::NoErrorRecord,
            16 => Refusal::Angle,
            17 => Refusal::WrongTag { place },
            18 => Refusal::WrongLength { place },
            19 => Refusal::WrongEnd { place },
            20 => Refusal::NoRoom,
            21 => Refusal::ZeroDivisor,
            22 => Refusal::RateAboveEight,
            _ => Refusal::Degree,
        }
    }

    /// The number, 1 to 23.
    pub fn number(&self) -> u32 {
        match self {
            Refusal::Height { .. } => 1,
            Refusal::Latitude => 2,
            Refusal::Longitude => 3,
            Refusal::DayOfYear => 4,
            Refusal::EpochYear { .. } => 5,
            Refusal::Length => 6,
            Refusal::Coefficient { .. } => 7,
            Refusal::OtherEpoch { .. } => 8,
            Refusal::Colatitude => 9,
            Refusal::Ratio => 10,
            Refusal::Offset => 11,
            Refusal::Unusable => 12,
            Refusal::Malformed { .. } => 13,
            Refusal::OutOfOrder { .. } => 14,
            Refusal::NoErrorRecord => 15,
            Refusal::Angle => 16,
            Refusal::WrongTag { .. } => 17,
            Refusal::WrongLength { .. } => 18,
            Refusal::WrongEnd { .. } => 19,
            Refusal::NoRoom => 20,
            Refusal::ZeroDivisor => 21,
            Refusal::RateAboveEight => 22,
            Refusal::Degree => 23,
        }
    }
}

impl fmt::Display for Refusal {
    fn fmt(&self, f: &mut fmt::Formatter<'_>) -> fmt::Result {
        match self {
            Refusal::Height { min_km, max_km } => {
                write!(f, "the height is not from {min_km} to {max_km} km")
            }
            Refusal::Latitude => f.write_str("the latitude is no latitude"),
            Refusal::Longitude => f.write_str("the longitude is no longitude"),
            Refusal::DayOfYear => f.write_str("that year has no such day"),
            Refusal::EpochYear { first, last } => write!(
                f,
                "no model serves that day or that epoch year: the models serve from day {} of {} to day {} of {}",
                first.day_of_year, first.year, last.day_of_year, last.year
            ),
            Refusal::Length => {
                f.write_str("a list of coefficients is not 90 long, nor 104 where that is taken")
            }
            Refusal::Coefficient { list, index } => write!(
                f,
                "the coefficient at index {index} of {list} is not finite or is too large"
            ),
            Refusal::OtherEpoch { of_day, of_set } => write!(
                f,
                "the day belongs to the epoch {of_day}, and the set to the epoch {of_set}"
            ),
            Refusal::Colatitude => f.write_str("the colatitude is no colatitude"),
            Refusal::Ratio => f.write_str("the radius ratio is not from 0.875 to 1.015625"),
            Refusal::Offset => f.write_str("the offset is not from 0 to 5 years"),
            Refusal::Unusable => f.write_str("a number cannot be used: not finite, or out of range"),
            Refusal::Malformed { line } => {
                write!(f, "line {line} is not what a coefficient file has there")
            }
            Refusal::OutOfOrder { line } => {
                write!(f, "line {line} of the coefficient file is out of order or missing")
            }
            Refusal::NoErrorRecord => {
                f.write_str("the lent list has no error record of that epoch year")
            }
            Refusal::Angle => {
                f.write_str("the angle is not finite, or not from -180 to 180 degrees")
            }
            Refusal::WrongTag { place } => {
                write!(f, "byte {place} of the stored set is not the tag that is due")
            }
            Refusal::WrongLength { place } => {
                write!(f, "the length at byte {place} of the stored set is not that of its field")
            }
            // a set of degree 12 ends there, and one of degree 13 can be cut short there
            Refusal::WrongEnd { place: place @ STORED_LENGTH } => {
                write!(f, "the stored set is cut short before byte {place}, or that byte is left over")
            }
            Refusal::WrongEnd { place } if *place < STORED_LENGTH_13 => {
                write!(f, "the stored set is cut short: it ends before byte {place}")
            }
            Refusal::WrongEnd { place } => {
                write!(f, "byte {place} is left over behind the stored set")
            }
            Refusal::NoRoom => f.write_str(
                "there is no room for the stored set, or its epoch year is not from 0 to 65535",
            ),
            Refusal::ZeroDivisor => f.write_str("there is no yearly change, since H is zero"),
            Refusal::RateAboveEight => f.write_str("a rate above degree 8 is not zero"),
            Refusal::Degree => {
                f.write_str("some lists of coefficients are 90 long, the others 104")
            }
        }
    }
}

impl core::error::Error for Refusal {}
