//! The case lines IGRF and IRATES: questions of the IGRF profile, with the set in force and the second
//! set. README.md has the forms.
use crate::entries::{Place, Refusal, Set};
use crate::format::{put_floats, put_place};
use crate::igrf::{igrf, igrf_rates};

/// One question.
#[derive(Copy, Clone, Debug, PartialEq)]
pub enum InProfile {
    /// IGRF: X, Y and Z.
    Field(Place),
    /// IRATES: the yearly rates.
    Rates(Place),
}

impl InProfile {
    /// The place and the day.
    pub fn place(&self) -> &Place {
        match self {
            InProfile::Field(place) | InProfile::Rates(place) => place,
        }
    }

    /// Writes the question, with no mark.
    pub fn put(&self, out: &mut Vec<u8>) {
        match self {
            InProfile::Field(place) => put_place(out, b"IGRF", place),
            InProfile::Rates(place) => put_place(out, b"IRATES", place),
        }
    }

    /// Writes the floats of the answer.
    pub fn put_result(&self, out: &mut Vec<u8>, first: &Set, second: &Set) -> Result<(), Refusal> {
        match self {
            InProfile::Field(place) => put_floats(out, &igrf(place, first, second)?),
            InProfile::Rates(place) => put_floats(out, &igrf_rates(place, first, second)?),
        }
        Ok(())
    }
}
