//! The refusals, and their numbers.

/// Why an entry gives no result. The numbers are document 01's.
#[derive(Copy, Clone, Debug, PartialEq)]
pub enum Refusal {
    /// 1: the two limits, in kilometres.
    Height { min_km: f32, max_km: f32 },
    /// 2
    Latitude,
    /// 3
    Longitude,
    /// 4
    DayOfYear,
    /// 5: the first and the last day that a set answers for, as (year, day of year).
    EpochYear { first: (i32, i32), last: (i32, i32) },
    /// 6: a length neither 90 nor 104.
    Length,
    /// 7: the list (0 g, 1 h, 2 g_dot, 3 h_dot; of a second set 4 g, 5 h) and the index from 0.
    Coefficient { list: usize, index: usize },
    /// 8: the epoch years of the day and of the set. For a second set, the year five years on and its own.
    OtherEpoch { of_day: i32, of_set: i32 },
    /// 9
    Colatitude,
    /// 10
    Ratio,
    /// 11
    Offset,
    /// 12
    Unusable,
    /// 13: the number of the line, from 1.
    Malformed { line: usize },
    /// 14: the number of the line that is out of order, or that should have been there.
    OutOfOrder { line: usize },
    /// 15
    NoErrorRecord,
    /// 16
    Angle,
    /// 17: the place of the tag in the stored bytes, from 0.
    WrongTag { place: usize },
    /// 18: the place of the length's first byte.
    WrongLength { place: usize },
    /// 19: where the bytes end too soon, or where the first byte left over stands.
    WrongEnd { place: usize },
    /// 20
    NoRoom,
    /// 21
    ZeroDivisor,
    /// 22: a rate of a degree above 8 is not zero.
    RateAboveEight,
    /// 23: lists of 90 beside lists of 104.
    Degree,
}

impl Refusal {
    /// Document 01's number.
    pub fn number(&self) -> u32 {
        match self {
            Refusal::Height { .. } => 1,
            Refusal::Latitude => 2,
            Refusal::Longitude => 3,
            Refusal::DayOfYear => 4,
            Refusal::EpochYear { .. } => 5,
            Refusal::Length => 6,
            Refusal::Coefficient { .. } => 7,
            Refusal::OtherEpoch { .. } => 8,
            Refusal::Colatitude => 9,
            Refusal::Ratio => 10,
            Refusal::Offset => 11,
            Refusal::Unusable => 12,
            Refusal::Malformed { .. } => 13,
            Refusal::OutOfOrder { .. } => 14,
            Refusal::NoErrorRecord => 15,
            Refusal::Angle => 16,
            Refusal::WrongTag { .. } => 17,
            Refusal::WrongLength { .. } => 18,
            Refusal::WrongEnd { .. } => 19,
            Refusal::NoRoom => 20,
            Refusal::ZeroDivisor => 21,
            Refusal::RateAboveEight => 22,
            Refusal::Degree => 23,
        }
    }
}
