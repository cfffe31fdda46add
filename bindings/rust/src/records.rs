//! Error figures, and lists of them that a caller lends.
use crate::refusal::{Carried, Refusal};
use crate::{checked, sys, Day, Field, Pair, Set};

/// The error figures of a model: strengths in nT, the inclination in degrees. The declination's
/// error is the root of the squares of sigma_c and sigma_v / H.
#[repr(C)] // a part of `ErrorRecord`
#[derive(Copy, Clone, Debug, Default, PartialEq)]
pub struct Errors {
    pub declination_sigma_c: f32,
    pub declination_sigma_v: f32,
    pub inclination: f32,
    pub f: f32,
    pub h: f32,
    pub x: f32,
    pub y: f32,
    pub z: f32,
}

impl Errors {
    /// In the order in which the library writes them.
    #[inline]
    pub(crate) fn of(errors: [f32; 8]) -> Errors {
        let [declination_sigma_c, declination_sigma_v, inclination, f, h, x, y, z] = errors;
        Errors {
            declination_sigma_c,
            declination_sigma_v,
            inclination,
            f,
            h,
            x,
            y,
            z,
        }
    }
}

/// The error figures of one epoch year. The library reads lists of it as they stand in memory.
#[repr(C)]
#[derive(Copy, Clone, Debug, Default, PartialEq)]
pub struct ErrorRecord {
    pub epoch_year: i32,
    pub figures: Errors,
}

/// As `field`, with the error figures of the first record of the day's epoch year in a lent list: so a
/// new edition of them needs no new library. Refusals 1, 2, 3, 4, 5, 6, 23, 7, 8 as those of `field`;
/// then 15; then 12 where one of the eight figures of that record is not finite or is below zero (-0 is
/// not). The figures of other records are not looked at.
#[inline]
pub fn field_listed(
    height: f32,
    latitude: Pair,
    longitude: Pair,
    day: Day,
    set: &Set,
    records: &[ErrorRecord],
) -> Result<Field, Refusal> {
    let (mut xyz, mut errors) = ([0.0; 3], [0.0; 8]);
    let mut carried = Carried::default();
    // SAFETY: each pointer and length are those of one slice, and the places are locals.
    let number = unsafe {
        sys::njerumoy_field_listed(
            height,
            latitude.sin,
            latitude.cos,
            longitude.sin,
            longitude.cos,
            day.year,
            day.day_of_year,
            set.epoch_year,
            set.g.as_ptr(),
            set.g.len(),
            set.h.as_ptr(),
            set.h.len(),
            set.g_dot.as_ptr(),
            set.g_dot.len(),
            set.h_dot.as_ptr(),
            set.h_dot.len(),
            records.as_ptr(),
            records.len(),
            &mut xyz,
            &mut errors,
            &mut carried.entry,
            &mut carried.years,
        )
    };
    match number {
        0 => Ok(Field::of(set.epoch_year, xyz, errors)),
        _ => Err(Refusal::of(number, carried)),
    }
}

impl Field {
    /// The uncertainty of the declination [degrees], by the first record of the field's own epoch year
    /// in a lent list. Any year may be written into the field. Refusals 15, then 12 by a figure of that
    /// record or a component; a field that `field_listed` gave meets neither with the same list.
    #[inline]
    pub fn declination_uncertainty_listed(&self, records: &[ErrorRecord]) -> Result<f32, Refusal> {
        let mut uncertainty = 0.0;
        // SAFETY: the pointer and the length are those of one slice, and the place is a local.
        checked(unsafe {
            sys::njerumoy_declination_uncertainty_listed(
                self.x,
                self.y,
                self.z,
                self.epoch_year,
                records.as_ptr(),
                records.len(),
                &mut uncertainty,
            )
        })?;
        Ok(uncertainty)
    }
}
