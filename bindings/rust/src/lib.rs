//! The World Magnetic Model's numeric core, proved in Rattle. This crate is the safe Rust side of
//! the library that tools/build-library builds; include/njerumoy.h says what each call asks and
//! answers, and include/njerumoy_igrf.h so of `igrf`, `igrf_allowance` and `igrf_rates`. It needs no
//! standard library and no other crate.
//!
//! `field_in_degrees` takes a place in degrees. The other calls take an angle by its sine and cosine:
//! `sine_and_cosine` makes this `Pair` from degrees, or lend your own. `field_stored` takes the set as
//! stored bytes. `rates` gives the yearly change of what `field` gives. `igrf` is the field of the IGRF
//! profile, from 2000 to 2029, `igrf_allowance` how far rounding can have moved it, and `igrf_rates` its
//! yearly change.
#![no_std]

mod angles;
mod igrf;
mod owned;
pub mod published;
mod rates;
mod records;
mod refusal;
mod stored;
#[doc(hidden)] // for the comparison in bench/, which lends lists of every length
pub mod sys;

pub use angles::{declination, field_in_degrees, sine_and_cosine};
pub use igrf::{igrf, igrf_allowance, igrf_rates, IgrfField};
pub use owned::{OwnedSet, OwnedSet13, LIST_LENGTH, LIST_LENGTH_13};
pub use rates::{rates, Rates};
pub use records::{field_listed, ErrorRecord, Errors};
use refusal::Carried;
pub use refusal::{List, Refusal};
pub use stored::{
    field_stored, field_stored_either, EitherSet, StoredSet, STORED_LENGTH, STORED_LENGTH_13,
};

/// Sine and cosine of one angle.
#[derive(Copy, Clone, Debug, PartialEq)]
pub struct Pair {
    pub sin: f32,
    pub cos: f32,
}

/// A day: a year, and the day of that year from 1.
#[derive(Copy, Clone, Debug, PartialEq, Eq)]
pub struct Day {
    pub year: i32,
    pub day_of_year: i32,
}

/// A coefficient set: its epoch year, and four lists of 90, for degree 12, or of 104, for degree 13. The
/// coefficient of degree n and order m stands at n (n + 1) / 2 + m - 1. Lists of other lengths are
/// refused, and so are lists of both.
#[derive(Copy, Clone, Debug)]
pub struct Set<'a> {
    pub epoch_year: i32,
    /// Coefficients [nT].
    pub g: &'a [f32],
    pub h: &'a [f32],
    /// Their rates [nT a year].
    pub g_dot: &'a [f32],
    pub h_dot: &'a [f32],
}

/// The field at a place and a day [nT], with the epoch year of the model that answered and its error
/// figures: those that are built in, or those of a lent list.
#[derive(Copy, Clone, Debug, PartialEq)]
pub struct Field {
    /// North.
    pub x: f32,
    /// East.
    pub y: f32,
    /// Down.
    pub z: f32,
    /// The epoch year of the set, which is that of the day: 2020 or 2025.
    pub epoch_year: i32,
    pub errors: Errors,
}

/// How far X, Y and Z of `field` or of `igrf` can lie from the exact field of the same question [nT].
#[derive(Copy, Clone, Debug, PartialEq)]
pub struct Allowances {
    pub x: f32,
    pub y: f32,
    pub z: f32,
}

/// X', Y and Z' of `sum` [nT]: X' south, Y east, Z' up, along the geocentric axes.
#[derive(Copy, Clone, Debug, PartialEq)]
pub struct Sums {
    pub x: f32,
    pub y: f32,
    pub z: f32,
}

/// The epoch year of a day, and the years since then.
#[derive(Copy, Clone, Debug, PartialEq)]
pub struct Epoch {
    pub year: i32,
    pub offset: f32,
}

/// Where the declination is not to be trusted.
#[derive(Copy, Clone, Debug, PartialEq, Eq)]
pub enum Zone {
    /// H below 2000 nT.
    Blackout,
    /// H from 2000 nT on and below 6000 nT.
    Caution,
}

/// The refusal of a call that lends no place for what a refusal carries.
#[inline]
fn checked(number: u32) -> Result<(), Refusal> {
    match number {
        0 => Ok(()),
        _ => Err(Refusal::of(number, Carried::default())),
    }
}

/// The field at a height [m], a geodetic latitude, a longitude and a day. Refusals 1, 2, 3, 4, 5, 6,
/// 23, 7, 8.
///
/// Within about 6.4 km of a pole, where the sine of the geocentric colatitude is below the f32 1e-3 in
/// size, orders 2 and above are left out, as in the crate world_magnetic_model: with the published
/// sets that is up to 11 nT in X and Y, which `allowance` does not count.
#[inline]
pub fn field(
    height: f32,
    latitude: Pair,
    longitude: Pair,
    day: Day,
    set: &Set,
) -> Result<Field, Refusal> {
    let (mut xyz, mut errors) = ([0.0; 3], [0.0; 8]);
    let mut carried = Carried::default();
    // SAFETY: each pointer and length are those of one slice, and the places are locals.
    let number = unsafe {
        sys::njerumoy_field(
            height,
            latitude.sin,
            latitude.cos,
            longitude.sin,
            longitude.cos,
            day.year,
            day.day_of_year,
            set.epoch_year,
            set.g.as_ptr(),
            set.g.len(),
            set.h.as_ptr(),
            set.h.len(),
            set.g_dot.as_ptr(),
            set.g_dot.len(),
            set.h_dot.as_ptr(),
            set.h_dot.len(),
            &mut xyz,
            &mut errors,
            &mut carried.entry,
            &mut carried.years,
        )
    };
    match number {
        0 => Ok(Field::of(set.epoch_year, xyz, errors)),
        _ => Err(Refusal::of(number, carried)),
    }
}

/// How far X, Y and Z of `field` can lie from the exact field, for the same question: each number is
/// at least the proved bound of the distance, and at most 1.01 times as much. The model's own error is
/// not in it. Refusals as those of `field`.
#[inline]
pub fn allowance(
    height: f32,
    latitude: Pair,
    longitude: Pair,
    day: Day,
    set: &Set,
) -> Result<Allowances, Refusal> {
    let mut xyz = [0.0; 3];
    let mut carried = Carried::default();
    // SAFETY: each pointer and length are those of one slice, and the places are locals.
    let number = unsafe {
        sys::njerumoy_allowance(
            height,
            latitude.sin,
            latitude.cos,
            longitude.sin,
            longitude.cos,
            day.year,
            day.day_of_year,
            set.epoch_year,
            set.g.as_ptr(),
            set.g.len(),
            set.h.as_ptr(),
            set.h.len(),
            set.g_dot.as_ptr(),
            set.g_dot.len(),
            set.h_dot.as_ptr(),
            set.h_dot.len(),
            &mut xyz,
            &mut carried.entry,
            &mut carried.years,
        )
    };
    if number != 0 {
        return Err(Refusal::of(number, carried));
    }
    Ok(Allowances {
        x: xyz[0],
        y: xyz[1],
        z: xyz[2],
    })
}

/// The sums over degree and order at a geocentric colatitude, a longitude, a radius ratio and an
/// offset in years from the set's epoch. Refusals 9, 3, 10, 11, 6, 23, 7. The set's year is not asked.
#[inline]
pub fn sum(
    colatitude: Pair,
    longitude: Pair,
    ratio: f32,
    offset: f32,
    set: &Set,
) -> Result<Sums, Refusal> {
    let mut xyz = [0.0; 3];
    let mut carried = Carried::default();
    // SAFETY: each pointer and length are those of one slice, and the places are locals.
    let number = unsafe {
        sys::njerumoy_sum(
            colatitude.cos,
            colatitude.sin,
            longitude.sin,
            longitude.cos,
            ratio,
            offset,
            set.g.as_ptr(),
            set.g.len(),
            set.h.as_ptr(),
            set.h.len(),
            set.g_dot.as_ptr(),
            set.g_dot.len(),
            set.h_dot.as_ptr(),
            set.h_dot.len(),
            &mut xyz,
            &mut carried.entry,
        )
    };
    if number != 0 {
        return Err(Refusal::of(number, carried));
    }
    Ok(Sums {
        x: xyz[0],
        y: xyz[1],
        z: xyz[2],
    })
}

/// The epoch of a day. Refusals 4, 5.
#[inline]
pub fn epoch(day: Day) -> Result<Epoch, Refusal> {
    let (mut year, mut offset) = (0, 0.0);
    // SAFETY: the places are two locals.
    checked(unsafe { sys::njerumoy_epoch(day.year, day.day_of_year, &mut year, &mut offset) })?;
    Ok(Epoch { year, offset })
}

impl Field {
    #[inline]
    fn of(epoch_year: i32, [x, y, z]: [f32; 3], errors: [f32; 8]) -> Field {
        Field {
            x,
            y,
            z,
            epoch_year,
            errors: Errors::of(errors),
        }
    }

    /// The horizontal strength H [nT]. Refusal 12.
    #[inline]
    pub fn h(&self) -> Result<f32, Refusal> {
        let mut h = 0.0;
        // SAFETY: the place is a local. So it is in the three functions below.
        checked(unsafe { sys::njerumoy_horizontal(self.x, self.y, self.z, &mut h) })?;
        Ok(h)
    }

    /// The total strength F [nT]. Refusal 12.
    #[inline]
    pub fn f(&self) -> Result<f32, Refusal> {
        let mut f = 0.0;
        checked(unsafe { sys::njerumoy_total(self.x, self.y, self.z, &mut f) })?;
        Ok(f)
    }

    /// The warning zone, if there is one. Refusal 12.
    #[inline]
    pub fn zone(&self) -> Result<Option<Zone>, Refusal> {
        let mut zone = 0;
        checked(unsafe { sys::njerumoy_zone(self.x, self.y, self.z, &mut zone) })?;
        Ok(match zone {
            1 => Some(Zone::Blackout),
            2 => Some(Zone::Caution),
            _ => None,
        })
    }

    /// The uncertainty of the declination [degrees], by the built-in figures of the field's own epoch
    /// year; `declination_uncertainty_listed` takes those of a lent list. Those of another edition are
    /// asked only by writing its year: `Field { epoch_year, ..field }`. Refusals 5, 12; a field that
    /// `field` gave meets neither.
    #[inline]
    pub fn declination_uncertainty(&self) -> Result<f32, Refusal> {
        let mut uncertainty = 0.0;
        checked(unsafe {
            sys::njerumoy_declination_uncertainty(
                self.x,
                self.y,
                self.z,
                self.epoch_year,
                &mut uncertainty,
            )
        })?;
        Ok(uncertainty)
    }
}

/// Grid variation [degrees], above -180 and up to 180, or none between 55 degrees south and 55 north.
/// Due south is 180 and never -180. Refusals 2, 3, 12.
#[inline]
pub fn grid_variation(
    latitude_deg: f32,
    longitude_deg: f32,
    declination_deg: f32,
) -> Result<Option<f32>, Refusal> {
    let (mut given, mut variation) = (0, 0.0);
    // SAFETY: the places are two locals.
    checked(unsafe {
        sys::njerumoy_grid_variation(
            latitude_deg,
            longitude_deg,
            declination_deg,
            &mut given,
            &mut variation,
        )
    })?;
    Ok((given == 1).then_some(variation))
}

/// The correctly rounded square root. Refusal 12 for a NaN and for a number below zero.
#[inline]
pub fn square_root(x: f32) -> Result<f32, Refusal> {
    let mut root = 0.0;
    // SAFETY: the place is a local.
    checked(unsafe { sys::njerumoy_square_root(x, &mut root) })?;
    Ok(root)
}
