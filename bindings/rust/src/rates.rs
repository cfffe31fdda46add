//! The yearly change of a field.
use crate::refusal::{Carried, Refusal};
use crate::{sys, Day, Pair, Set};

/// The yearly change of the field at a place, on a day. Each number is finite.
#[derive(Copy, Clone, Debug, PartialEq)]
pub struct Rates {
    /// Of X, north [nT a year]. X, Y and Z change by the same on every day from one epoch to the next.
    pub x: f32,
    /// Of Y, east [nT a year].
    pub y: f32,
    /// Of Z, down [nT a year].
    pub z: f32,
    /// Of the declination [degrees a year].
    pub declination: f32,
    /// Of the inclination [degrees a year].
    pub inclination: f32,
    /// Of the horizontal strength [nT a year].
    pub h: f32,
    /// Of the total strength [nT a year].
    pub f: f32,
}

/// The yearly change of the field, for the same question as that of `field`: to bring an old sheet
/// forward. Refusals 1, 2, 3, 4, 5, 6, 23, 7, 8 as those of `field`; then 21, exactly where H of the
/// field is zero.
///
/// Those of X, Y and Z are what `field` works out of the set's rates in the place of its coefficients.
/// Near a pole orders 2 and above are left out of them, as of the field: with the published sets that
/// is up to 0.07 nT a year in X and Y. include/njerumoy.h says how near they are to the exact ones, and
/// how the other four follow from them.
#[inline]
pub fn rates(
    height: f32,
    latitude: Pair,
    longitude: Pair,
    day: Day,
    set: &Set,
) -> Result<Rates, Refusal> {
    let mut rates = [0.0; 7];
    let mut carried = Carried::default();
    // SAFETY: each pointer and length are those of one slice, and the places are locals.
    let number = unsafe {
        sys::njerumoy_rates(
            height,
            latitude.sin,
            latitude.cos,
            longitude.sin,
            longitude.cos,
            day.year,
            day.day_of_year,
            set.epoch_year,
            set.g.as_ptr(),
            set.g.len(),
            set.h.as_ptr(),
            set.h.len(),
            set.g_dot.as_ptr(),
            set.g_dot.len(),
            set.h_dot.as_ptr(),
            set.h_dot.len(),
            &mut rates,
            &mut carried.entry,
            &mut carried.years,
        )
    };
    match number {
        0 => Ok(Rates::of(rates)),
        _ => Err(Refusal::of(number, carried)),
    }
}

impl Rates {
    /// In the order in which the library writes them.
    #[inline]
    pub(crate) fn of([x, y, z, declination, inclination, h, f]: [f32; 7]) -> Rates {
        Rates {
            x,
            y,
            z,
            declination,
            inclination,
            h,
            f,
        }
    }
}
