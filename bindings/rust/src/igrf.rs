//! The IGRF profile.
use crate::refusal::{Carried, Refusal};
use crate::{sys, Allowances, Day, Errors, Field, Pair, Rates, Set, Zone};

/// The field at a place, on a day of the profile [nT]. The profile has no error figures.
#[derive(Copy, Clone, Debug, PartialEq)]
pub struct IgrfField {
    /// North.
    pub x: f32,
    /// East.
    pub y: f32,
    /// Down.
    pub z: f32,
}

/// The strengths that need no error figures. Each has refusal 12 alone, which a field that `igrf` gave never
/// meets.
impl IgrfField {
    /// The horizontal strength H [nT].
    #[inline]
    pub fn h(&self) -> Result<f32, Refusal> {
        self.bare().h()
    }

    /// The total strength F [nT].
    #[inline]
    pub fn f(&self) -> Result<f32, Refusal> {
        self.bare().f()
    }

    /// The warning zone, if there is one.
    #[inline]
    pub fn zone(&self) -> Result<Option<Zone>, Refusal> {
        self.bare().zone()
    }

    /// The declination [degrees], as that of `Field`.
    #[inline]
    pub fn declination(&self) -> Result<f32, Refusal> {
        self.bare().declination()
    }

    /// The inclination [degrees], as that of `Field`.
    #[inline]
    pub fn inclination(&self) -> Result<f32, Refusal> {
        self.bare().inclination()
    }

    /// The record of the three. Its year and its figures are read by nothing above.
    #[inline]
    fn bare(&self) -> Field {
        Field {
            x: self.x,
            y: self.y,
            z: self.z,
            epoch_year: 0,
            errors: Errors::default(),
        }
    }
}

/// An entry of the profile for C: the question, N numbers of the answer, and what a refusal carries.
type Entry<const N: usize> = unsafe extern "C" fn(
    f32,
    f32,
    f32,
    f32,
    f32,
    i32,
    i32,
    i32,
    *const f32,
    usize,
    *const f32,
    usize,
    *const f32,
    usize,
    *const f32,
    usize,
    i32,
    *const f32,
    usize,
    *const f32,
    usize,
    &mut [f32; N],
    &mut [usize; 2],
    &mut [i32; 2],
) -> u32;

/// What an entry answers: all of them are asked the same.
#[inline]
fn ask<const N: usize>(
    entry: Entry<N>,
    height: f32,
    latitude: Pair,
    longitude: Pair,
    day: Day,
    first: &Set,
    second: &Set,
) -> Result<[f32; N], Refusal> {
    let mut answer = [0.0; N];
    let mut carried = Carried::default();
    // SAFETY: each pointer and length are those of one slice, and the places are locals.
    let number = unsafe {
        entry(
            height,
            latitude.sin,
            latitude.cos,
            longitude.sin,
            longitude.cos,
            day.year,
            day.day_of_year,
            first.epoch_year,
            first.g.as_ptr(),
            first.g.len(),
            first.h.as_ptr(),
            first.h.len(),
            first.g_dot.as_ptr(),
            first.g_dot.len(),
            first.h_dot.as_ptr(),
            first.h_dot.len(),
            second.epoch_year,
            second.g.as_ptr(),
            second.g.len(),
            second.h.as_ptr(),
            second.h.len(),
            &mut answer,
            &mut carried.entry,
            &mut carried.years,
        )
    };
    match number {
        0 => Ok(answer),
        _ => Err(refused(number, carried)),
    }
}

/// The field of the IGRF profile at a height [m], a geodetic latitude, a longitude and a day from 2000
/// to 2029. Refusals 1, 2, 3, 4, 5, 6, 23, 22, 7, 8.
///
/// `first` is the set of the last epoch up to the day, `second` that of five years later. Before 2025
/// each coefficient lies between those of the two, and the rates of `first` are not looked at; from
/// 2025 on `first` is asked alone, and its rates above degree 8 must be zero. The rates of `second` are
/// never looked at. What is not looked at may be of any length.
///
/// Near a pole orders 2 and above are left out, as of `field`.
#[inline]
pub fn igrf(
    height: f32,
    latitude: Pair,
    longitude: Pair,
    day: Day,
    first: &Set,
    second: &Set,
) -> Result<IgrfField, Refusal> {
    let [x, y, z] = ask(
        sys::njerumoy_igrf,
        height,
        latitude,
        longitude,
        day,
        first,
        second,
    )?;
    Ok(IgrfField { x, y, z })
}

/// How far X, Y and Z of `igrf` can lie from the exact field, for the same question: each number is at
/// least the proved bound of the distance, and at most 1.01 times as much. Before 2025 that bound goes by
/// both sets, and the exact field lies between them with nothing rounded. Refusals as those of `igrf`.
#[inline]
pub fn igrf_allowance(
    height: f32,
    latitude: Pair,
    longitude: Pair,
    day: Day,
    first: &Set,
    second: &Set,
) -> Result<Allowances, Refusal> {
    let [x, y, z] = ask(
        sys::njerumoy_igrf_allowance,
        height,
        latitude,
        longitude,
        day,
        first,
        second,
    )?;
    Ok(Allowances { x, y, z })
}

/// The yearly change of the field of the IGRF profile, for the same question as that of `igrf`. Refusals
/// 1, 2, 3, 4, 5, 6, 23, 22, 7, 8 as those of `igrf`; then 21, exactly where H of the field is zero.
///
/// Those of X, Y and Z are what `igrf` works out of the yearly change of each coefficient in the place of
/// the coefficient: before 2025 a fifth of what the two sets differ by, from then on the rates of `first`.
/// include/njerumoy_igrf.h says how near they are to the exact ones.
#[inline]
pub fn igrf_rates(
    height: f32,
    latitude: Pair,
    longitude: Pair,
    day: Day,
    first: &Set,
    second: &Set,
) -> Result<Rates, Refusal> {
    let rates = ask(
        sys::njerumoy_igrf_rates,
        height,
        latitude,
        longitude,
        day,
        first,
        second,
    )?;
    Ok(Rates::of(rates))
}

/// Of 5 the profile has days of its own.
#[cold]
fn refused(number: u32, carried: Carried) -> Refusal {
    match Refusal::of(number, carried) {
        Refusal::EpochYear { last, .. } => Refusal::EpochYear {
            first: Day {
                year: 2000,
                day_of_year: 1,
            },
            last,
        },
        other => other,
    }
}
