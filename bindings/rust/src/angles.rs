//! Angles in degrees: the pair that the calls take of one, the field at a place in degrees, and the
//! directions of a field.
use crate::refusal::{Carried, Refusal};
use crate::{checked, sys, Day, Field, Pair, Set};

/// The sine and the cosine of an angle from -180 to 180 degrees, each within 2^-22 of the exact value,
/// and exact at 0, 90 and 180 of either sign. Their bits are the same on every machine. The pair is on
/// the circle: `field` never refuses it by 3, and as a latitude by 2 only beyond 90 degrees, of either
/// sign. Refusal 16.
#[inline]
pub fn sine_and_cosine(degrees: f32) -> Result<Pair, Refusal> {
    let (mut sin, mut cos) = (0.0, 0.0);
    // SAFETY: the places are two locals.
    checked(unsafe { sys::njerumoy_sine_and_cosine(degrees, &mut sin, &mut cos) })?;
    Ok(Pair { sin, cos })
}

/// As `field`, with the latitude and the longitude in degrees: to the bit what `field` says of the
/// pairs that `sine_and_cosine` makes of them. Refusals 16 by the latitude, 16 by the longitude, then
/// 1, 2, 4, 5, 6, 23, 7, 8 as those of `field`; 2 only of a latitude beyond 90 degrees, of either sign.
#[inline]
pub fn field_in_degrees(
    height: f32,
    latitude_deg: f32,
    longitude_deg: f32,
    day: Day,
    set: &Set,
) -> Result<Field, Refusal> {
    let (mut xyz, mut errors) = ([0.0; 3], [0.0; 8]);
    let mut carried = Carried::default();
    // SAFETY: each pointer and length are those of one slice, and the places are locals.
    let number = unsafe {
        sys::njerumoy_field_in_degrees(
            height,
            latitude_deg,
            longitude_deg,
            day.year,
            day.day_of_year,
            set.epoch_year,
            set.g.as_ptr(),
            set.g.len(),
            set.h.as_ptr(),
            set.h.len(),
            set.g_dot.as_ptr(),
            set.g_dot.len(),
            set.h_dot.as_ptr(),
            set.h_dot.len(),
            &mut xyz,
            &mut errors,
            &mut carried.entry,
            &mut carried.years,
        )
    };
    match number {
        0 => Ok(Field::of(set.epoch_year, xyz, errors)),
        _ => Err(Refusal::of(number, carried)),
    }
}

/// The declination of a field of `x` to the north and `y` to the east [degrees]: the angle from north
/// to the field, east positive, -180 to 180, within 2^-15 degree of the exact angle. Where `y` is zero,
/// of either sign, it is 180 for an `x` below zero and else 0. Refusal 12.
#[inline]
pub fn declination(x: f32, y: f32) -> Result<f32, Refusal> {
    let mut declination = 0.0;
    // SAFETY: the place is a local.
    checked(unsafe { sys::njerumoy_declination(x, y, &mut declination) })?;
    Ok(declination)
}

impl Field {
    /// The declination [degrees], as the function `declination` gives it of X and Y. Refusal 12, by any
    /// of the three components.
    #[inline]
    pub fn declination(&self) -> Result<f32, Refusal> {
        let mut declination = 0.0;
        // SAFETY: the place is a local. So it is in the function below.
        checked(unsafe {
            sys::njerumoy_field_declination(self.x, self.y, self.z, &mut declination)
        })?;
        Ok(declination)
    }

    /// The inclination [degrees]: the angle from the horizontal plane to the field, down positive, -90
    /// to 90, within 2^-15 degree of the exact angle of `h` and Z. Refusal 12.
    #[inline]
    pub fn inclination(&self) -> Result<f32, Refusal> {
        let mut inclination = 0.0;
        checked(unsafe { sys::njerumoy_inclination(self.x, self.y, self.z, &mut inclination) })?;
        Ok(inclination)
    }
}
