//! The entries in degrees, with their refusals: sine and cosine, declination, inclination, Field.
use crate::direction::direction;
use crate::entries::{check_components, is_usable, Place, Refusal, Set};
use crate::field::GeomagneticField;
use crate::trig::{self, Pair};

/// The sine and the cosine of an angle from -180 to 180 degrees. Refusal 16.
pub fn sine_and_cosine(degrees: f32) -> Result<Pair, Refusal> {
    trig::sine_and_cosine(degrees).ok_or(Refusal::Angle)
}

/// The declination of two components, X and Y. Refusal 12, by either of them.
pub fn declination(x: f32, y: f32) -> Result<f32, Refusal> {
    if is_usable(x) && is_usable(y) {
        Ok(direction(x, y))
    } else {
        Err(Refusal::Unusable)
    }
}

/// The declination of a field. Refusal 12, by any of X, Y and Z.
pub fn field_declination(field: &GeomagneticField) -> Result<f32, Refusal> {
    check_components(field)?;
    Ok(direction(field.x, field.y))
}

/// The inclination of a field: the angle of Z over H. Refusal 12, by any of X, Y and Z.
pub fn inclination(field: &GeomagneticField) -> Result<f32, Refusal> {
    check_components(field)?;
    Ok(direction(field.h(), field.z))
}

/// A place and a day, as Field in degrees takes them.
#[derive(Copy, Clone, Debug, PartialEq)]
pub struct DegreePlace {
    pub height: f32,
    pub latitude_deg: f32,
    pub longitude_deg: f32,
    pub year: i32,
    pub day: i32,
}

impl DegreePlace {
    /// The place with its two pairs made. Refusal 16, for the latitude and then for the longitude.
    pub fn with_pairs(&self) -> Result<Place, Refusal> {
        let (sin_phi, cos_phi) = sine_and_cosine(self.latitude_deg)?;
        let (sin_lambda, cos_lambda) = sine_and_cosine(self.longitude_deg)?;
        Ok(Place {
            height: self.height,
            sin_phi,
            cos_phi,
            sin_lambda,
            cos_lambda,
            year: self.year,
            day: self.day,
        })
    }

    /// Field in degrees. Refusal 16, then Field's. It is never 3, and 2 only beyond 90 degrees.
    pub fn field(&self, set: &Set) -> Result<GeomagneticField, Refusal> {
        self.with_pairs()?.field(set)
    }
}
