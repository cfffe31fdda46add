//! Yearly rates: the lines of the crate's `src/lib.rs` that it builds for its tests alone, and the entry
//! over them. The unit conversions are taken out here too: H and F stay in nT. The source's `powi(2)`
//! is one product, and so is `to_degrees`.
use crate::entries::{Place, Refusal, Set};
use crate::field::GeomagneticField;

/// The field at a place and day, with the yearly rates of its components [nT/year].
#[derive(Copy, Clone, Debug, PartialEq)]
pub struct FieldAndRates {
    pub field: GeomagneticField,
    pub x_rate: f32,
    pub y_rate: f32,
    pub z_rate: f32,
}

impl FieldAndRates {
    /// Yearly rate of change in declination [degrees/year].
    pub fn declination_rate(&self) -> f32 {
        let GeomagneticField { x, y, .. } = self.field;
        let h = self.field.h();
        ((self.y_rate * x - y * self.x_rate) / (h * h)).to_degrees()
    }

    /// Yearly rate of change in inclination [degrees/year].
    pub fn inclination_rate(&self) -> f32 {
        let (h, f) = (self.field.h(), self.field.f());
        ((self.z_rate * h - self.field.z * self.h_rate()) / (f * f)).to_degrees()
    }

    /// Yearly rate of change in horizontal strength H [nT/year].
    pub fn h_rate(&self) -> f32 {
        let GeomagneticField { x, y, .. } = self.field;
        (x * self.x_rate + y * self.y_rate) / self.field.h()
    }

    /// Yearly rate of change in total strength F [nT/year].
    pub fn f_rate(&self) -> f32 {
        let GeomagneticField { x, y, z, .. } = self.field;
        (x * self.x_rate + y * self.y_rate + z * self.z_rate) / self.field.f()
    }

    /// The seven rates: of X, Y, Z, declination, inclination, H and F. Refusal 21.
    pub fn all(&self) -> Result<[f32; 7], Refusal> {
        if self.field.h() == 0.0 || self.field.f() == 0.0 {
            return Err(Refusal::ZeroDivisor);
        }
        Ok([
            self.x_rate,
            self.y_rate,
            self.z_rate,
            self.declination_rate(),
            self.inclination_rate(),
            self.h_rate(),
            self.f_rate(),
        ])
    }
}

/// Rates: the yearly change of X, Y and Z [nT/year], of declination and inclination [degrees/year], and
/// of H and F [nT/year]. Field's refusals, then 21: H or F is zero.
pub fn rates(place: &Place, set: &Set) -> Result<[f32; 7], Refusal> {
    let accepted = place.accepted(set.epoch_year, set.slices())?;
    let there = place.geocentric();
    let field = accepted.field(&there);
    // the rates as the main field, at offset zero
    let rates = accepted.lists.rates_as_main();
    let (x_rate, y_rate, z_rate) = there.field_at_offset(rates, 0.0);
    let found = FieldAndRates {
        field,
        x_rate,
        y_rate,
        z_rate,
    };
    found.all()
}
