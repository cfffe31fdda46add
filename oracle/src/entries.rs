//! The public entries, with document 01's refusals in document 01's order.
use crate::coefficients::{check_lists, Lists};
use crate::field::{
    self, one_south, synthesize_lists, Geocentric, GeomagneticField, WarningZone, MAX_HEIGHT_KM,
    MAX_HEIGHT_M, MAX_LATITUDE_DEG, MAX_LONGITUDE_DEG, MIN_HEIGHT_KM, MIN_HEIGHT_M,
    MIN_LATITUDE_DEG, MIN_LONGITUDE_DEG,
};
use crate::models::{
    date_to_epoch_year, days_in_year, error_model_by_epoch_year, years_since_epoch, WmmErrorModel,
    WmmModel, BUNDLED_MODELS_VALIDITY_RANGE, WMM_ERROR_MODELS,
};
pub use crate::refusal::Refusal;

/// A lent set: an epoch year and four lists of any length, g, h, g_dot, h_dot.
#[derive(Clone, Debug, Default, PartialEq)]
pub struct Set {
    pub epoch_year: i32,
    pub lists: [Vec<f32>; 4],
}

impl Set {
    /// A published set in the lent form.
    pub fn of(model: &WmmModel) -> Set {
        Set {
            epoch_year: model.epoch_year,
            lists: [
                model.g.to_vec(),
                model.h.to_vec(),
                model.g_dot.to_vec(),
                model.h_dot.to_vec(),
            ],
        }
    }

    /// The four lists as slices.
    pub fn slices(&self) -> [&[f32]; 4] {
        self.lists.each_ref().map(Vec::as_slice)
    }
}

/// Caps on an entry's size, list by list: nT for g and h, nT a year for the rates.
pub const CAPS: [f32; 4] = [65536.0, 65536.0, 4096.0, 4096.0];
/// 2^-20, by which a pair may miss the circle.
pub const CIRCLE_SLACK: f32 = 1.0 / 1048576.0;
pub const MIN_RATIO: f32 = 0.875;
pub const MAX_RATIO: f32 = 1.015625;
pub const MAX_OFFSET: f32 = 5.0;
/// 2^60, the largest size of a component.
pub const MAX_COMPONENT: f32 = 1152921504606846976.0;
pub const MAX_DECLINATION_DEG: f32 = 180.0;

/// Finite, and in the range with both ends. A NaN and an infinity are in no range.
pub fn within(x: f32, low: f32, high: f32) -> bool {
    x.is_finite() && low <= x && x <= high
}

/// Off the circle: a member not finite, or s*s + c*c (each step rounded) too far from 1.
pub fn off_the_circle(s: f32, c: f32) -> bool {
    if !s.is_finite() || !c.is_finite() {
        return true;
    }
    let sum = s * s + c * c;
    !within(sum, 1.0 - CIRCLE_SLACK, 1.0 + CIRCLE_SLACK)
}

fn outside_of_validity_range() -> Refusal {
    let (first, last) = BUNDLED_MODELS_VALIDITY_RANGE;
    Refusal::EpochYear { first, last }
}

/// Field: X, Y, Z in nT with the error record. Refusals 1, 2, 3, 4, 5, 6, 23, 7, 8.
#[allow(clippy::too_many_arguments)]
pub fn field(
    height: f32,
    sin_phi: f32,
    cos_phi: f32,
    sin_lambda: f32,
    cos_lambda: f32,
    year: i32,
    day: i32,
    set: &Set,
) -> Result<GeomagneticField, Refusal> {
    let place = Place {
        height,
        sin_phi,
        cos_phi,
        sin_lambda,
        cos_lambda,
        year,
        day,
    };
    place.field(set)
}

/// A place and a day, as Field takes them.
#[derive(Copy, Clone, Debug, PartialEq)]
pub struct Place {
    pub height: f32,
    pub sin_phi: f32,
    pub cos_phi: f32,
    pub sin_lambda: f32,
    pub cos_lambda: f32,
    pub year: i32,
    pub day: i32,
}

/// What Field's checks give where none refuses.
pub struct Accepted<'a> {
    pub lists: Lists<'a>,
    /// Years from the epoch to the day.
    pub time_delta: f32,
    /// The built-in record of the epoch.
    pub error_model: WmmErrorModel,
}

impl Place {
    /// Field at this place and day.
    pub fn field(&self, set: &Set) -> Result<GeomagneticField, Refusal> {
        self.field_by(set.epoch_year, set.slices())
    }

    /// The same with the epoch year and the four lists of a set.
    pub fn field_by(&self, set_year: i32, lists: [&[f32]; 4]) -> Result<GeomagneticField, Refusal> {
        let accepted = self.accepted(set_year, lists)?;
        Ok(accepted.field(&self.geocentric()))
    }

    /// Field's checks. Refusals 1, 2, 3, 4, 5, 6, 23, 7, 8.
    // inlined, since Field is timed: the checks cost what they would in its own body
    #[inline]
    pub fn accepted<'a>(
        &self,
        set_year: i32,
        lists: [&'a [f32]; 4],
    ) -> Result<Accepted<'a>, Refusal> {
        self.check_place()?;
        let (epoch_year, time_delta) = epoch(self.year, self.day)?;
        if error_model_by_epoch_year(set_year).is_none() {
            return Err(outside_of_validity_range());
        }
        let lists = check_lists(lists)?;
        if set_year != epoch_year {
            return Err(Refusal::OtherEpoch {
                of_day: epoch_year,
                of_set: set_year,
            });
        }
        let error_model =
            *error_model_by_epoch_year(epoch_year).ok_or_else(outside_of_validity_range)?;
        Ok(Accepted {
            lists,
            time_delta,
            error_model,
        })
    }

    /// Refusals 1, 2, 3.
    #[inline(always)]
    pub fn check_place(&self) -> Result<(), Refusal> {
        if !within(self.height, MIN_HEIGHT_M, MAX_HEIGHT_M) {
            return Err(Refusal::Height {
                min_km: MIN_HEIGHT_KM,
                max_km: MAX_HEIGHT_KM,
            });
        }
        if off_the_circle(self.sin_phi, self.cos_phi) || self.cos_phi < -CIRCLE_SLACK {
            return Err(Refusal::Latitude);
        }
        if off_the_circle(self.sin_lambda, self.cos_lambda) {
            return Err(Refusal::Longitude);
        }
        Ok(())
    }

    /// The geocentric step, for a place that is not refused.
    pub fn geocentric(&self) -> Geocentric {
        Geocentric::of(
            self.height,
            self.sin_phi,
            self.cos_phi,
            self.sin_lambda,
            self.cos_lambda,
        )
    }
}

impl Accepted<'_> {
    /// The field of the set at the day, there.
    pub fn field(&self, there: &Geocentric) -> GeomagneticField {
        let (x, y, z) = there.field_at_offset(self.lists, self.time_delta);
        GeomagneticField {
            x,
            y,
            z,
            error_model: self.error_model,
        }
    }
}

/// Sum: X', Y, Z' in the crate's sign. Refusals 9, 3, 10, 11, 6, 23, 7.
pub fn sum(
    cos_theta: f32,
    sin_theta: f32,
    sin_lambda: f32,
    cos_lambda: f32,
    ratio: f32,
    offset: f32,
    lists: &[Vec<f32>; 4],
) -> Result<(f32, f32, f32), Refusal> {
    if off_the_circle(sin_theta, cos_theta) {
        return Err(Refusal::Colatitude);
    }
    if off_the_circle(sin_lambda, cos_lambda) {
        return Err(Refusal::Longitude);
    }
    if !within(ratio, MIN_RATIO, MAX_RATIO) {
        return Err(Refusal::Ratio);
    }
    if !within(offset, 0.0, MAX_OFFSET) {
        return Err(Refusal::Offset);
    }
    let lists = check_lists(lists.each_ref().map(Vec::as_slice))?;
    Ok(synthesize_lists(
        cos_theta, sin_theta, sin_lambda, cos_lambda, ratio, lists, offset,
    ))
}

/// Epoch: epoch year and offset of a day. Refusals 4, 5.
pub fn epoch(year: i32, day: i32) -> Result<(i32, f32), Refusal> {
    if day < 1 || day > days_in_year(year) {
        return Err(Refusal::DayOfYear);
    }
    let epoch_year = date_to_epoch_year(year);
    if error_model_by_epoch_year(epoch_year).is_none() {
        return Err(outside_of_validity_range());
    }
    Ok((epoch_year, years_since_epoch(year, day, epoch_year)))
}

/// Loose components as a field, for calls that look at no figure of its error record.
pub fn components([x, y, z]: [f32; 3]) -> GeomagneticField {
    let error_model = WMM_ERROR_MODELS[0];
    GeomagneticField {
        x,
        y,
        z,
        error_model,
    }
}

/// Finite and at most 2^60 in size, as a component is.
pub fn is_usable(x: f32) -> bool {
    within(x, -MAX_COMPONENT, MAX_COMPONENT)
}

/// Refusal 12, by any of X, Y and Z.
pub fn check_components(field: &GeomagneticField) -> Result<(), Refusal> {
    if is_usable(field.x) && is_usable(field.y) && is_usable(field.z) {
        Ok(())
    } else {
        Err(Refusal::Unusable)
    }
}

/// H. Refusal 12.
pub fn horizontal(field: &GeomagneticField) -> Result<f32, Refusal> {
    check_components(field)?;
    Ok(field.h())
}

/// F. Refusal 12.
pub fn total(field: &GeomagneticField) -> Result<f32, Refusal> {
    check_components(field)?;
    Ok(field.f())
}

/// Warning zone, if there is one. Refusal 12.
pub fn zone(field: &GeomagneticField) -> Result<Option<WarningZone>, Refusal> {
    check_components(field)?;
    Ok(field.declination_warning())
}

/// Uncertainty of declination by the figures of the lent year, whatever the record holds.
/// Refusals 5, 12.
pub fn uncertainty(field: &GeomagneticField, epoch_year: i32) -> Result<f32, Refusal> {
    let error_model =
        *error_model_by_epoch_year(epoch_year).ok_or_else(outside_of_validity_range)?;
    uncertainty_by(field, error_model)
}

/// Uncertainty of declination by these figures. Refusal 12, by a component.
pub fn uncertainty_by(
    field: &GeomagneticField,
    error_model: WmmErrorModel,
) -> Result<f32, Refusal> {
    check_components(field)?;
    let by_these = GeomagneticField {
        error_model,
        ..*field
    };
    Ok(by_these.declination_uncertainty())
}

/// Grid variation, or `None` where there is none: the crate's, but by our rule for due south. Refusals
/// 2, 3, 12, before "none".
pub fn grid_variation(
    latitude_deg: f32,
    longitude_deg: f32,
    declination_deg: f32,
) -> Result<Option<f32>, Refusal> {
    if !within(latitude_deg, MIN_LATITUDE_DEG, MAX_LATITUDE_DEG) {
        return Err(Refusal::Latitude);
    }
    if !within(longitude_deg, MIN_LONGITUDE_DEG, MAX_LONGITUDE_DEG) {
        return Err(Refusal::Longitude);
    }
    if !within(declination_deg, -MAX_DECLINATION_DEG, MAX_DECLINATION_DEG) {
        return Err(Refusal::Unusable);
    }
    let of_crate = field::grid_variation(latitude_deg, longitude_deg, declination_deg);
    Ok(of_crate.map(one_south))
}

/// The square root: +inf gives +inf and -0 gives -0. Refusal 12 for NaN and below zero.
pub fn square_root(x: f32) -> Result<f32, Refusal> {
    if x.is_nan() || x < 0.0 {
        return Err(Refusal::Unusable);
    }
    Ok(x.sqrt())
}
