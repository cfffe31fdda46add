//! Field and Uncertainty with error figures from a lent list of records. The search is the one
//! that the calls without a list use: to them the two built-in records are the list.
use crate::entries::{uncertainty_by, Place, Refusal, Set};
use crate::field::GeomagneticField;
use crate::models::{error_model_in, WmmErrorModel};

/// Finite and not below zero. -0 is not below zero.
pub fn is_figure(x: f32) -> bool {
    x.is_finite() && x >= 0.0
}

/// The first record of an epoch year. Refusals 15 and 12: no such record, or a figure of it that
/// cannot be used. All eight are looked at, and no other record is.
pub fn record(records: &[WmmErrorModel], epoch_year: i32) -> Result<WmmErrorModel, Refusal> {
    let found = error_model_in(records, epoch_year).ok_or(Refusal::NoErrorRecord)?;
    if found.figures().into_iter().all(is_figure) {
        Ok(*found)
    } else {
        Err(Refusal::Unusable)
    }
}

/// Field with a list: Field's X, Y and Z, with the figures of the list's record of the day's epoch
/// year. Field's refusals, then 15 and 12.
pub fn field_listed(
    place: &Place,
    set: &Set,
    records: &[WmmErrorModel],
) -> Result<GeomagneticField, Refusal> {
    let field = place.field(set)?;
    // Field answers with the built-in record of the day's epoch year
    let error_model = record(records, field.error_model.epoch_year)?;
    Ok(GeomagneticField {
        error_model,
        ..field
    })
}

/// Uncertainty of declination by the list's record of a year, which may be any. Refusals 15, 12 by
/// a figure, 12 by a component.
pub fn uncertainty_listed(
    field: &GeomagneticField,
    epoch_year: i32,
    records: &[WmmErrorModel],
) -> Result<f32, Refusal> {
    uncertainty_by(field, record(records, epoch_year)?)
}
