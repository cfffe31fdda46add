//! One place through both sides, and every value compared.
use crate::entries::{self, Set};
use crate::field::{self, GeomagneticField, WarningZone};
use crate::tally::{Tally, Value};
use libm::{atan2f, cosf, sinf};
use world_magnetic_model::time::Date;
use world_magnetic_model::uom::si::angle::{degree, radian};
use world_magnetic_model::uom::si::f32::{Angle, Length, MagneticFluxDensity};
use world_magnetic_model::uom::si::length::meter;
use world_magnetic_model::uom::si::magnetic_flux_density::nanotesla;
use world_magnetic_model::{GeomagneticField as Whole, WarningZone as WholeZone};

/// What is asked: metres, degrees, a year and a day of it.
#[derive(Copy, Clone, Debug)]
pub struct Place {
    pub height: f32,
    pub latitude: f32,
    pub longitude: f32,
    pub year: i32,
    pub day: i32,
}

/// nT through uom and back, as the crate's accessors do.
fn through_tesla(nt: f32) -> f32 {
    MagneticFluxDensity::new::<nanotesla>(nt).get::<nanotesla>()
}

/// Degrees through uom and back.
fn through_radians(deg: f32) -> f32 {
    Angle::new::<degree>(deg).get::<degree>()
}

/// The crate's zone, in the oracle's words.
pub fn zone_of(whole: &Whole) -> Option<WarningZone> {
    whole.declination_warning().map(|zone| match zone {
        WholeZone::BlackoutZone => WarningZone::BlackoutZone,
        WholeZone::CautionZone => WarningZone::CautionZone,
    })
}

/// The crate's field, and the oracle's with the same sines and cosines lent. `None` is a refusal.
pub fn ask(place: &Place, set: &Set) -> (Option<Whole>, Option<GeomagneticField>) {
    let height = Length::new::<meter>(place.height);
    let latitude = Angle::new::<degree>(place.latitude);
    let longitude = Angle::new::<degree>(place.longitude);
    let date = Date::from_ordinal_date(place.year, place.day as u16).expect("a day of that year");
    let (phi, lambda) = (latitude.get::<radian>(), longitude.get::<radian>());
    let ours = entries::field(
        place.height,
        sinf(phi),
        cosf(phi),
        sinf(lambda),
        cosf(lambda),
        place.year,
        place.day,
        set,
    );
    (
        Whole::new(height, latitude, longitude, date).ok(),
        ours.ok(),
    )
}

/// The declination that is lent [degrees], worked out as the crate does.
pub fn declination(ours: &GeomagneticField) -> f32 {
    Angle::new::<radian>(atan2f(ours.y, ours.x)).get::<degree>()
}

/// The crate's grid variation [degrees].
pub fn grid_variation_of(whole: &Whole) -> Option<f32> {
    whole.grid_variation().map(|angle| angle.get::<degree>())
}

/// H, F, zone and uncertainty of a record of the oracle.
fn strengths(field: &GeomagneticField) -> Option<(f32, f32, Option<WarningZone>, f32)> {
    Some((
        entries::horizontal(field).ok()?,
        entries::total(field).ok()?,
        entries::zone(field).ok()?,
        entries::uncertainty(field, field.error_model.epoch_year).ok()?,
    ))
}

/// Compares all values at one place. `None` where a side refuses: no place that is asked is to be
/// refused.
pub fn compare(place: &Place, set: &Set, tally: &mut Tally) -> Option<()> {
    let (whole, ours) = ask(place, set);
    let (whole, ours) = (whole?, ours?);
    let declination = declination(&ours);
    let grid = entries::grid_variation(place.latitude, place.longitude, declination).ok()?;
    let (h, f, zone, uncertainty) = strengths(&ours)?;

    for (value, mine, theirs) in [
        (Value::XStored, ours.x, whole.stored()[0]),
        (Value::YStored, ours.y, whole.stored()[1]),
        (Value::ZStored, ours.z, whole.stored()[2]),
    ] {
        tally.number(value, mine, theirs, mine);
    }
    for (value, mine, theirs) in [
        (Value::X, ours.x, whole.x()),
        (Value::Y, ours.y, whole.y()),
        (Value::Z, ours.z, whole.z()),
        (Value::H, h, whole.h()),
    ] {
        tally.number(value, mine, theirs.get::<nanotesla>(), through_tesla(mine));
    }

    // F and the uncertainty use the converted H: here it is an X beside no Y
    let converted = GeomagneticField {
        x: through_tesla(h),
        y: 0.0,
        ..ours
    };
    let (_, f_converted, _, uncertainty_converted) = strengths(&converted)?;
    let theirs = whole.f().get::<nanotesla>();
    tally.number(Value::F, f, theirs, through_tesla(f_converted));
    let theirs = whole.declination_uncertainty().get::<degree>();
    let converted = through_radians(uncertainty_converted);
    tally.number(Value::Uncertainty, uncertainty, theirs, converted);
    tally.kind(Value::Zone, zone, zone_of(&whole), zone);

    let theirs = grid_variation_of(&whole);
    let converted = field::grid_variation(
        through_radians(place.latitude),
        through_radians(place.longitude),
        declination,
    );
    let (here, there, back) = (grid.is_some(), theirs.is_some(), converted.is_some());
    tally.kind(Value::HasGridVariation, here, there, back);
    if let (Some(mine), Some(theirs), Some(converted)) = (grid, theirs, converted) {
        let converted = through_radians(converted);
        tally.number(Value::GridVariation, mine, theirs, converted);
        tally.jumps += u64::from((mine - theirs).abs() > 1.0);
    }
    Some(())
}
