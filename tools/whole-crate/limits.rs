//! The limits, where a small change could turn an answer.
use crate::compare::{ask, declination, grid_variation_of, zone_of, Place};
use crate::entries::{self, Set};
use crate::field::{self, GeomagneticField};
use world_magnetic_model::uom::si::magnetic_flux_density::nanotesla;
use world_magnetic_model::GeomagneticField as Whole;

/// The largest distance from a latitude's limit that is tried.
const STEPS: i32 = 2000;

/// A place where the grid variation is next to 180, and one step of the longitude wraps it.
const WRAPPED: Place = Place {
    height: 0.0,
    latitude: 84.606,
    longitude: 127.85205,
    year: 2029,
    day: 365,
};

/// A record of either side, with this X beside no Y and no Z: its H is X.
fn with_h(whole: &Whole, ours: &GeomagneticField, h: f32) -> (Whole, GeomagneticField) {
    let ours = GeomagneticField {
        x: h,
        y: 0.0,
        z: 0.0,
        ..*ours
    };
    (whole.with_stored([h, 0.0, 0.0]), ours)
}

/// Every H from 1024 to 8192 nT. Gives how many have another zone.
fn zones(whole: &Whole, ours: &GeomagneticField) -> u64 {
    let all = 1024.0_f32.to_bits()..=8192.0_f32.to_bits();
    let count = all.clone().count();
    let turned = all
        .filter(|bits| {
            let (theirs, mine) = with_h(whole, ours, f32::from_bits(*bits));
            zone_of(&theirs) != mine.declination_warning()
        })
        .count();
    println!("all {count} H from 1024 to 8192 nT: {turned} have another zone");
    turned as u64
}

/// Every latitude within `STEPS` steps of 55 and -55. Gives how many have a grid variation on one
/// side alone.
fn presences(at: &Place, set: &Set) -> u64 {
    let mut turned = 0;
    for limit in [55.0_f32, -55.0] {
        for steps in -STEPS..=STEPS {
            let latitude = f32::from_bits(limit.to_bits().wrapping_add_signed(steps));
            let (whole, _) = ask(&Place { latitude, ..*at }, set);
            let theirs = whole.expect("a field").grid_variation().is_some();
            let mine = field::grid_variation(latitude, at.longitude, 0.0).is_some();
            turned += u64::from(theirs != mine);
        }
    }
    println!(
        "all latitudes within {STEPS} steps of 55 and -55: {turned} have a grid variation on one \
         side alone"
    );
    turned
}

/// Prints the smallest whole H that the conversion changes.
fn smallest(whole: &Whole, ours: &GeomagneticField) {
    let changed = (1..8192).find_map(|h| {
        let (theirs, mine) = with_h(whole, ours, h as f32);
        let (theirs, mine) = (theirs.h().get::<nanotesla>(), mine.h());
        (theirs.to_bits() != mine.to_bits()).then_some((mine, theirs))
    });
    match changed {
        Some((mine, theirs)) => println!(
            "smallest whole H that is changed: {mine:?} nT ({:08x}), to {theirs:?} ({:08x})",
            mine.to_bits(),
            theirs.to_bits()
        ),
        None => println!("no whole H below 8192 nT is changed"),
    }
}

/// Prints both grid variations at `WRAPPED`.
fn wrapped(set: &Set) {
    let (whole, ours) = ask(&WRAPPED, set);
    let (whole, ours) = (whole.expect("a field"), ours.expect("a field"));
    let Place {
        latitude,
        longitude,
        ..
    } = WRAPPED;
    let mine = entries::grid_variation(latitude, longitude, declination(&ours));
    let mine = mine.expect("an answer").expect("a value");
    let theirs = grid_variation_of(&whole).expect("a value");
    println!(
        "grid variation at latitude {latitude:?}, longitude {longitude:?}, height 0, 2029 day 365: \
         {mine:?}, the crate's {theirs:?}"
    );
}

/// Gives how many zones turn, and how many presences of a grid variation.
pub fn limits(set: &Set) -> (u64, u64) {
    let at = Place {
        height: 0.0,
        latitude: 60.0,
        longitude: 0.0,
        year: set.epoch_year,
        day: 1,
    };
    let (whole, ours) = ask(&at, set);
    let (whole, ours) = (whole.expect("a field"), ours.expect("a field"));
    smallest(&whole, &ours);
    wrapped(set);
    (zones(&whole, &ours), presences(&at, set))
}
