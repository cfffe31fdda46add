//! What our sines change in Field: Field with our pairs beside Field with the machine's, over a grid.
use crate::largest::Largest;
use crate::library;
use oracle::angles::DegreePlace;
use oracle::entries::{Place, Set};
use oracle::field::GeomagneticField;
use oracle::machine;
use oracle::sets::WMM_MODELS;

const HEIGHTS: [f32; 3] = [0.0, 100000.0, 850000.0];
const DAYS: [(i32, i32); 4] = [(2020, 1), (2024, 366), (2025, 1), (2029, 365)];
const NAMES: [&str; 3] = ["X", "Y", "Z"];

/// Every place of the grid.
fn places() -> Vec<DegreePlace> {
    let mut places = Vec::new();
    for latitude in -90..=90 {
        for longitude in -180..=180 {
            for height in HEIGHTS {
                places.extend(DAYS.map(|(year, day)| DegreePlace {
                    height,
                    latitude_deg: latitude as f32,
                    longitude_deg: longitude as f32,
                    year,
                    day,
                }));
            }
        }
    }
    places
}

/// Field with the machine's sines and cosines.
fn with_the_machines(place: &DegreePlace, set: &Set) -> GeomagneticField {
    let (sin_phi, cos_phi) = machine::pair(place.latitude_deg);
    let (sin_lambda, cos_lambda) = machine::pair(place.longitude_deg);
    let place = Place {
        height: place.height,
        sin_phi,
        cos_phi,
        sin_lambda,
        cos_lambda,
        year: place.year,
        day: place.day,
    };
    place.field(set).expect("a place that is accepted")
}

fn xyz(field: &GeomagneticField) -> [f32; 3] {
    [field.x, field.y, field.z]
}

/// Gives whether all is as it should be.
pub fn measure() -> bool {
    let sets = WMM_MODELS.map(|model| Set::of(&model));
    let places = places();
    let (mut differ, mut any, mut library) = ([0u64; 3], 0u64, 0u64);
    let mut apart: [Largest<DegreePlace>; 3] = [Largest::default(); 3];
    for place in &places {
        let set = &sets[usize::from(place.year >= sets[1].epoch_year)];
        let ours = xyz(&place.field(set).expect("a place that is accepted"));
        let machines = xyz(&with_the_machines(place, set));
        library += u64::from(library::field(place) != Ok(ours.map(f32::to_bits)));
        any += u64::from(ours.map(f32::to_bits) != machines.map(f32::to_bits));
        for i in 0..3 {
            differ[i] += u64::from(ours[i].to_bits() != machines[i].to_bits());
            let size = (f64::from(ours[i]) - f64::from(machines[i])).abs();
            apart[i].meet(size, *place);
        }
    }
    let all = places.len() as f64;
    println!(
        "{} places: latitudes and longitudes at every whole degree",
        places.len()
    );
    println!("heights {HEIGHTS:?} m, year and day {DAYS:?}");
    println!("{any} of them differ, {:.2} %", 100.0 * any as f64 / all);
    for i in 0..3 {
        let share = 100.0 * differ[i] as f64 / all;
        println!("{}: {} have other bits, {share:.2} %", NAMES[i], differ[i]);
        println!(
            "   largest change {:.4} nT, at {:?}",
            apart[i].size, apart[i].at
        );
    }
    println!("{library} answers of the library that differ");
    library == 0
}
