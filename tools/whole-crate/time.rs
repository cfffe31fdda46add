//! Times our Field in degrees beside the whole crate's `GeomagneticField::new`. The crate's side has its
//! unit conversions of height and angles, its libm's sines and cosines and its own checks; its date is
//! made before. Our bits are compared with the oracle's.
use bench::timing::{print_head, row_beside};
use njerumoy::{published, Day, Set};
use oracle::angles::DegreePlace;
use oracle::cases::Rng;
use oracle::entries;
use oracle::sets::WMM_MODELS;
use std::env;
use std::process::ExitCode;
use world_magnetic_model::time::Date;
use world_magnetic_model::uom::si::angle::degree;
use world_magnetic_model::uom::si::f32::{Angle, Length};
use world_magnetic_model::uom::si::length::meter;
use world_magnetic_model::GeomagneticField;

const CASES: usize = 1000;
const SEED: u64 = 1;

type Bits = Result<[u32; 3], u32>;

struct Case {
    place: DegreePlace,
    date: Date,
    /// Which of the two published sets is the day's.
    set: usize,
}

/// A place that all sides accept, on a day of the ten years.
fn case(rng: &mut Rng) -> Case {
    let place = DegreePlace {
        height: rng.between(-1000.0, 850000.0) as f32,
        latitude_deg: rng.between(-90.0, 90.0) as f32,
        longitude_deg: rng.between(-180.0, 180.0) as f32,
        year: rng.whole(2020, 2029),
        day: rng.whole(1, 365),
    };
    Case {
        date: Date::from_ordinal_date(place.year, place.day as u16).expect("a day of that year"),
        set: usize::from(place.year >= 2025),
        place,
    }
}

fn ours(Case { place, set, .. }: &Case, sets: &[Set; 2]) -> Bits {
    let day = Day {
        year: place.year,
        day_of_year: place.day,
    };
    let (latitude, longitude) = (place.latitude_deg, place.longitude_deg);
    njerumoy::field_in_degrees(place.height, latitude, longitude, day, &sets[*set])
        .map(|field| [field.x, field.y, field.z].map(f32::to_bits))
        .map_err(|refusal| refusal.number())
}

fn same(Case { place, set, .. }: &Case, sets: &[entries::Set; 2]) -> Bits {
    place
        .field(&sets[*set])
        .map(|field| [field.x, field.y, field.z].map(f32::to_bits))
        .map_err(|refusal| refusal.number())
}

fn whole(Case { place, date, .. }: &Case) -> Bits {
    let height = Length::new::<meter>(place.height);
    let latitude = Angle::new::<degree>(place.latitude_deg);
    let longitude = Angle::new::<degree>(place.longitude_deg);
    GeomagneticField::new(height, latitude, longitude, *date)
        .map(|field| field.stored().map(f32::to_bits))
        .map_err(|_| 1)
}

fn main() -> ExitCode {
    let Some(Ok(rounds)) = env::args().nth(1).map(|word| word.parse()) else {
        eprintln!("time ROUNDS");
        return ExitCode::from(2);
    };
    let mut rng = Rng::new(SEED);
    let cases: Vec<Case> = (0..CASES).map(|_| case(&mut rng)).collect();
    let lent = [published::WMM2020, published::WMM2025];
    let of_oracle = WMM_MODELS.map(|model| entries::Set::of(&model));
    print_head();
    let agree = row_beside(
        "Field in degrees",
        rounds,
        &cases,
        |case| ours(case, &lent),
        |case| same(case, &of_oracle),
        whole,
    );
    if agree && cases.iter().all(|case| whole(case).is_ok()) {
        ExitCode::SUCCESS
    } else {
        ExitCode::FAILURE
    }
}
