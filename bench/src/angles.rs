//! The rows in degrees. Our bits are compared with the oracle's steps, and our time with that of the
//! machine's C library: its f32 functions, with angles through radians as the crate has them.
use crate::cases::{Both, Components, DegreeCase, Random};
use crate::{bits, refused, Bits, CASES};
use bench::timing::row_beside;
use njerumoy::Day;
use oracle::angles;
use oracle::entries::Place;
use oracle::machine;

fn our_pair(degrees: &f32) -> Bits {
    njerumoy::sine_and_cosine(*degrees)
        .map_err(|k| k.number())
        .and_then(|pair| bits(pair.sin, pair.cos, 0.0))
}

fn same_pair(degrees: &f32) -> Bits {
    angles::sine_and_cosine(*degrees)
        .map_err(refused)
        .and_then(|(sine, cosine)| bits(sine, cosine, 0.0))
}

fn machines_pair(degrees: &f32) -> Bits {
    let (sine, cosine) = machine::pair(*degrees);
    bits(sine, cosine, 0.0)
}

fn our_declination([x, y, _]: &Components) -> Bits {
    njerumoy::declination(*x, *y)
        .map_err(|k| k.number())
        .and_then(|d| bits(d, 0.0, 0.0))
}

fn same_declination([x, y, _]: &Components) -> Bits {
    angles::declination(*x, *y)
        .map_err(refused)
        .and_then(|d| bits(d, 0.0, 0.0))
}

fn machines_declination([x, y, _]: &Components) -> Bits {
    bits(machine::direction(*x, *y), 0.0, 0.0)
}

fn our_field(DegreeCase { place, set }: &DegreeCase, sets: &[Both]) -> Bits {
    let day = Day {
        year: place.year,
        day_of_year: place.day,
    };
    let (latitude, longitude) = (place.latitude_deg, place.longitude_deg);
    njerumoy::field_in_degrees(place.height, latitude, longitude, day, &sets[*set].ours)
        .map_err(|k| k.number())
        .and_then(|v| bits(v.x, v.y, v.z))
}

fn same_field(DegreeCase { place, set }: &DegreeCase, sets: &[Both]) -> Bits {
    place
        .field(&sets[*set].rust)
        .map_err(refused)
        .and_then(|v| bits(v.x, v.y, v.z))
}

/// Field of the oracle, with the machine's sines and cosines in front of it.
fn machines_field(DegreeCase { place, set }: &DegreeCase, sets: &[Both]) -> Bits {
    let (sin_phi, cos_phi) = machine::pair(place.latitude_deg);
    let (sin_lambda, cos_lambda) = machine::pair(place.longitude_deg);
    let lent = Place {
        height: place.height,
        sin_phi,
        cos_phi,
        sin_lambda,
        cos_lambda,
        year: place.year,
        day: place.day,
    };
    lent.field(&sets[*set].rust)
        .map_err(refused)
        .and_then(|v| bits(v.x, v.y, v.z))
}

/// Gives whether our bits are the oracle's.
pub fn rows(random: &mut Random, rounds: usize, sets: &[Both]) -> bool {
    let degrees = random.angles(CASES);
    let components = random.components(CASES);
    let places = random.degree_fields(CASES);
    let same = [
        row_beside(
            "sine and cosine",
            rounds,
            &degrees,
            our_pair,
            same_pair,
            machines_pair,
        ),
        row_beside(
            "declination",
            rounds,
            &components,
            our_declination,
            same_declination,
            machines_declination,
        ),
        row_beside(
            "Field in degrees",
            rounds,
            &places,
            |c| our_field(c, sets),
            |c| same_field(c, sets),
            |c| machines_field(c, sets),
        ),
    ];
    same.iter().all(|same| *same)
}
