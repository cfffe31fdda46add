//! The proved library's calls, each answer as bits or as the number of a refusal.
use njerumoy::{published, Day, Errors, Field, Set};
use oracle::angles::DegreePlace;

pub fn pair(degrees: f32) -> Result<[u32; 2], u32> {
    njerumoy::sine_and_cosine(degrees)
        .map(|pair| [pair.sin, pair.cos].map(f32::to_bits))
        .map_err(|refusal| refusal.number())
}

pub fn declination(x: f32, y: f32) -> Result<u32, u32> {
    njerumoy::declination(x, y)
        .map(f32::to_bits)
        .map_err(|refusal| refusal.number())
}

/// Declination and inclination of a field.
pub fn directions([x, y, z]: [f32; 3]) -> Result<[u32; 2], u32> {
    let field = Field {
        x,
        y,
        z,
        epoch_year: 2025,
        errors: Errors::default(),
    };
    let declination = field.declination().map_err(|refusal| refusal.number())?;
    let inclination = field.inclination().map_err(|refusal| refusal.number())?;
    Ok([declination, inclination].map(f32::to_bits))
}

/// X, Y and Z by the published set of the day.
pub fn field(place: &DegreePlace) -> Result<[u32; 3], u32> {
    let sets: [Set<'static>; 2] = [published::WMM2020, published::WMM2025];
    let day = Day {
        year: place.year,
        day_of_year: place.day,
    };
    let set = &sets[usize::from(place.year >= sets[1].epoch_year)];
    let (latitude, longitude) = (place.latitude_deg, place.longitude_deg);
    njerumoy::field_in_degrees(place.height, latitude, longitude, day, set)
        .map(|field| [field.x, field.y, field.z].map(f32::to_bits))
        .map_err(|refusal| refusal.number())
}
