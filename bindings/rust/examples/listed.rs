//! The field at one place and day, with error figures from a lent list: a new edition of them needs no
//! new library. The figures of this list are made up.
//!
//!   tools/build-library
//!   cargo run --manifest-path bindings/rust/Cargo.toml --example listed
use njerumoy::{published, sine_and_cosine, Day, ErrorRecord, Errors, Refusal};

/// The first record of the day's epoch year is used.
const RECORDS: [ErrorRecord; 1] = [ErrorRecord {
    epoch_year: 2025,
    figures: Errors {
        declination_sigma_c: 0.25,
        declination_sigma_v: 5000.0,
        inclination: 0.18,
        f: 130.0,
        h: 125.0,
        x: 131.0,
        y: 85.0,
        z: 135.0,
    },
}];

fn main() -> Result<(), Refusal> {
    let day = Day {
        year: 2025,
        day_of_year: 1,
    };
    let set = published::WMM2025;
    let (latitude, longitude) = (sine_and_cosine(80.0)?, sine_and_cosine(0.0)?);
    let field = njerumoy::field_listed(0.0, latitude, longitude, day, &set, &RECORDS)?;
    println!(
        "X {:.1} +- {:.0}  Y {:.1} +- {:.0}  Z {:.1} +- {:.0} nT  D +- {:.2} deg",
        field.x,
        field.errors.x,
        field.y,
        field.errors.y,
        field.z,
        field.errors.z,
        field.declination_uncertainty_listed(&RECORDS)?
    );
    Ok(())
}
