//! The yearly change of the field at one place and day, with the published set of 2025: what is added to
//! an old sheet for each year.
//!
//!   tools/build-library
//!   cargo run --manifest-path bindings/rust/Cargo.toml --example rates
use njerumoy::{published, sine_and_cosine, Day, Refusal};

fn main() -> Result<(), Refusal> {
    let day = Day {
        year: 2025,
        day_of_year: 1,
    };
    let (latitude, longitude) = (sine_and_cosine(80.0)?, sine_and_cosine(0.0)?);
    let rates = njerumoy::rates(0.0, latitude, longitude, day, &published::WMM2025)?;
    println!(
        "X {:+.1}  Y {:+.1}  Z {:+.1}  H {:+.1}  F {:+.1} nT/yr  D {:+.3}  I {:+.3} deg/yr",
        rates.x, rates.y, rates.z, rates.h, rates.f, rates.declination, rates.inclination
    );
    Ok(())
}
