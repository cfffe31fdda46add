//! The field at one place and day, from a stored set: the published set of 2025 is written to a file, and
//! what is read of that file is handed to the library as it is.
//!
//!   tools/build-library
//!   cargo run --manifest-path bindings/rust/Cargo.toml --example stored WMM2025.set
use njerumoy::{published, sine_and_cosine, Day, StoredSet};
use std::error::Error;
use std::{env, fs};

fn main() -> Result<(), Box<dyn Error>> {
    let path = env::args_os().nth(1).ok_or("usage: stored FILE")?;
    fs::write(&path, StoredSet::write(&published::WMM2025)?.bytes())?;

    let day = Day {
        year: 2025,
        day_of_year: 1,
    };
    let (latitude, longitude) = (sine_and_cosine(80.0)?, sine_and_cosine(0.0)?);
    let field = njerumoy::field_stored(&fs::read(&path)?, 0.0, latitude, longitude, day)?;
    println!(
        "X {:.1}  Y {:.1}  Z {:.1}  H {:.1}  F {:.1} nT",
        field.x,
        field.y,
        field.z,
        field.h()?,
        field.f()?
    );
    Ok(())
}
