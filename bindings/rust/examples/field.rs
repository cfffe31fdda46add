//! The field at one place and day, with the published set of 2025.
//!
//!   tools/build-library
//!   cargo run --manifest-path bindings/rust/Cargo.toml --example field
use njerumoy::{published, Day, Refusal};

fn main() -> Result<(), Refusal> {
    let day = Day {
        year: 2025,
        day_of_year: 1,
    };
    let field = njerumoy::field_in_degrees(0.0, 80.0, 0.0, day, &published::WMM2025)?;
    println!(
        "X {:.1}  Y {:.1}  Z {:.1}  H {:.1}  F {:.1} nT",
        field.x,
        field.y,
        field.z,
        field.h()?,
        field.f()?
    );
    Ok(())
}
