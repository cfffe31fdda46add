//! The machine's C library in f32, asked as the crate asks its own. The crate's angles go through
//! radians: its library of units multiplies by these two factors, and each product rounds.

/// The radians of a degree.
const RADIANS: f32 = 0.017453292;
/// The degrees of a radian: one over the factor above, rounded.
const DEGREES: f32 = 57.29578;

/// The sine and the cosine of an angle in degrees.
pub fn pair(degrees: f32) -> (f32, f32) {
    let radians = degrees * RADIANS;
    (radians.sin(), radians.cos())
}

/// The angle from the x axis to the y axis, in degrees.
pub fn direction(x: f32, y: f32) -> f32 {
    y.atan2(x) * DEGREES
}
