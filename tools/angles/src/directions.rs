//! Declination and inclination: our angles beside double precision, beside the machine's C library,
//! and as the library has them.
use crate::beside::Beside;
use crate::library;
use crate::samples::{Sample, SAMPLES};
use oracle::angles::{declination, field_declination, inclination};
use oracle::cases::Rng;
use oracle::entries::components;
use oracle::machine;
use std::thread;

/// The error may be 2^-15 degree.
const POWER: i32 = 15;

/// Places are the two numbers: X and Y, or H and Z.
type Angles = Beside<[f32; 2]>;

#[derive(Copy, Clone, Default)]
struct Met {
    declination: Angles,
    inclination: Angles,
    /// Where the library is not the oracle's steps.
    library: u64,
}

/// The exact angle to some 50 binary digits. Where y is zero, document 02 says which one it is.
fn exact([x, y]: [f32; 2]) -> f64 {
    match (y == 0.0, x < 0.0) {
        (true, true) => 180.0,
        (true, false) => 0.0,
        _ => f64::from(y).atan2(f64::from(x)).to_degrees(),
    }
}

fn meet(angles: &mut Angles, ours: f32, [x, y]: [f32; 2]) {
    angles.meet(ours, machine::direction(x, y), exact([x, y]), [x, y]);
}

impl Met {
    /// Asks for the declination of X and Y, and for both angles of the field with Z.
    fn meet(&mut self, [x, y, z]: [f32; 3]) {
        let field = components([x, y, z]);
        let ours = declination(x, y).expect("two that can be used");
        let of_field = field_declination(&field).expect("three that can be used");
        let inclined = inclination(&field).expect("three that can be used");
        self.library += u64::from(library::declination(x, y) != Ok(ours.to_bits()));
        let both = [of_field, inclined].map(f32::to_bits);
        self.library += u64::from(library::directions([x, y, z]) != Ok(both));
        meet(&mut self.declination, ours, [x, y]);
        meet(&mut self.inclination, inclined, [field.h(), z]);
    }

    fn join(&mut self, other: Met) {
        self.declination.join(other.declination);
        self.inclination.join(other.inclination);
        self.library += other.library;
    }

    fn print(&self, name: &str) {
        let told =
            |[x, y]: [f32; 2]| format!("{x:?} {y:?} ({:08x} {:08x})", x.to_bits(), y.to_bits());
        println!("\n{name}");
        self.declination.print("declination", POWER, told);
        self.inclination.print("inclination", POWER, told);
    }
}

/// Half of a sample, by a seed of its own.
fn half(sample: &Sample, seed: u64) -> Met {
    let mut rng = Rng::new(seed);
    let mut met = Met::default();
    for place in 0..sample.count / 2 {
        met.meet((sample.field)(&mut rng, place));
    }
    met
}

/// Gives whether all is as it should be.
pub fn measure() -> bool {
    let mut all = Met::default();
    for (i, sample) in (0..).zip(&SAMPLES) {
        let second = thread::spawn(move || half(sample, 2 * i + 1));
        let mut met = half(sample, 2 * i);
        met.join(second.join().expect("the thread ends"));
        met.print(sample.name);
        all.join(met);
    }
    all.print("all");
    println!("{} answers of the library that differ", all.library);
    let most = f64::from(-POWER).exp2();
    let within = |angles: Angles| angles.error() <= most;
    within(all.declination) && within(all.inclination) && all.library == 0
}
