//! Every f32 from -180 to 180 degrees: our sine and cosine beside double precision, beside the
//! machine's C library, and as the library has them.
use crate::beside::Beside;
use crate::library;
use oracle::angles::sine_and_cosine;
use oracle::entries::off_the_circle;
use oracle::machine;
use std::thread;

/// The bits of 180, the largest size.
const LAST: u32 = 0x4334_0000;
/// The error may be 2^-22.
const POWER: i32 = 22;
const NAMES: [&str; 2] = ["sine", "cosine"];

#[derive(Default)]
struct Met {
    /// The sines, and the cosines. Places are angles in degrees.
    parts: [Beside<f32>; 2],
    off_the_circle: u64,
    /// Where the library is not the oracle's steps.
    library: u64,
}

/// The exact sine and cosine to some 50 binary digits: the angle from the nearest multiple of 90
/// degrees has no error, and is small.
fn exact(degrees: f32) -> (f64, f64) {
    let degrees = f64::from(degrees);
    let quarter = (degrees / 90.0).round();
    let (s, c) = (degrees - 90.0 * quarter).to_radians().sin_cos();
    match quarter as i32 {
        0 => (s, c),
        1 => (c, -s),
        -1 => (-c, s),
        _ => (-s, -c),
    }
}

impl Met {
    fn meet(&mut self, degrees: f32) {
        let (s, c) = sine_and_cosine(degrees).expect("an angle that is accepted");
        let (machine, exact) = (machine::pair(degrees), exact(degrees));
        self.parts[0].meet(s, machine.0, exact.0, degrees);
        self.parts[1].meet(c, machine.1, exact.1, degrees);
        self.off_the_circle += u64::from(off_the_circle(s, c));
        self.library += u64::from(library::pair(degrees) != Ok([s, c].map(f32::to_bits)));
    }

    fn join(&mut self, other: Met) {
        for (part, other) in self.parts.iter_mut().zip(other.parts) {
            part.join(other);
        }
        self.off_the_circle += other.off_the_circle;
        self.library += other.library;
    }
}

/// All angles of one sign.
fn all(sign: u32) -> Met {
    let mut met = Met::default();
    for bits in 0..=LAST {
        met.meet(f32::from_bits(bits | sign));
    }
    met
}

/// The bits of the sine and of the cosine: ours, then the machine's.
fn both(degrees: i32) -> [[u32; 2]; 2] {
    let ours = sine_and_cosine(degrees as f32).expect("an angle that is accepted");
    let machine = machine::pair(degrees as f32);
    [ours, machine].map(|pair| [pair.0, pair.1].map(f32::to_bits))
}

/// Prints the whole degrees whose sine, or whose cosine, has not the machine's bits: each with ours and
/// with the machine's. Those below zero are the same but for the sign of the sine.
fn whole_degrees() {
    const SIGN: u32 = 1 << 31;
    let mirrored = |degrees: i32| both(-degrees).map(|[s, c]| [s ^ SIGN, c]) == both(degrees);
    let other = (1..=180).filter(|degrees| !mirrored(*degrees)).count();
    println!("whole degrees below zero that are not the mirror of those above: {other}");
    for (part, name) in NAMES.iter().enumerate() {
        let mut list = Vec::new();
        for degrees in 0..=180 {
            let [ours, machine] = both(degrees).map(|pair| pair[part]);
            if ours != machine {
                list.push(format!("{degrees:>3} {ours:08x} {machine:08x}"));
            }
        }
        println!("{name}: {} whole degrees from 0 to 180 differ", list.len());
        for line in list.chunks(5) {
            println!("    {}", line.join("   "));
        }
    }
}

/// Gives whether all is as it should be.
pub fn measure() -> bool {
    let below = thread::spawn(|| all(1 << 31));
    let mut met = all(0);
    met.join(below.join().expect("the thread ends"));
    for (name, part) in NAMES.iter().zip(&met.parts) {
        part.print(name, POWER, |at| format!("{at:?} ({:08x})", at.to_bits()));
    }
    println!("{} pairs off the circle", met.off_the_circle);
    println!("{} pairs of the library that differ", met.library);
    whole_degrees();
    let most = f64::from(-POWER).exp2();
    let within = |part: &Beside<f32>| part.error() <= most;
    met.parts.iter().all(within) && met.off_the_circle == 0 && met.library == 0
}
