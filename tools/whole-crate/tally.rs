//! Counts of what differs, and the table.

/// One value that both sides have.
#[derive(Default)]
struct Row {
    compared: u64,
    differ: u64,
    steps: u64,
    size: f64,
    /// How many still differ when ours goes through the same conversions.
    remain: u64,
}

/// A row for each value, in the order of `NAMES`.
#[derive(Default)]
pub struct Tally {
    rows: [Row; NAMES.len()],
    /// Places that a side refused.
    pub refused: u64,
    /// Grid variations that differ by more than 1 degree.
    pub jumps: u64,
    first: Option<String>,
}

#[derive(Copy, Clone)]
pub enum Value {
    XStored,
    YStored,
    ZStored,
    X,
    Y,
    Z,
    H,
    F,
    Uncertainty,
    GridVariation,
    HasGridVariation,
    Zone,
}

const NAMES: [(&str, &str); 12] = [
    ("X as stored", "nT"),
    ("Y as stored", "nT"),
    ("Z as stored", "nT"),
    ("X as handed out", "nT"),
    ("Y as handed out", "nT"),
    ("Z as handed out", "nT"),
    ("H", "nT"),
    ("F", "nT"),
    ("declination uncertainty", "deg"),
    ("grid variation", "deg"),
    ("has a grid variation", ""),
    ("warning zone", ""),
];

/// How many steps lie between a and b. The two zeros are at one place.
fn steps(a: f32, b: f32) -> u64 {
    let place = |x: f32| {
        let size = i64::from(x.to_bits() & 0x7fff_ffff);
        if x.is_sign_negative() {
            -size
        } else {
            size
        }
    };
    place(a).abs_diff(place(b))
}

impl Tally {
    /// Notes our value, the crate's, and ours sent through the crate's conversions.
    pub fn number(&mut self, value: Value, ours: f32, theirs: f32, converted: f32) {
        let row = &mut self.rows[value as usize];
        row.compared += 1;
        row.remain += u64::from(converted.to_bits() != theirs.to_bits());
        if ours.to_bits() != theirs.to_bits() {
            row.differ += 1;
            row.steps = row.steps.max(steps(ours, theirs));
            row.size = row.size.max((f64::from(ours) - f64::from(theirs)).abs());
        }
    }

    /// Notes something that is no number.
    pub fn kind<T: PartialEq>(&mut self, value: Value, ours: T, theirs: T, converted: T) {
        let row = &mut self.rows[value as usize];
        row.compared += 1;
        row.differ += u64::from(ours != theirs);
        row.remain += u64::from(converted != theirs);
    }

    /// How many differ.
    pub fn differ(&self, value: Value) -> u64 {
        self.rows[value as usize].differ
    }

    /// What no conversion explains.
    pub fn unexplained(&self) -> u64 {
        self.refused + self.rows.iter().map(|row| row.remain).sum::<u64>()
    }

    /// Keeps the place where something first happened that no conversion explains.
    pub fn keep_first(&mut self, place: impl FnOnce() -> String) {
        if self.first.is_none() && self.unexplained() > 0 {
            self.first = Some(place());
        }
    }

    pub fn print(&self) {
        println!(
            "{:<24} {:>10} {:>10} {:>8} {:>11} {:>12} {:>12}",
            "value", "compared", "differ", "", "most steps", "by at most", "unexplained"
        );
        for (row, (name, unit)) in self.rows.iter().zip(NAMES) {
            let part = 100.0 * row.differ as f64 / row.compared.max(1) as f64;
            print!(
                "{name:<24} {:>10} {:>10} {part:>6.2} %",
                row.compared, row.differ
            );
            if unit.is_empty() {
                print!("{:>12}{:>13}", "", "");
            } else {
                print!(" {:>11} {:>8.6} {unit:<3}", row.steps, row.size);
            }
            println!(" {:>12}", row.remain);
        }
        println!("places refused: {}", self.refused);
        println!("grid variations more than 1 degree apart: {}", self.jumps);
        if let Some(place) = &self.first {
            println!("first unexplained: {place}");
        }
    }
}
