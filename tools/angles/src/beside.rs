//! Our numbers beside exact ones and beside the machine's.
use crate::largest::Largest;

/// What was met. T says where.
#[derive(Copy, Clone)]
pub struct Beside<T> {
    asked: u64,
    /// Our distance from the exact number, and the machine's.
    error: Largest<T>,
    machine_error: Largest<T>,
    /// How many have other bits than the machine's, and our largest distance from it.
    differ: u64,
    apart: Largest<T>,
}

impl<T> Default for Beside<T> {
    fn default() -> Beside<T> {
        Beside {
            asked: 0,
            error: Largest::default(),
            machine_error: Largest::default(),
            differ: 0,
            apart: Largest::default(),
        }
    }
}

impl<T: Copy> Beside<T> {
    pub fn meet(&mut self, ours: f32, machine: f32, exact: f64, at: T) {
        let (a, b) = (f64::from(ours), f64::from(machine));
        self.asked += 1;
        self.error.meet((a - exact).abs(), at);
        self.machine_error.meet((b - exact).abs(), at);
        self.differ += u64::from(ours.to_bits() != machine.to_bits());
        self.apart.meet((a - b).abs(), at);
    }

    pub fn join(&mut self, other: Beside<T>) {
        self.asked += other.asked;
        self.error.join(other.error);
        self.machine_error.join(other.machine_error);
        self.differ += other.differ;
        self.apart.join(other.apart);
    }

    /// The largest error.
    pub fn error(&self) -> f64 {
        self.error.size
    }

    /// Prints all, in units of 2^-`power`. A place is told by `told`.
    pub fn print(&self, name: &str, power: i32, told: impl Fn(T) -> String) {
        let line = |what: &str, largest: Largest<T>| {
            let units = largest.size * f64::from(power).exp2();
            let at = largest.at.map_or("nowhere".into(), &told);
            println!("  {what} {units:.6} units of 2^-{power} at {at}");
        };
        let share = 100.0 * self.differ as f64 / self.asked as f64;
        println!("{name}: {} asked", self.asked);
        line("largest error", self.error);
        line("the machine's largest error", self.machine_error);
        println!("  {} are not the machine's bits, {share:.3} %", self.differ);
        line("largest distance from the machine's", self.apart);
    }
}
