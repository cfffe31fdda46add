//! The largest of many sizes, and where it was met.

#[derive(Copy, Clone, Debug)]
pub struct Largest<T> {
    pub size: f64,
    pub at: Option<T>,
}

impl<T> Default for Largest<T> {
    fn default() -> Largest<T> {
        Largest {
            size: 0.0,
            at: None,
        }
    }
}

impl<T: Copy> Largest<T> {
    pub fn meet(&mut self, size: f64, at: T) {
        if size > self.size {
            *self = Largest { size, at: Some(at) };
        }
    }

    /// The larger of the two.
    pub fn join(&mut self, other: Largest<T>) {
        if let Some(at) = other.at {
            self.meet(other.size, at);
        }
    }
}
