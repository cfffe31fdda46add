// ---- Added to a copy of the crate's lib.rs by tools/whole-crate. Nothing above is changed.

// The derive of thiserror 1 names std.
extern crate std;

#[allow(missing_docs)]
impl GeomagneticField {
    /// X, Y and Z as the record holds them [nT].
    pub fn stored(&self) -> [f32; 3] {
        [self.x, self.y, self.z]
    }

    /// The same record with another X, Y and Z [nT].
    pub fn with_stored(&self, [x, y, z]: [f32; 3]) -> Self {
        Self {
            x,
            y,
            z,
            ..self.clone()
        }
    }
}
