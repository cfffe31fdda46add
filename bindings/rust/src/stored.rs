//! Stored sets: a coefficient set as bytes, to be kept in a file or handed across. include/njerumoy.h
//! says what each byte is.
use crate::refusal::{Carried, Refusal};
use crate::{sys, Day, Field, OwnedSet, OwnedSet13, Pair, Set, LIST_LENGTH};

/// The number of bytes of a stored set of degree 12, and of one of degree 13.
pub const STORED_LENGTH: usize = 1457;
pub const STORED_LENGTH_13: usize = 1681;

/// The bytes of a stored set of degree 12, which are never refused: they are written from a set, or were
/// read when they came.
#[derive(Clone, Debug, PartialEq, Eq)]
pub struct StoredSet {
    bytes: [u8; STORED_LENGTH],
}

impl StoredSet {
    /// The bytes of a set. Refusals 6, 7, then 20 where its epoch year is outside 0 to 65535.
    pub fn write(set: &Set) -> Result<StoredSet, Refusal> {
        let mut bytes = [0; STORED_LENGTH];
        set.write_stored(&mut bytes)?;
        Ok(StoredSet { bytes })
    }

    /// Bytes from elsewhere, such as a file. Refusals as those of `OwnedSet::read_stored`.
    pub fn from_bytes(stored: &[u8]) -> Result<StoredSet, Refusal> {
        OwnedSet::read_stored(stored)?;
        let mut bytes = [0; STORED_LENGTH];
        bytes.copy_from_slice(stored); // of this length, since they were read
        Ok(StoredSet { bytes })
    }

    /// What goes into a file.
    pub fn bytes(&self) -> &[u8; STORED_LENGTH] {
        &self.bytes
    }

    /// The set's epoch year, 0 to 65535.
    pub fn epoch_year(&self) -> i32 {
        epoch_year(&self.bytes)
    }

    /// As `field_stored`, of which only the refusals 1, 2, 3, 4, 5, 8 are left.
    #[inline]
    pub fn field(
        &self,
        height: f32,
        latitude: Pair,
        longitude: Pair,
        day: Day,
    ) -> Result<Field, Refusal> {
        field_stored(&self.bytes, height, latitude, longitude, day)
    }
}

/// Of bytes that were read.
#[inline]
fn epoch_year(stored: &[u8]) -> i32 {
    i32::from(u16::from_le_bytes([stored[3], stored[4]]))
}

impl OwnedSet {
    /// Reads a stored set of degree 12. Refusals 17, 18 and 19 of the first place in the bytes that is
    /// refused, then 7. Any epoch year is read: `field` refuses by 5 or 8.
    pub fn read_stored(stored: &[u8]) -> Result<OwnedSet, Refusal> {
        let mut set = OwnedSet::ZEROS;
        let mut carried = Carried::default();
        // SAFETY: each pointer and length are those of one slice or array; the places are locals, or
        // fields of one.
        let number = unsafe {
            sys::njerumoy_read_stored(
                stored.as_ptr(),
                stored.len(),
                set.g.as_mut_ptr(),
                LIST_LENGTH,
                set.h.as_mut_ptr(),
                LIST_LENGTH,
                set.g_dot.as_mut_ptr(),
                LIST_LENGTH,
                set.h_dot.as_mut_ptr(),
                LIST_LENGTH,
                &mut set.epoch_year,
                &mut carried.entry,
                &mut carried.place,
            )
        };
        match number {
            0 => Ok(set),
            _ => Err(Refusal::of(number, carried)),
        }
    }
}

impl<const N: usize> OwnedSet<N> {
    /// Reads a stored set whose lists have N entries, 90 or 104. Refusals 6 where N is neither; 17, 18
    /// and 19 of the first place in the bytes that is refused; 23 where the stored lists are of the
    /// other length; then 7. `EitherSet::read_stored` reads both.
    pub fn read_stored_either(stored: &[u8]) -> Result<OwnedSet<N>, Refusal> {
        let mut set = OwnedSet::<N>::ZEROS;
        let mut carried = Carried::default();
        // SAFETY: each pointer and length are those of one slice or array; the places are locals, or
        // fields of one.
        let number = unsafe {
            sys::njerumoy_read_stored_either(
                stored.as_ptr(),
                stored.len(),
                set.g.as_mut_ptr(),
                N,
                set.h.as_mut_ptr(),
                N,
                set.g_dot.as_mut_ptr(),
                N,
                set.h_dot.as_mut_ptr(),
                N,
                &mut set.epoch_year,
                &mut carried.entry,
                &mut carried.place,
            )
        };
        match number {
            0 => Ok(set),
            _ => Err(Refusal::of(number, carried)),
        }
    }
}

/// A set that owns its lists, of the degree that was stored.
#[derive(Clone, Debug, PartialEq)]
pub enum EitherSet {
    Degree12(OwnedSet),
    Degree13(OwnedSet13),
}

impl EitherSet {
    /// Reads a stored set of either degree. Refusals 17, 18 and 19 of the first place in the bytes that
    /// is refused, then 7. Any epoch year is read: `field` refuses by 5 or 8.
    pub fn read_stored(stored: &[u8]) -> Result<EitherSet, Refusal> {
        match OwnedSet::read_stored_either(stored) {
            Ok(set) => Ok(EitherSet::Degree12(set)),
            // by the stored lists alone, since those that were lent are of one length
            Err(Refusal::Degree) => OwnedSet::read_stored_either(stored).map(EitherSet::Degree13),
            Err(refusal) => Err(refusal),
        }
    }

    /// The set as the calls take it.
    pub fn as_set(&self) -> Set<'_> {
        match self {
            EitherSet::Degree12(set) => set.as_set(),
            EitherSet::Degree13(set) => set.as_set(),
        }
    }
}

impl Set<'_> {
    /// Writes a set of degree 12 as a stored set to the first `STORED_LENGTH` bytes; those beyond stay
    /// as they were. Refusals 6, 7, then 20 where there are fewer bytes or the epoch year is outside 0
    /// to 65535; a refused set leaves all bytes as they were.
    pub fn write_stored(&self, stored: &mut [u8]) -> Result<(), Refusal> {
        let mut carried = Carried::default();
        // SAFETY: each pointer and length are those of one slice, and the place is a local.
        let number = unsafe {
            sys::njerumoy_write_stored(
                self.epoch_year,
                self.g.as_ptr(),
                self.g.len(),
                self.h.as_ptr(),
                self.h.len(),
                self.g_dot.as_ptr(),
                self.g_dot.len(),
                self.h_dot.as_ptr(),
                self.h_dot.len(),
                stored.as_mut_ptr(),
                stored.len(),
                &mut carried.entry,
            )
        };
        match number {
            0 => Ok(()),
            _ => Err(Refusal::of(number, carried)),
        }
    }

    /// The same for a set of either degree: lists of 104 take the first `STORED_LENGTH_13` bytes.
    /// Refusals 6, 23, 7, then 20.
    pub fn write_stored_either(&self, stored: &mut [u8]) -> Result<(), Refusal> {
        let mut carried = Carried::default();
        // SAFETY: each pointer and length are those of one slice, and the place is a local.
        let number = unsafe {
            sys::njerumoy_write_stored_either(
                self.epoch_year,
                self.g.as_ptr(),
                self.g.len(),
                self.h.as_ptr(),
                self.h.len(),
                self.g_dot.as_ptr(),
                self.g_dot.len(),
                self.h_dot.as_ptr(),
                self.h_dot.len(),
                stored.as_mut_ptr(),
                stored.len(),
                &mut carried.entry,
            )
        };
        match number {
            0 => Ok(()),
            _ => Err(Refusal::of(number, carried)),
        }
    }
}

/// As `field`, with the set as stored bytes, which are handed to the library as they are: to the bit
/// what `field` says of the set that `OwnedSet::read_stored` reads. Refusals as those of
/// `OwnedSet::read_stored`, then 1, 2, 3, 4, 5, 8 as those of `field`.
#[inline]
pub fn field_stored(
    stored: &[u8],
    height: f32,
    latitude: Pair,
    longitude: Pair,
    day: Day,
) -> Result<Field, Refusal> {
    let (mut xyz, mut errors) = ([0.0; 3], [0.0; 8]);
    let mut carried = Carried::default();
    // SAFETY: the pointer and the length are those of one slice, and the places are locals.
    let number = unsafe {
        sys::njerumoy_field_stored(
            stored.as_ptr(),
            stored.len(),
            height,
            latitude.sin,
            latitude.cos,
            longitude.sin,
            longitude.cos,
            day.year,
            day.day_of_year,
            &mut xyz,
            &mut errors,
            &mut carried.entry,
            &mut carried.years,
            &mut carried.place,
        )
    };
    match number {
        0 => Ok(Field::of(epoch_year(stored), xyz, errors)),
        _ => Err(Refusal::of(number, carried)),
    }
}

/// The same for a stored set of either degree, as `EitherSet::read_stored` reads it.
#[inline]
pub fn field_stored_either(
    stored: &[u8],
    height: f32,
    latitude: Pair,
    longitude: Pair,
    day: Day,
) -> Result<Field, Refusal> {
    let (mut xyz, mut errors) = ([0.0; 3], [0.0; 8]);
    let mut carried = Carried::default();
    // SAFETY: the pointer and the length are those of one slice, and the places are locals.
    let number = unsafe {
        sys::njerumoy_field_stored_either(
            stored.as_ptr(),
            stored.len(),
            height,
            latitude.sin,
            latitude.cos,
            longitude.sin,
            longitude.cos,
            day.year,
            day.day_of_year,
            &mut xyz,
            &mut errors,
            &mut carried.entry,
            &mut carried.years,
            &mut carried.place,
        )
    };
    match number {
        0 => Ok(Field::of(epoch_year(stored), xyz, errors)),
        _ => Err(Refusal::of(number, carried)),
    }
}
