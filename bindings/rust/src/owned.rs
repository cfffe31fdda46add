//! A coefficient set that owns its lists: what is read from a coefficient file or a stored set.
use crate::refusal::{Carried, Refusal};
use crate::{sys, Set};

/// The length of each of the four lists of a set of degree 12, and of one of degree 13.
pub const LIST_LENGTH: usize = 90;
pub const LIST_LENGTH_13: usize = 104;

/// A coefficient set that owns its lists, of degree 12 where N is not given; `as_set` lends it to the
/// calls. Its year and its lists come from one file or one stored set.
#[derive(Clone, Debug, PartialEq)]
pub struct OwnedSet<const N: usize = LIST_LENGTH> {
    pub epoch_year: i32,
    /// Coefficients [nT].
    pub g: [f32; N],
    pub h: [f32; N],
    /// Their rates [nT a year].
    pub g_dot: [f32; N],
    pub h_dot: [f32; N],
}

/// One of degree 13.
pub type OwnedSet13 = OwnedSet<LIST_LENGTH_13>;

impl<const N: usize> OwnedSet<N> {
    /// What the library reads into.
    pub(crate) const ZEROS: OwnedSet<N> = OwnedSet {
        epoch_year: 0,
        g: [0.0; N],
        h: [0.0; N],
        g_dot: [0.0; N],
        h_dot: [0.0; N],
    };

    /// The set as the calls take it.
    pub fn as_set(&self) -> Set<'_> {
        Set {
            epoch_year: self.epoch_year,
            g: &self.g,
            h: &self.h,
            g_dot: &self.g_dot,
            h_dot: &self.h_dot,
        }
    }
}

impl OwnedSet {
    /// Reads the bytes of the agency's file WMM.COF; include/njerumoy.h says what a file is. Refusals
    /// 13 and 14 of the first line that is refused, then 7. Any whole epoch year is read: `field`
    /// refuses by 5 or 8.
    pub fn read_cof(text: &[u8]) -> Result<OwnedSet, Refusal> {
        let mut set = OwnedSet::ZEROS;
        let mut carried = Carried::default();
        // SAFETY: each pointer and length are those of one slice or array; the places are locals, or
        // fields of one.
        let number = unsafe {
            sys::njerumoy_read_cof(
                text.as_ptr(),
                text.len(),
                set.g.as_mut_ptr(),
                LIST_LENGTH,
                set.h.as_mut_ptr(),
                LIST_LENGTH,
                set.g_dot.as_mut_ptr(),
                LIST_LENGTH,
                set.h_dot.as_mut_ptr(),
                LIST_LENGTH,
                &mut set.epoch_year,
                &mut carried.entry,
                &mut carried.line,
            )
        };
        match number {
            0 => Ok(set),
            _ => Err(Refusal::of(number, carried)),
        }
    }
}
