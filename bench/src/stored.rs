//! The writer of stored sets, and Field with one, ours and the oracle's, with all that a call can write.
use crate::listed::{self, field_answer};
use njerumoy::sys::{njerumoy_field_stored, njerumoy_write_stored};
use oracle::entries::{Place, Refusal, Set};
use oracle::format::MAX_STORED;
use oracle::stored::{field_stored, write_stored};

/// What stands in the bytes before a set is written.
const MARK: u8 = 0xa5;
/// More bytes than any room has: those behind it show what was written there.
pub const BYTES: usize = MAX_STORED + 96;

/// The places that the writer is lent.
#[derive(Clone, Debug, PartialEq)]
pub struct Places {
    pub stored: [u8; BYTES],
    entry: [usize; 2],
}

impl Places {
    pub fn unwritten() -> Places {
        Places {
            stored: [MARK; BYTES],
            entry: [usize::MAX; 2],
        }
    }

    /// Whether all bytes from here on are left alone.
    pub fn left_alone_from(&self, start: usize) -> bool {
        self.stored[start..].iter().all(|byte| *byte == MARK)
    }
}

/// The answer's number, 0 or the refusal's, and the places after the call.
pub type Answer = (u32, Places);

pub fn told((number, places): &Answer) -> String {
    format!("{number}, entry {:?}", places.entry)
}

/// The number of the proved writer, with so much room.
pub fn our_write_into(places: &mut Places, set: &Set, room: usize) -> u32 {
    let [g, h, g_dot, h_dot] = &set.lists;
    let stored = &mut places.stored[..room];
    // SAFETY: each pointer and length are those of one slice, and no two places overlap.
    unsafe {
        njerumoy_write_stored(
            set.epoch_year,
            g.as_ptr(),
            g.len(),
            h.as_ptr(),
            h.len(),
            g_dot.as_ptr(),
            g_dot.len(),
            h_dot.as_ptr(),
            h_dot.len(),
            stored.as_mut_ptr(),
            stored.len(),
            &mut places.entry,
        )
    }
}

/// That of the oracle's writer. Its answer is written into the places by the rule of the C entry.
pub fn rust_write_into(places: &mut Places, set: &Set, room: usize) -> u32 {
    let [g, h, g_dot, h_dot] = set.slices();
    let stored = &mut places.stored[..room];
    match write_stored(set.epoch_year, g, h, g_dot, h_dot, stored) {
        Ok(()) => 0,
        Err(refusal) => {
            if let Refusal::Coefficient { list, index } = refusal {
                places.entry = [list, index];
            }
            refusal.number()
        }
    }
}

/// The proved writer, with places of its own.
pub fn our_write(set: &Set, room: usize) -> Answer {
    let mut places = Places::unwritten();
    (our_write_into(&mut places, set, room), places)
}

/// The oracle's.
pub fn rust_write(set: &Set, room: usize) -> Answer {
    let mut places = Places::unwritten();
    (rust_write_into(&mut places, set, room), places)
}

/// The proved Field with a stored set.
pub fn our_field(stored: &[u8], place: &Place) -> listed::Answer {
    let mut places = listed::Places::unwritten();
    // SAFETY: as above.
    let number = unsafe {
        njerumoy_field_stored(
            stored.as_ptr(),
            stored.len(),
            place.height,
            place.sin_phi,
            place.cos_phi,
            place.sin_lambda,
            place.cos_lambda,
            place.year,
            place.day,
            &mut places.xyz,
            &mut places.errors,
            &mut places.entry,
            &mut places.years,
            &mut places.place,
        )
    };
    (number, places)
}

/// The oracle's.
pub fn rust_field(stored: &[u8], place: &Place) -> listed::Answer {
    field_answer(field_stored(stored, place))
}
