//! The readers of the agency's file and of stored sets, ours and the oracle's, with all that a call
//! can write.
use crate::tally::Tally;
use njerumoy::sys::{njerumoy_read_cof, njerumoy_read_stored};
use oracle::agency::read_cof;
use oracle::entries::Refusal;
use oracle::stored::read_stored;

/// The length of a list that is taken.
pub const LENGTH: usize = 90;
/// The longest list that can be lent here.
pub const LONGEST: usize = 128;

/// The places that a call is lent. At first each holds a mark, so that it shows what was written.
#[derive(Clone, Debug)]
pub struct Places {
    pub lists: [[f32; LONGEST]; 4],
    pub epoch_year: i32,
    entry: [usize; 2],
    /// The line of a file, or the place in stored bytes.
    at: usize,
}

impl Places {
    pub fn unwritten() -> Places {
        Places {
            lists: [[f32::MAX; LONGEST]; 4],
            epoch_year: i32::MIN,
            entry: [usize::MAX; 2],
            at: usize::MAX,
        }
    }

    /// The first entry, list and index, whose bits are not the same. 0 and -0 are two.
    fn first_other(&self, other: &Places) -> Option<(usize, usize)> {
        let pairs = self
            .lists
            .iter()
            .flatten()
            .zip(other.lists.iter().flatten());
        let differ = |(x, y): (&f32, &f32)| x.to_bits() != y.to_bits();
        let at = pairs.map(differ).position(|differ| differ)?;
        Some((at / LONGEST, at % LONGEST))
    }

    fn left_alone(&self) -> bool {
        self.lists.iter().flatten().all(|x| *x == f32::MAX)
    }
}

impl PartialEq for Places {
    fn eq(&self, other: &Places) -> bool {
        self.first_other(other).is_none()
            && self.epoch_year == other.epoch_year
            && self.entry == other.entry
            && self.at == other.at
    }
}

/// The answer's number, 0 or the refusal's, and the places after the call.
pub type Answer = (u32, Places);

fn told((number, places): &Answer) -> String {
    let Places {
        epoch_year,
        entry,
        at,
        ..
    } = places;
    let lists = if places.left_alone() {
        "left alone"
    } else {
        "written"
    };
    format!("{number}, year {epoch_year}, entry {entry:?}, line or place {at}, lists {lists}")
}

type OurReader = unsafe extern "C" fn(
    *const u8,
    usize,
    *mut f32,
    usize,
    *mut f32,
    usize,
    *mut f32,
    usize,
    *mut f32,
    usize,
    &mut i32,
    &mut [usize; 2],
    &mut usize,
) -> u32;
type RustReader = fn(&[u8], &mut [f32], &mut [f32], &mut [f32], &mut [f32]) -> Result<i32, Refusal>;

/// A reader, the proved one and the oracle's.
pub struct Reader {
    ours: OurReader,
    rust: RustReader,
}

/// The readers of the agency's file and of stored sets.
pub const COF: Reader = Reader {
    ours: njerumoy_read_cof,
    rust: read_cof,
};
pub const STORED: Reader = Reader {
    ours: njerumoy_read_stored,
    rust: read_stored,
};

impl Reader {
    /// The number of the proved reader, with lists of these lengths, each at most `LONGEST`.
    pub fn ours_into(&self, places: &mut Places, bytes: &[u8], lengths: [usize; 4]) -> u32 {
        let [g, h, g_dot, h_dot] = &mut places.lists;
        let [g, h, g_dot, h_dot] = [
            &mut g[..lengths[0]],
            &mut h[..lengths[1]],
            &mut g_dot[..lengths[2]],
            &mut h_dot[..lengths[3]],
        ];
        // SAFETY: each pointer and length are those of one slice, and no two places overlap.
        unsafe {
            (self.ours)(
                bytes.as_ptr(),
                bytes.len(),
                g.as_mut_ptr(),
                g.len(),
                h.as_mut_ptr(),
                h.len(),
                g_dot.as_mut_ptr(),
                g_dot.len(),
                h_dot.as_mut_ptr(),
                h_dot.len(),
                &mut places.epoch_year,
                &mut places.entry,
                &mut places.at,
            )
        }
    }

    /// That of the oracle's reader. Its answer is written into the places by the rule of the C entries.
    pub fn rust_into(&self, places: &mut Places, bytes: &[u8], lengths: [usize; 4]) -> u32 {
        let [g, h, g_dot, h_dot] = &mut places.lists;
        let answer = (self.rust)(
            bytes,
            &mut g[..lengths[0]],
            &mut h[..lengths[1]],
            &mut g_dot[..lengths[2]],
            &mut h_dot[..lengths[3]],
        );
        match answer {
            Ok(epoch_year) => {
                places.epoch_year = epoch_year;
                0
            }
            Err(refusal) => {
                match refusal {
                    Refusal::Coefficient { list, index } => places.entry = [list, index],
                    Refusal::Malformed { line: at }
                    | Refusal::OutOfOrder { line: at }
                    | Refusal::WrongTag { place: at }
                    | Refusal::WrongLength { place: at }
                    | Refusal::WrongEnd { place: at } => places.at = at,
                    _ => {}
                }
                refusal.number()
            }
        }
    }

    /// The proved reader, with places of its own.
    pub fn ours(&self, bytes: &[u8], lengths: [usize; 4]) -> Answer {
        let mut places = Places::unwritten();
        (self.ours_into(&mut places, bytes, lengths), places)
    }

    /// The oracle's.
    pub fn rust(&self, bytes: &[u8], lengths: [usize; 4]) -> Answer {
        let mut places = Places::unwritten();
        (self.rust_into(&mut places, bytes, lengths), places)
    }

    /// Compares the two readers. A refusal must leave the lists alone.
    pub fn compare(&self, tally: &mut Tally, name: &str, bytes: &[u8], lengths: [usize; 4]) {
        let (our, their) = (self.ours(bytes, lengths), self.rust(bytes, lengths));
        let same = our == their && (our.0 == 0 || our.1.left_alone());
        tally.count(their.0, same, || {
            let lists = match our.1.first_other(&their.1) {
                Some((list, index)) => {
                    format!("\n  the lists differ, first at list {list}, index {index}")
                }
                None => String::new(),
            };
            format!(
                "{name}:\n  ours {}\n  Rust {}{lists}",
                told(&our),
                told(&their)
            )
        });
    }
}
