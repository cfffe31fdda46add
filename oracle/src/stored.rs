//! A stored set: five tagged fields, the epoch year and the lists g, h, g_dot, h_dot. README.md has
//! the whole rule.
use crate::coefficients::{check_entries, check_stored_lists};
use crate::entries::{Place, Refusal};
use crate::field::GeomagneticField;
use crate::reading::{read_into, Found};
use crate::tables::N_COEFF;

/// The bytes of a tag and a length.
const HEAD: usize = 3;
/// The bytes of an epoch year, of an f32 and of a list.
const YEAR: usize = 2;
const ENTRY: usize = 4;
const LIST: usize = ENTRY * N_COEFF;
/// The tags: of the epoch year, and of the first list. The others follow it.
const YEAR_TAG: u8 = 1;
const FIRST_LIST_TAG: u8 = 2;
/// The bytes of a stored set.
pub const STORED_LENGTH: usize = HEAD + YEAR + 4 * (HEAD + LIST);

/// What a field begins with: its tag, and the length of its content, low byte first.
fn head(tag: u8, length: usize) -> [u8; HEAD] {
    let [low, high] = (length as u16).to_le_bytes();
    [tag, low, high]
}

/// Stored bytes, and how many of them were taken.
struct Fields<'a> {
    bytes: &'a [u8],
    taken: usize,
}

impl<'a> Fields<'a> {
    /// The next N bytes. Refusal 19 where there are fewer.
    fn take<const N: usize>(&mut self) -> Result<&'a [u8; N], Refusal> {
        let place = self.bytes.len();
        let next = self.bytes[self.taken..].first_chunk();
        let next = next.ok_or(Refusal::WrongEnd { place })?;
        self.taken += N;
        Ok(next)
    }

    /// The content of the next field, which must have this tag and N bytes. Refusals 17, 18, 19.
    fn content<const N: usize>(&mut self, tag: u8) -> Result<&'a [u8; N], Refusal> {
        let place = self.taken;
        let [expected, length @ ..] = head(tag, N);
        if *self.take()? != [expected] {
            return Err(Refusal::WrongTag { place });
        }
        if *self.take()? != length {
            return Err(Refusal::WrongLength { place: place + 1 });
        }
        self.take()
    }

    /// Refusal 19 where bytes are left over.
    fn end(&self) -> Result<(), Refusal> {
        if self.taken == self.bytes.len() {
            Ok(())
        } else {
            Err(Refusal::WrongEnd { place: self.taken })
        }
    }
}

/// The epoch year and the four lists of a stored set. Refusals 17, 18 and 19, at the first place that
/// has one.
fn read_fields(bytes: &[u8]) -> Result<Found, Refusal> {
    let mut fields = Fields { bytes, taken: 0 };
    let epoch_year = u16::from_le_bytes(*fields.content(YEAR_TAG)?);
    let mut lists = [[0.0; N_COEFF]; 4];
    for (list, tag) in lists.iter_mut().zip(FIRST_LIST_TAG..) {
        let content = fields.content::<LIST>(tag)?.chunks_exact(ENTRY);
        for (entry, bits) in list.iter_mut().zip(content) {
            *entry = f32::from_le_bytes([bits[0], bits[1], bits[2], bits[3]]);
        }
    }
    fields.end()?;
    Ok((epoch_year.into(), lists))
}

/// Reads a stored set into four lists of 90, and gives its epoch year. Refusals 6, then 17, 18 and
/// 19, then 7. Refused bytes leave the lists as they were.
pub fn read_stored(
    bytes: &[u8],
    g: &mut [f32],
    h: &mut [f32],
    g_dot: &mut [f32],
    h_dot: &mut [f32],
) -> Result<i32, Refusal> {
    read_into([g, h, g_dot, h_dot], || read_fields(bytes))
}

/// Writes a set into the first 1,457 bytes. Refusals 6, 7, then 20: too few bytes, or an epoch year
/// that two bytes do not hold. A refused set leaves the bytes as they were.
pub fn write_stored(
    epoch_year: i32,
    g: &[f32],
    h: &[f32],
    g_dot: &[f32],
    h_dot: &[f32],
    bytes: &mut [u8],
) -> Result<(), Refusal> {
    let lists = check_stored_lists([g, h, g_dot, h_dot])?;
    let epoch_year = u16::try_from(epoch_year).map_err(|_| Refusal::NoRoom)?;
    let bytes = bytes.get_mut(..STORED_LENGTH).ok_or(Refusal::NoRoom)?;
    let (year, fields) = bytes.split_at_mut(HEAD + YEAR);
    year[..HEAD].copy_from_slice(&head(YEAR_TAG, YEAR));
    year[HEAD..].copy_from_slice(&epoch_year.to_le_bytes());
    let fields = fields.chunks_exact_mut(HEAD + LIST);
    for ((field, list), tag) in fields.zip(lists).zip(FIRST_LIST_TAG..) {
        let (start, content) = field.split_at_mut(HEAD);
        start.copy_from_slice(&head(tag, LIST));
        for (bits, entry) in content.chunks_exact_mut(ENTRY).zip(list) {
            bits.copy_from_slice(&entry.to_le_bytes());
        }
    }
    Ok(())
}

/// Field with a stored set. Refusals 17, 18, 19 and 7 of the bytes, then Field's: 1, 2, 3, 4, 5, 8.
pub fn field_stored(bytes: &[u8], place: &Place) -> Result<GeomagneticField, Refusal> {
    let (epoch_year, lists) = read_fields(bytes)?;
    check_entries(lists.each_ref())?;
    place.field_by(epoch_year, lists.each_ref().map(<[f32; N_COEFF]>::as_slice))
}
