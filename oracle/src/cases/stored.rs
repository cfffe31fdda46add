//! Stored sets, for SREAD: planned ones, in groups, and random ones. And sets and rooms, for SWRITE.
//! As for lists of error records, their walks are apart from those of the other kinds.
use super::lists::{self, DEGREE_12};
use super::rng::{plan, plans, random_plan, Rng, Walk};
use super::{Generator, Kind};
use crate::entries::{Set, CAPS};
use crate::format::{Case, MAX_STORED};
use crate::stored::STORED_LENGTH;
use crate::tables::{N_COEFF, N_COEFF_MAX};
use std::collections::BTreeSet;

const FIELDS: usize = 5;
/// Where each field begins, and the end.
pub const STARTS: [usize; FIELDS + 1] = [0, 5, 368, 731, 1094, STORED_LENGTH];
/// A tag and the two bytes of a length.
const HEAD: usize = 3;
const HEADS: usize = FIELDS * HEAD;
/// How many bytes more than a set has are planned.
const MORE: usize = 8;
/// How many bytes more a list with one degree more has.
const LONGER_BY: usize = 4 * (N_COEFF_MAX - N_COEFF);
/// Kinds of faults: a tag or a length of each field, a byte left over, an entry of each list, and the
/// end within each field.
const FAULTS: usize = 4 * FIELDS;

/// What planned bytes are about.
#[derive(Copy, Clone, Debug, PartialEq)]
pub enum Group {
    /// Every length, from no byte to 8 more than a set has.
    Length,
    /// Each byte of a tag or a length with each other value.
    Head,
    /// Each bit turned over.
    Bit,
    /// Each field left out, again at each place, and in the place of each other.
    Field,
    /// Each special entry at each place.
    Entry,
    /// One list or all with a degree more, and their lengths as they are or as they were.
    Longer,
    /// Special sets: lists of wrong lengths, and spoilt entries.
    Set,
    /// Every fault alone, and every two.
    Faults,
}

/// Every group, its name, and the number of its byte strings.
pub const GROUPS: [(Group, &str, usize); 8] = [
    (Group::Length, "every length", STORED_LENGTH + MORE + 1),
    (Group::Head, "a byte of a tag or a length", HEADS * 255),
    (Group::Bit, "a bit turned over", 8 * STORED_LENGTH),
    (Group::Field, "fields left out, again, swapped", FIELDS * 12),
    (
        Group::Entry,
        "a special entry",
        4 * N_COEFF * lists::ENTRIES,
    ),
    (Group::Longer, "lists with a degree more", 2 * FIELDS),
    (Group::Set, "special sets", DEGREE_12.sets()),
    (Group::Faults, "every two faults", FAULTS * FAULTS),
];

/// The number of planned byte strings.
fn planned_strings() -> usize {
    GROUPS.iter().map(|(_, _, ways)| ways).sum()
}

/// The five fields of a good set.
fn fields(good: &[u8]) -> Vec<&[u8]> {
    STARTS
        .windows(2)
        .map(|ends| &good[ends[0]..ends[1]])
        .collect()
}

/// Four lists as fields, whatever their lengths.
fn list_fields(lists: &[Vec<f32>; 4]) -> Vec<u8> {
    let mut bytes = Vec::new();
    for (tag, list) in (2..).zip(lists) {
        bytes.push(tag);
        bytes.extend((4 * list.len() as u16).to_le_bytes());
        bytes.extend(list.iter().flat_map(|x| x.to_le_bytes()));
    }
    bytes
}

/// A set as tagged fields, whatever the lengths of its lists. Of a year that two bytes do not hold
/// the low ones are kept.
pub fn tagged(set: &Set) -> Vec<u8> {
    let [low, high] = (set.epoch_year as u16).to_le_bytes();
    [vec![1, 2, 0, low, high], list_fields(&set.lists)].concat()
}

/// A set with entries at the caps, -0, subnormals, and numbers with all their bits in use.
pub fn odd_set(epoch_year: i32) -> Set {
    let entry = |list: usize, index: usize| match index % 6 {
        0 => CAPS[list],
        1 => -CAPS[list],
        2 => -0.0,
        3 => f32::from_bits(0x8000_0001 + index as u32),
        4 => f32::from_bits(0x007f_ffff - index as u32),
        _ => f32::from_bits(0x4512_3456 + 0x0001_0203 * index as u32),
    };
    Set {
        epoch_year,
        lists: lists::made(N_COEFF, entry),
    }
}

fn any_bytes(rng: &mut Rng, count: usize) -> Vec<u8> {
    (0..count).map(|_| rng.bits() as u8).collect()
}

/// Puts 1 to `most` bytes behind the others.
fn put_more(rng: &mut Rng, bytes: &mut Vec<u8>, most: usize) {
    let count = 1 + rng.below(most);
    bytes.extend(any_bytes(rng, count));
}

/// Another value in the place of a byte.
fn change(rng: &mut Rng, byte: &mut u8) {
    *byte = byte.wrapping_add(1 + rng.below(255) as u8);
}

/// Puts a special entry in the place of one.
fn put_entry(rng: &mut Rng, bytes: &mut [u8], list: usize, index: usize, way: usize) {
    let entry = lists::entry(rng, list, way);
    let at = STARTS[1 + list] + HEAD + 4 * index;
    bytes[at..at + 4].copy_from_slice(&entry.to_le_bytes());
}

/// The planned bytes of a group, made out of a good set.
pub fn planned(rng: &mut Rng, good: &[u8], group: Group, way: usize) -> Vec<u8> {
    let mut bytes = good.to_vec();
    match group {
        Group::Length => {
            bytes.extend(any_bytes(rng, MORE));
            bytes.truncate(way);
        }
        Group::Head => {
            let (at, more) = (way / 255, 1 + way % 255);
            let byte = &mut bytes[STARTS[at / HEAD] + at % HEAD];
            *byte = byte.wrapping_add(more as u8);
        }
        Group::Bit => bytes[way / 8] ^= 1 << (way % 8),
        Group::Field => return other_fields(good, way % FIELDS, way / FIELDS),
        Group::Entry => {
            let (place, way) = (way / lists::ENTRIES, way % lists::ENTRIES);
            put_entry(rng, &mut bytes, place / N_COEFF, place % N_COEFF, way);
        }
        Group::Longer => return longer(rng, good, way % FIELDS, way < FIELDS),
        Group::Set => {
            bytes.truncate(STARTS[1]);
            bytes.extend(list_fields(&DEGREE_12.lists(rng, way)));
        }
        Group::Faults => {
            // one, or two in order: the end comes last
            for fault in BTreeSet::from([way / FAULTS, way % FAULTS]) {
                spoil(rng, &mut bytes, fault);
            }
        }
    }
    bytes
}

/// A field left out, or again at one of six places, or in the place of one of five.
fn other_fields(good: &[u8], field: usize, way: usize) -> Vec<u8> {
    let mut fields = fields(good);
    match way {
        0 => {
            fields.remove(field);
        }
        1..=6 => fields.insert(way - 1, fields[field]),
        _ => fields.swap(field, way - 7),
    }
    fields.concat()
}

/// One of the four lists with a degree more, or all. Where `told`, their lengths say so.
fn longer(rng: &mut Rng, good: &[u8], which: usize, told: bool) -> Vec<u8> {
    let mut bytes = Vec::new();
    for (at, field) in fields(good).into_iter().enumerate() {
        let start = bytes.len();
        bytes.extend_from_slice(field);
        if at > 0 && (which == 0 || which == at) {
            bytes.extend(any_bytes(rng, LONGER_BY));
            if told {
                let length = (4 * N_COEFF_MAX as u16).to_le_bytes();
                bytes[start + 1..start + HEAD].copy_from_slice(&length);
            }
        }
    }
    bytes
}

fn spoil(rng: &mut Rng, bytes: &mut Vec<u8>, fault: usize) {
    let field = fault % FIELDS;
    let start = STARTS[field];
    match fault / FIELDS {
        0 => change(rng, &mut bytes[start]),
        1 => {
            let at = start + 1 + rng.below(2);
            change(rng, &mut bytes[at]);
        }
        2 if field == 0 => put_more(rng, bytes, MORE),
        2 => {
            let (index, way) = (rng.below(N_COEFF), rng.below(lists::SPOILT));
            put_entry(rng, bytes, field - 1, index, way);
        }
        _ => bytes.truncate(start + rng.below(STARTS[field + 1] - start)),
    }
}

/// Random bytes, the first fields with the tag and the length that they must have.
fn random_bytes(rng: &mut Rng) -> Vec<u8> {
    let count = rng.below(1501);
    let mut bytes = any_bytes(rng, count);
    for (tag, start) in (1..).zip(&STARTS[..rng.below(FIELDS + 1)]) {
        let length: u16 = if tag == 1 { 2 } else { 360 };
        let [low, high] = length.to_le_bytes();
        if let Some(head) = bytes.get_mut(*start..start + HEAD) {
            head.copy_from_slice(&[tag, low, high]);
        }
    }
    bytes
}

/// Changes up to three bytes, often of a tag or a length, and cuts the bytes or makes them longer.
pub fn damage(rng: &mut Rng, bytes: &mut Vec<u8>) {
    for _ in 0..rng.below(4) {
        let at = match rng.below(3) {
            0 => STARTS[rng.below(FIELDS)] + rng.below(HEAD),
            _ => rng.below(STORED_LENGTH),
        };
        // lists that are too short make fewer bytes than a set has
        if let Some(byte) = bytes.get_mut(at) {
            change(rng, byte);
        }
    }
    match rng.below(4) {
        0 => bytes.truncate(rng.below(STORED_LENGTH)),
        1 => put_more(rng, bytes, 64),
        _ => {}
    }
}

/// Random bytes, a good set, or one that is damaged.
pub fn random(rng: &mut Rng) -> Vec<u8> {
    let way = rng.below(4);
    if way == 0 {
        return random_bytes(rng);
    }
    let mut bytes = tagged(&set(rng, None, None));
    if way > 1 {
        damage(rng, &mut bytes);
    }
    bytes
}

/// Rooms of a stored set, and epoch years.
pub const ROOMS: [usize; 8] = [0, 1, 1455, 1456, 1457, 1458, 2914, MAX_STORED];
const YEARS: [i32; 14] = [
    -1,
    0,
    1,
    255,
    256,
    2020,
    2025,
    65535,
    65536,
    65537,
    2025 + 65536,
    -2025,
    i32::MIN,
    i32::MAX,
];
/// The number of special values: of rooms, years and lists.
pub const WRITE_WAYS: [usize; 3] = [ROOMS.len(), YEARS.len(), DEGREE_12.sets()];

/// A set with a special year and special lists, or with random good ones.
pub fn set(rng: &mut Rng, year: Option<usize>, lists: Option<usize>) -> Set {
    let lists = match lists {
        Some(way) => DEGREE_12.lists(rng, way),
        None => lists::good_set(rng, N_COEFF).lists,
    };
    let epoch_year = match year {
        Some(way) => YEARS[way],
        None => rng.whole(0, 65535),
    };
    Set { epoch_year, lists }
}

/// The walks over the planned cases of SREAD and of SWRITE.
pub struct Walks {
    read: Walk,
    write: Walk,
}

impl Walks {
    pub fn new(seed: u64) -> Walks {
        // numbers of their own: those of the other walks stay as they are
        let mut rng = Rng::new(seed.reverse_bits());
        Walks {
            read: Walk::new(planned_strings(), &mut rng),
            write: Walk::new(plans(&WRITE_WAYS), &mut rng),
        }
    }
}

impl Generator {
    /// A case of SREAD or SWRITE. Before a SWRITE stands a SET line where it has a set of its own.
    pub fn stored_case(&mut self, kind: Kind, out: &mut Vec<u8>) -> Case<'static> {
        if kind == Kind::Sread {
            let place = self.stored_walks.read.turn(&mut self.rng);
            let stored = self.stored(place);
            return Case::Sread { stored };
        }
        let place = self.stored_walks.write.turn(&mut self.rng);
        let room = self.room(place, out);
        Case::Swrite { room }
    }

    /// The planned bytes at a place, made out of a random good set, or random ones.
    fn stored(&mut self, place: Option<usize>) -> Vec<u8> {
        let Some(mut place) = place else {
            return random(&mut self.rng);
        };
        let good = tagged(&set(&mut self.rng, None, None));
        for (group, _, ways) in GROUPS {
            if place < ways {
                return planned(&mut self.rng, &good, group, place);
            }
            place -= ways;
        }
        unreachable!("there are fewer planned byte strings")
    }

    /// The planned room at a place with its set, or a random one, as a rule for the set in force.
    fn room(&mut self, place: Option<usize>, out: &mut Vec<u8>) -> usize {
        let rng = &mut self.rng;
        let [room, year, lists] = match place {
            Some(place) => plan(&WRITE_WAYS, place),
            None => random_plan(&WRITE_WAYS, 4, rng),
        };
        let room = match room {
            Some(way) => ROOMS[way],
            None => STORED_LENGTH + rng.below(MAX_STORED - STORED_LENGTH + 1),
        };
        if place.is_some() || rng.once_in(4) {
            let set = set(rng, year, lists);
            self.replay.take(set, out);
            // cases of the other kinds need one of theirs
            self.serves = 0;
        }
        room
    }
}
