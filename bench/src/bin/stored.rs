//! The proved reader and writer of stored sets, and Field with one, beside the oracle's: both must give
//! the same number and write the same places, to the bit, and no others. First planned bytes, made out of
//! two good sets, and planned sets in planned rooms. Then random ones. What is written must be read to
//! the same bits, and what is read must be written as the same bytes.
//!
//!   stored [COUNT]     COUNT random byte strings, sets, rooms and fields each (1000000)
use bench::listed::told;
use bench::questions::{good_place, published, random_count};
use bench::reading::{Answer, LENGTH, LONGEST, STORED};
use bench::stored::{self, our_field, our_write, rust_field, rust_write, BYTES};
use bench::tally::Tally;
use oracle::cases::stored::{
    damage, odd_set, planned, random, set, tagged, GROUPS, ROOMS, WRITE_WAYS,
};
use oracle::cases::{Generator, Rng};
use oracle::entries::{Place, Set};
use oracle::format::MAX_STORED;
use oracle::stored::STORED_LENGTH;
use std::process::ExitCode;

/// How many random cases of each kind are compared.
const RANDOM: usize = 1_000_000;
const SEED: u64 = 1;
const LENGTHS: [usize; 4] = [LENGTH; 4];

/// Two good sets, each with a year of its five: a published one, and one of special entries.
fn good_sets() -> [(Set, i32); 2] {
    [(published(2025), 2027), (odd_set(2020), 2022)]
}

fn read(tally: &mut Tally, name: &str, bytes: &[u8], _: &Place) {
    STORED.compare(tally, name, bytes, LENGTHS);
}

fn field(tally: &mut Tally, name: &str, bytes: &[u8], place: &Place) {
    let (ours, rust) = (our_field(bytes, place), rust_field(bytes, place));
    tally.count(rust.0, ours == rust, || {
        let (ours, rust) = (told(&ours), told(&rust));
        format!("{name}, {place:?}:\n  ours {ours}\n  Rust {rust}")
    });
}

/// Both writers in a room. Bytes beyond a set, and all where it is refused, must be left alone.
fn write(tally: &mut Tally, name: &str, set: &Set, room: usize) {
    let (ours, rust) = (our_write(set, room), rust_write(set, room));
    let end = if ours.0 == 0 { STORED_LENGTH } else { 0 };
    let same = ours == rust && ours.1.left_alone_from(end);
    tally.count(rust.0, same, || {
        let differ = |at: &usize| ours.1.stored[*at] != rust.1.stored[*at];
        let first = (0..BYTES).find(differ);
        let (ours, rust) = (stored::told(&ours), stored::told(&rust));
        format!("{name}, room {room}:\n  ours {ours}\n  Rust {rust}\n  first other byte {first:?}")
    });
}

/// The set that was read.
fn found((_, places): &Answer) -> Set {
    Set {
        epoch_year: places.epoch_year,
        lists: places.lists.map(|list| list[..LENGTH].to_vec()),
    }
}

fn same_bits(one: &Set, other: &Set) -> bool {
    let bits =
        |set: &Set| -> Vec<u32> { set.lists.iter().flatten().map(|x| x.to_bits()).collect() };
    one.epoch_year == other.epoch_year && bits(one) == bits(other)
}

/// A set is written as the oracle writes it, and read to the same bits.
fn there_and_back(tally: &mut Tally, name: &str, set: &Set) {
    let written = our_write(set, STORED_LENGTH);
    let again = STORED.ours(&written.1.stored[..STORED_LENGTH], LENGTHS);
    let same =
        written == rust_write(set, STORED_LENGTH) && again.0 == 0 && same_bits(&found(&again), set);
    tally.count(written.0, same, || format!("{name}: there and back"));
}

/// Bytes that are read are written as they were.
fn back_and_there(tally: &mut Tally, name: &str, bytes: &[u8]) {
    let answer = STORED.ours(bytes, LENGTHS);
    if answer.0 == 0 {
        let (number, places) = our_write(&found(&answer), STORED_LENGTH);
        let same = number == 0 && places.stored[..STORED_LENGTH] == *bytes;
        tally.count(number, same, || format!("{name}: back and there"));
    }
}

/// All planned bytes, read and asked for a field.
fn planned_bytes(tally: &mut Tally) {
    type Ask = fn(&mut Tally, &str, &[u8], &Place);
    let asks: [(&str, Ask); 2] = [("read", read), ("Field", field)];
    for (entry, ask) in asks {
        for (group, name, ways) in GROUPS {
            let mut rng = Rng::new(SEED);
            for (set, year) in good_sets() {
                let good = tagged(&set);
                for way in 0..ways {
                    let bytes = planned(&mut rng, &good, group, way);
                    let name = format!("{name} {way} of {}", set.epoch_year);
                    ask(tally, &name, &bytes, &good_place(year));
                }
            }
            tally.group(&format!("{entry}: {name}"));
        }
    }
}

/// Each list of each length up to the longest, with good bytes, bad ones and none.
fn lengths(tally: &mut Tally) {
    let good = tagged(&odd_set(2020));
    for bytes in [&good[..], &good[1..], &[]] {
        for list in 0..4 {
            for length in 0..=LONGEST {
                let mut lengths = LENGTHS;
                lengths[list] = length;
                STORED.compare(tally, &format!("list {list} of {length}"), bytes, lengths);
            }
        }
    }
    tally.group("read: lists of other lengths");
}

/// Every special year with all special lists, in every special room.
fn planned_rooms(tally: &mut Tally) {
    let mut rng = Rng::new(SEED);
    let [_, years, lists] = WRITE_WAYS;
    for year in 0..years {
        for way in 0..lists {
            let set = set(&mut rng, Some(year), Some(way));
            for room in ROOMS {
                let name = format!("year {} and lists {way}", set.epoch_year);
                write(tally, &name, &set, room);
            }
        }
    }
    tally.group("write: special sets, special rooms");
    for (set, _) in good_sets() {
        for room in 0..=MAX_STORED {
            write(tally, "a good set", &set, room);
        }
    }
    tally.group("write: good sets, every room");
}

/// Random byte strings. One seed gives the same ones again.
fn random_bytes(count: usize, mut each: impl FnMut(&str, &[u8])) {
    let mut rng = Rng::new(SEED);
    for number in 0..count {
        each(&format!("random bytes {number}"), &random(&mut rng));
    }
}

/// Random sets, good ones, and some with a special year or special lists in any room.
fn random_sets(tally: &mut Tally, count: usize) {
    let mut rng = Rng::new(SEED);
    for number in 0..count {
        let set = set(&mut rng, None, None);
        there_and_back(tally, &format!("random set {number}"), &set);
    }
    tally.group("write, then read: random sets");
    let [_, years, lists] = WRITE_WAYS;
    for number in 0..count {
        let year = rng.once_in(4).then(|| rng.below(years));
        let lists = rng.once_in(4).then(|| rng.below(lists));
        let set = set(&mut rng, year, lists);
        let room = rng.below(MAX_STORED + 1);
        write(tally, &format!("random set {number}"), &set, room);
    }
    tally.group("write: random sets, random rooms");
}

/// Random questions to Field, one in four with damaged bytes.
fn random_fields(tally: &mut Tally, count: usize) {
    let (mut generator, mut rng) = (Generator::new(SEED), Rng::new(SEED));
    let mut lines = Vec::new();
    for number in 0..count {
        lines.clear();
        let place = generator.place(None, &mut lines);
        let mut bytes = tagged(generator.set());
        if rng.once_in(4) {
            damage(&mut rng, &mut bytes);
        }
        field(tally, &format!("random field {number}"), &bytes, &place);
    }
    tally.group("Field: random sets and places");
}

fn main() -> ExitCode {
    let Some(count) = random_count("stored", RANDOM) else {
        return ExitCode::from(2);
    };
    let mut tally = Tally::default();
    planned_bytes(&mut tally);
    lengths(&mut tally);
    planned_rooms(&mut tally);
    random_bytes(count, |name, bytes| {
        STORED.compare(&mut tally, name, bytes, LENGTHS)
    });
    tally.group("read: random bytes");
    random_bytes(count, |name, bytes| back_and_there(&mut tally, name, bytes));
    tally.group("read, then write: those that are taken");
    random_sets(&mut tally, count);
    random_fields(&mut tally, count);
    tally.end()
}
