//! Sets for the kinds of degree 13: lists of 104, and of both lengths. As for lists of error records,
//! their walk is apart from that of the other kinds.
use super::lists::{self, good_lists, resize, DEGREE_13, GOOD, SPOILT};
use super::rng::Rng;
use super::Kind;
use crate::tables::{N_COEFF, N_COEFF_MAX};

/// The kinds that ask with sets of degree 13, and what each of them asks.
const KINDS: [(Kind, Kind); 5] = [
    (Kind::Sum13, Kind::Sum),
    (Kind::Field13, Kind::Field),
    (Kind::Flist13, Kind::Flist),
    (Kind::Fdeg13, Kind::Fdeg),
    (Kind::Rates13, Kind::Rates),
];

/// What a kind asks, and whether with sets of degree 13.
pub fn asked(kind: Kind) -> (Kind, bool) {
    match KINDS.iter().find(|known| known.0 == kind) {
        Some((_, asked)) => (*asked, true),
        None => (kind, false),
    }
}

/// Ways to have both lengths among four lists: each list is short or long, by a bit. Each mix comes
/// alone, with an entry spoilt in each list, and with each list of a third length.
const MIXES: usize = 14;
const OF_MIX: usize = 9;
const THIRD: [usize; 7] = [0, 1, 89, 91, 103, 105, 128];
/// The entries of degree 13.
const NEW: usize = N_COEFF_MAX - N_COEFF;

/// Ways to make a set's lists: those of degree 13, the mixes, and each entry of degree 13 spoilt in each
/// list.
pub const SETS: usize = DEGREE_13.sets() + OF_MIX * MIXES + 4 * NEW;

pub fn lists(rng: &mut Rng, way: usize) -> [Vec<f32>; 4] {
    if way < DEGREE_13.sets() {
        return DEGREE_13.lists(rng, way);
    }
    let base = rng.below(GOOD);
    let mut lists = good_lists(rng, N_COEFF_MAX, base);
    let way = way - DEGREE_13.sets();
    let spoil = rng.below(SPOILT);
    if way >= OF_MIX * MIXES {
        let place = way - OF_MIX * MIXES;
        let (list, index) = (place % 4, N_COEFF + place / 4);
        lists[list][index] = lists::entry(rng, list, spoil);
        return lists;
    }
    let (mix, way) = (1 + way / OF_MIX, way % OF_MIX);
    for (list, entries) in lists.iter_mut().enumerate() {
        if mix >> list & 1 == 0 {
            entries.truncate(N_COEFF);
        }
    }
    match way {
        0..=3 => {
            let index = rng.below(lists[way].len());
            lists[way][index] = lists::entry(rng, way, spoil);
        }
        4..=7 => resize(&mut lists[way - 4], rng.pick(&THIRD)),
        _ => {}
    }
    lists
}
