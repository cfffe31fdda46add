//! Each refusal alone, and of two faults the one that document 01 names first.
use crate::entries::{
    epoch, field, grid_variation, off_the_circle, square_root, sum, total, uncertainty, Place,
    Refusal, Set,
};
use crate::field::GeomagneticField;
use crate::models::{days_in_year, model_by_epoch_year, WMM_ERROR_MODELS};
use crate::rates::rates;

type Pair = (f32, f32);

/// A question to Field or to Rates.
#[derive(Clone)]
struct Call {
    place: Place,
    set: Set,
}

/// A refusal's number, and what brings it about in a good question.
type Fault = (u32, fn(&mut Call));

/// Field's refusals, in its order.
const FAULTS: [Fault; 10] = [
    (1, |call| call.place.height = f32::NAN),
    (2, |call| call.place.cos_phi = 0.9),
    (3, |call| call.place.cos_lambda = f32::INFINITY),
    (4, |call| call.place.day = 0),
    (5, |call| call.place.year = 2031),
    (5, |call| call.set.epoch_year = 2021),
    (6, |call| call.set.lists[3].truncate(89)),
    (23, |call| other_degree(&mut call.set.lists[0])),
    (7, |call| call.set.lists[1][5] = 65536.01),
    (8, |call| call.set.epoch_year = 2025),
];

/// Makes a list of 90 one of 104, and the other way round.
fn other_degree(list: &mut Vec<f32>) {
    let length = if list.len() == 90 { 104 } else { 90 };
    list.resize(length, 0.0);
}

/// The published set of 2020, and the same with 14 entries more in each list.
fn sets() -> [Set; 2] {
    let set = Set::of(model_by_epoch_year(2020).unwrap());
    let mut longer = set.clone();
    longer.lists.iter_mut().for_each(other_degree);
    [set, longer]
}

/// No field, and so no H.
const NO_FIELD: Fault = (21, |call| {
    for list in &mut call.set.lists {
        list.fill(0.0);
    }
});

fn number(refusal: Refusal) -> u32 {
    refusal.number()
}

/// Each fault alone, and of every two the first, with a set of either degree.
fn refuses_in_order(faults: &[Fault], ask: fn(&Call) -> u32) {
    for set in sets() {
        set_refuses_in_order(faults, ask, set);
    }
}

fn set_refuses_in_order(faults: &[Fault], ask: fn(&Call) -> u32, set: Set) {
    let good = Call {
        place: Place {
            height: 100.0,
            sin_phi: 0.6,
            cos_phi: 0.8,
            sin_lambda: 0.0,
            cos_lambda: -1.0,
            year: 2022,
            day: 100,
        },
        set,
    };
    assert_eq!(ask(&good), 0);
    for (i, (first, spoil)) in faults.iter().enumerate() {
        let mut call = good.clone();
        spoil(&mut call);
        assert_eq!(ask(&call), *first);
        for (second, spoil_too) in &faults[i + 1..] {
            // the set's epoch is spoilt by one fault at a time
            if (*first, *second) == (5, 8) {
                continue;
            }
            // the later fault comes first: it may write over all entries
            let mut both = good.clone();
            spoil_too(&mut both);
            spoil(&mut both);
            assert_eq!(ask(&both), *first, "{first} and {second}");
        }
    }
}

#[test]
fn field_refuses_in_order() {
    refuses_in_order(&FAULTS, |call| {
        call.place.field(&call.set).map_or_else(number, |_| 0)
    });
}

#[test]
fn rates_refuse_in_order() {
    let faults: Vec<Fault> = FAULTS.into_iter().chain([NO_FIELD]).collect();
    refuses_in_order(&faults, |call| {
        rates(&call.place, &call.set).map_or_else(number, |_| 0)
    });
}

#[test]
fn sum_refuses_in_order() {
    type Call = (Pair, Pair, f32, f32, Set);
    type Fault = (u32, fn(&mut Call));
    let ask = |call: &Call| {
        let ((c, s), (sl, cl), ratio, offset, set) = call;
        sum(*c, *s, *sl, *cl, *ratio, *offset, &set.lists).map_or_else(number, |_| 0)
    };
    let faults: [Fault; 7] = [
        (9, |call| call.0 = (1.0, 1.0)),
        (3, |call| call.1 = (f32::NAN, 0.0)),
        (10, |call| call.2 = 1.02),
        (11, |call| call.3 = -1e-45),
        (6, |call| call.4.lists[0].push(0.0)),
        (23, |call| other_degree(&mut call.4.lists[2])),
        (7, |call| call.4.lists[2][0] = 4096.5),
    ];
    for set in sets() {
        let good: Call = ((0.6, 0.8), (0.0, -1.0), 1.0, 2.5, set);
        assert_eq!(ask(&good), 0);
        for (i, (first, spoil)) in faults.iter().enumerate() {
            let mut call = good.clone();
            spoil(&mut call);
            assert_eq!(ask(&call), *first);
            for (second, spoil) in &faults[i + 1..] {
                let mut both = call.clone();
                spoil(&mut both);
                assert_eq!(ask(&both), *first, "{first} and {second}");
            }
        }
    }
}

#[test]
fn what_is_carried() {
    let mut set = Set::of(model_by_epoch_year(2020).unwrap());
    let ask = |height: f32, set: &Set| field(height, 0.0, 1.0, 0.0, 1.0, 2020, 1, set);
    assert_eq!(
        ask(850000.1, &set),
        Err(Refusal::Height {
            min_km: -1.0,
            max_km: 850.0
        })
    );
    set.lists[3][0] = f32::NAN;
    set.lists[2][89] = -4096.5;
    assert_eq!(
        ask(0.0, &set),
        Err(Refusal::Coefficient { list: 2, index: 89 })
    );
}

#[test]
fn the_circle() {
    // the f32 cosine of 90 degrees is a little below zero, and is taken
    let set = Set::of(model_by_epoch_year(2020).unwrap());
    let ask = |cos_phi| field(0.0, 1.0, cos_phi, 0.0, 1.0, 2020, 1, &set).map_err(number);
    assert!(ask(f32::from_bits(0xb33bbd2e)).is_ok());
    assert!(ask(f32::from_bits(0xb5800000)).is_ok());
    assert_eq!(ask(f32::from_bits(0xb5800001)), Err(2));
    assert_eq!(ask(-1.0), Err(2));
    for (s, c) in [
        (f32::NAN, 1.0),
        (0.0, f32::NAN),
        (f32::INFINITY, 0.0),
        (1e30, 0.0),
    ] {
        assert!(off_the_circle(s, c));
    }
    // 1 + 2^-20 by its square's rounding, and a step more
    let edge = f32::from_bits(0x3f800004);
    assert!(!off_the_circle(0.0, edge));
    assert!(off_the_circle(0.0, f32::from_bits(0x3f800005)));
}

#[test]
fn years() {
    let leap: Vec<i32> = (-8..=8).filter(|year| days_in_year(*year) == 366).collect();
    assert_eq!(leap, [-8, -4, 0, 4, 8]);
    for (year, days) in [
        (1900, 365),
        (2000, 366),
        (-100, 365),
        (-400, 366),
        (2100, 365),
    ] {
        assert_eq!(days_in_year(year), days);
    }
    for year in [i32::MIN, -1, 0, i32::MAX] {
        assert_eq!(epoch(year, 0).map_err(number), Err(4));
        assert_eq!(epoch(year, 1).map_err(number), Err(5));
        assert_eq!(epoch(year, 367).map_err(number), Err(4));
    }
}

#[test]
fn strengths_and_grid_variation() {
    let record = |x, y, z| GeomagneticField {
        x,
        y,
        z,
        error_model: WMM_ERROR_MODELS[1],
    };
    let largest = 1152921504606846976.0;
    assert!(total(&record(largest, -largest, largest)).is_ok());
    assert_eq!(total(&record(0.0, 0.0, f32::NAN)), Err(Refusal::Unusable));
    let over = f32::from_bits(0x5d800001);
    assert_eq!(total(&record(0.0, over, 0.0)), Err(Refusal::Unusable));
    assert_eq!(
        uncertainty(&record(over, 0.0, 0.0), 2021).map_err(number),
        Err(5)
    );
    assert_eq!(
        uncertainty(&record(over, 0.0, 0.0), 2025).map_err(number),
        Err(12)
    );
    // the figures are those of the lent year
    let field = record(5625.0, 0.0, 0.0);
    assert_eq!(uncertainty(&field, 2020), Ok((0.26f32 * 0.26 + 1.0).sqrt()));

    let ask = |a, b, c| grid_variation(a, b, c).map_err(number);
    assert_eq!(ask(f32::NAN, 181.0, 181.0), Err(2));
    assert_eq!(ask(0.0, 181.0, 181.0), Err(3));
    assert_eq!(ask(0.0, 180.0, 181.0), Err(12));
    assert_eq!(ask(54.999996, 10.0, 20.0), Ok(None));
    assert_eq!(ask(55.0, -170.0, 20.0), Ok(Some(-170.0)));
    assert_eq!(ask(-55.0, -170.0, 20.0), Ok(Some(-150.0)));
    assert_eq!(ask(55.0, 180.0, 0.0), Ok(Some(180.0)));
    assert_eq!(ask(-55.0, -90.0, -90.0), Ok(Some(180.0)));

    assert_eq!(square_root(-0.0).map(f32::to_bits), Ok(0x80000000));
    assert_eq!(square_root(f32::INFINITY), Ok(f32::INFINITY));
    assert_eq!(square_root(-1e-45), Err(Refusal::Unusable));
    assert_eq!(square_root(f32::NAN), Err(Refusal::Unusable));
}
