//! Error figures from a lent list: which record is found, what is refused, and in which order.
use crate::entries::{components, uncertainty, Place, Set};
use crate::models::{model_by_epoch_year, WmmErrorModel, WMM_ERROR_MODELS};
use crate::records::{field_listed, record, uncertainty_listed};

const GOOD: [f32; 8] = [0.26, 5417.0, 0.2, 138.0, 133.0, 137.0, 89.0, 141.0];

/// Figures that are refused.
const BAD: [f32; 6] = [
    f32::NAN,
    f32::INFINITY,
    f32::NEG_INFINITY,
    -1.0,
    -1e-45,
    f32::MIN,
];

fn good(epoch_year: i32) -> WmmErrorModel {
    WmmErrorModel::of(epoch_year, GOOD)
}

/// A good record with one figure changed.
fn with(epoch_year: i32, place: usize, value: f32) -> WmmErrorModel {
    let mut figures = GOOD;
    figures[place] = value;
    WmmErrorModel::of(epoch_year, figures)
}

fn place() -> Place {
    Place {
        height: 100.0,
        sin_phi: 0.6,
        cos_phi: 0.8,
        sin_lambda: 0.0,
        cos_lambda: -1.0,
        year: 2027,
        day: 100,
    }
}

fn set() -> Set {
    Set::of(model_by_epoch_year(2025).unwrap())
}

/// The number of Field's answer, and of Uncertainty's for 2025.
fn numbers(records: &[WmmErrorModel]) -> [u32; 2] {
    let field = field_listed(&place(), &set(), records);
    let usable = components([20000.0, 1000.0, 40000.0]);
    let uncertainty = uncertainty_listed(&usable, 2025, records);
    [
        field.map_or_else(|refusal| refusal.number(), |_| 0),
        uncertainty.map_or_else(|refusal| refusal.number(), |_| 0),
    ]
}

#[test]
fn figures_keep_their_order() {
    for model in WMM_ERROR_MODELS {
        assert_eq!(WmmErrorModel::of(model.epoch_year, model.figures()), model);
    }
    let figures = [1.0, 2.0, 3.0, 4.0, 5.0, 6.0, 7.0, 8.0];
    assert_eq!(WmmErrorModel::of(5, figures).figures(), figures);
}

#[test]
fn the_first_wins() {
    let records = [
        good(2020),
        with(2025, 0, 1.0),
        with(2025, 0, 2.0),
        good(2025),
    ];
    assert_eq!(record(&records, 2025), Ok(records[1]));
    assert_eq!(record(&records[2..], 2025), Ok(records[2]));
    let answer = field_listed(&place(), &set(), &records).unwrap();
    assert_eq!(answer.error_model, records[1]);
    let field = place().field(&set()).unwrap();
    assert_eq!(
        (answer.x, answer.y, answer.z),
        (field.x, field.y, field.z),
        "the list changes the figures alone"
    );
    // a bad one that comes first is refused, and a good one does not help
    assert_eq!(numbers(&[with(2025, 7, -1.0), good(2025)]), [12, 12]);
}

#[test]
fn the_year_in_the_last_place_or_nowhere() {
    for count in 0..=20 {
        let mut records: Vec<WmmErrorModel> = (0..count).map(|i| with(i, 0, i as f32)).collect();
        assert_eq!(numbers(&records), [15, 15]);
        records.push(good(2025));
        assert_eq!(record(&records, 2025), Ok(good(2025)));
        assert_eq!(numbers(&records), [0, 0]);
    }
    for other in [-2025, 2024, 2026, 2025 + 65536, i32::MIN, i32::MAX] {
        assert_eq!(numbers(&[good(other)]), [15, 15]);
        assert_eq!(record(&[good(other)], other), Ok(good(other)));
    }
}

#[test]
fn all_eight_figures_are_looked_at() {
    for at in 0..8 {
        for bad in BAD {
            assert_eq!(numbers(&[with(2025, at, bad)]), [12, 12], "{at}: {bad}");
            // records that are not found are not looked at
            let others = [with(2020, at, bad), good(2025), with(2025, at, bad)];
            assert_eq!(numbers(&others), [0, 0]);
        }
        for taken in [0.0, -0.0, 1e-45, f32::MIN_POSITIVE, 1e30, f32::MAX] {
            let records = [with(2025, at, taken)];
            assert_eq!(numbers(&records), [0, 0], "{at}: {taken}");
            let answer = field_listed(&place(), &set(), &records).unwrap();
            let figures = answer.error_model.figures();
            assert_eq!(figures[at].to_bits(), taken.to_bits(), "the bits are kept");
        }
    }
}

#[test]
fn field_refuses_in_order() {
    type Fault = (u32, fn(&mut Place, &mut Set));
    let faults: [Fault; 9] = [
        (1, |place, _| place.height = f32::NAN),
        (2, |place, _| place.cos_phi = 0.9),
        (3, |place, _| place.cos_lambda = f32::INFINITY),
        (4, |place, _| place.day = 0),
        (5, |place, _| place.year = 2031),
        (5, |_, set| set.epoch_year = 2021),
        (6, |_, set| set.lists[3].truncate(89)),
        (7, |_, set| set.lists[1][5] = 65536.01),
        (8, |_, set| set.epoch_year = 2020),
    ];
    // good for any year that is asked; 15; 12
    let lists = [
        vec![good(2025), good(2020), good(2030)],
        vec![],
        [2025, 2020, 2030]
            .map(|year| with(year, 6, f32::NAN))
            .to_vec(),
    ];
    for (number, spoil) in faults {
        for list in &lists {
            let (mut place, mut set) = (place(), set());
            spoil(&mut place, &mut set);
            let refused = field_listed(&place, &set, list).unwrap_err();
            assert_eq!(refused.number(), number);
            assert_eq!(Err(refused), place.field(&set), "what is carried too");
        }
    }
    assert_eq!(lists.map(|list| numbers(&list)[0]), [0, 15, 12]);
}

#[test]
fn uncertainty_refuses_in_order() {
    let ask = |xyz, records: &[WmmErrorModel]| {
        uncertainty_listed(&components(xyz), 7, records).map_err(|refusal| refusal.number())
    };
    let over = f32::from_bits(0x5d80_0001);
    for at in 0..3 {
        for unusable in [f32::NAN, f32::INFINITY, over, -over] {
            let mut xyz = [1.0; 3];
            xyz[at] = unusable;
            assert_eq!(ask(xyz, &[good(8)]), Err(15));
            assert_eq!(ask(xyz, &[good(7)]), Err(12));
            assert_eq!(ask(xyz, &[with(7, 4, f32::NAN)]), Err(12));
        }
    }
    // any year may be asked for: there is no 5
    for year in [i32::MIN, -1, 0, 2021, i32::MAX] {
        let usable = components([20000.0, 0.0, 0.0]);
        let answer = uncertainty_listed(&usable, year, &[good(year)]);
        assert_eq!(answer, uncertainty(&usable, 2025));
    }
}

#[test]
fn the_uncertainty_is_at_most_180() {
    let ask = |xyz, sigma_c, sigma_v| {
        let mut figures = GOOD;
        figures[..2].copy_from_slice(&[sigma_c, sigma_v]);
        let records = [WmmErrorModel::of(2020, figures)];
        uncertainty_listed(&components(xyz), 2020, &records).unwrap()
    };
    // 0 / 0, also where H is zero by its squares
    for zero in [0.0, -0.0] {
        for xyz in [[0.0; 3], [-0.0, 0.0, 5.0], [1e-30, -1e-30, 1.0]] {
            assert_eq!(ask(xyz, 0.26, zero), 180.0);
        }
    }
    assert_eq!(ask([0.0; 3], 0.0, 1e-45), 180.0);
    assert_eq!(ask([1.0, 0.0, 0.0], f32::MAX, 0.0), 180.0);
    assert_eq!(ask([1.0, 0.0, 0.0], 0.0, f32::MAX), 180.0);
    assert_eq!(ask([1.0, 0.0, 0.0], 180.0, 0.0), 180.0);
    assert_eq!(ask([1.0, 0.0, 0.0], 179.99998, -0.0), 179.99998);
    assert_eq!(ask([3.0, 4.0, 0.0], -0.0, 50.0), 10.0);
    assert_eq!(ask([1.0, 0.0, 0.0], -0.0, -0.0).to_bits(), 0);
}

#[test]
fn the_built_in_list_is_the_call_without_one() {
    let set = set();
    let lists = &WMM_ERROR_MODELS;
    for year in 2018..=2032 {
        for height in [0.0, -1001.0] {
            let asked = Place {
                height,
                year,
                ..place()
            };
            assert_eq!(field_listed(&asked, &set, lists), asked.field(&set));
        }
        for x in [2000.0, 0.0, f32::NAN] {
            let asked = components([x, 0.0, 0.0]);
            let number = |answer: Result<f32, crate::entries::Refusal>| {
                answer.map_err(|refusal| refusal.number())
            };
            let listed = number(uncertainty_listed(&asked, year, lists));
            let without = number(uncertainty(&asked, year));
            match without {
                Err(5) => assert_eq!(listed, Err(15)),
                _ => assert_eq!(listed, without),
            }
        }
    }
}
