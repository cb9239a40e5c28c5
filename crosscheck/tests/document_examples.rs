//! Document 01, "Examples": P1 to P10.

use crosscheck::calendar;
use crosscheck::calls::{make, Answer, Call, LineArguments, Row, STAND_IN_ROWS};
use crosscheck::cases::file_builder::FileBuilder;
use crosscheck::day_file::{read, report};
use crosscheck::point_day::{sum, Measurement, PointDay};
use crosscheck::proration::{prorate, Party};
use crosscheck::supply::{Entry::*, Telemetered, Type1Other};
use crosscheck::temperature::{degree_days, zone};

fn measure(emission: i128, downstream: i128) -> Call {
    Call::Measure(Measurement { emission, downstream })
}

fn after(calls: &[Call]) -> PointDay {
    let mut day = PointDay::fresh();
    for call in calls {
        make(&mut day, call).unwrap();
    }
    day
}

fn balances(day: &PointDay) -> Vec<i128> {
    day.users().iter().map(|slot| sum(&slot.balance)).collect()
}

fn revisions(day: &PointDay) -> Vec<i128> {
    day.users().iter().map(|slot| slot.revision).collect()
}

fn telemetered(day: i128) -> Telemetered {
    Telemetered {
        day,
        holidays: vec![],
        reading: None,
        own: None,
        toll_3_4: true,
        q_a: None,
        q_d: None,
        f_c: 750,
        history: vec![],
    }
}

#[test]
fn p1_the_figures_of_file_e() {
    let printed = "point 152 900 700 6 194\n\
                   user 7 500 3 96 599\n\
                   user 9 150 3 74 227\n\
                   user 12 50 0 24 74\n";
    assert_eq!(report(&FileBuilder::e().bytes()), printed);
}

#[test]
fn p2_a_negative_amount() {
    let parties = [1, 2, 3].map(|key| Party { weight: 1, key });
    assert_eq!(prorate(-10, &parties), [-4, -3, -3]);
}

#[test]
fn p3_balance_of_users_that_are_read() {
    let line = |user, consumption| {
        Call::Line(LineArguments { user, kind: 1, consumption, coefficient: 0 })
    };
    let day = after(&[
        measure(100, 0),
        Call::Join(1),
        Call::Join(2),
        line(1, 60),
        line(2, 39),
        Call::Allot,
    ]);
    assert_eq!(balances(&day), [1, 0]);
}

#[test]
fn p4_degree_days() {
    let cases = [(150, 200, 0), (140, 300, 10), (100, 200, 50), (50, 150, 200), (0, 100, 400)];
    for (tmin, tmax, expected) in cases {
        assert_eq!(degree_days(tmin, tmax), Ok(expected));
    }
}

#[test]
fn p5_the_mean_of_three_working_days() {
    let friday = 7;
    let history = vec![Real(100), Nothing, Estimated(999), Real(101), Real(7), Real(7), Real(101)];
    let point = Telemetered { history, ..telemetered(friday) };
    assert_eq!(point.estimate(), Ok((101, 7)));
}

#[test]
fn p6_a_new_consumer() {
    let point = Telemetered { q_a: Some(315), ..telemetered(0) };
    assert_eq!(point.estimate(), Ok((2, 0)));
}

#[test]
fn p7_another_toll_in_june_2016() {
    let (first, saturday) = (152, 155);
    let point = |day| Type1Other {
        day,
        holidays: vec![],
        last_year: Some(10_000),
        c_c: 10_000,
        last_month: None,
        q_d: None,
        f_c: 750,
        c_f: 850,
    };
    let (month, mask) = calendar::month(first, &[]).unwrap();
    assert_eq!((month.year, month.number, month.first), (2016, 6, first));
    assert_eq!(mask.count_ones(), 22);
    assert_eq!(point(first).estimate(), Ok(386));
    assert_eq!(point(saturday).estimate(), Ok(188));
}

#[test]
fn p8_e_measured_again() {
    let (_, allotted) = read(&FileBuilder::e().bytes()).unwrap();

    let mut within = allotted.clone();
    make(&mut within, &measure(1100, 100)).unwrap();
    let measured = within.clone();
    assert_eq!(make(&mut within, &Call::Revise), Ok(Answer::WithinTolerance(100)));
    assert_eq!(within, measured);

    let mut outside = allotted;
    make(&mut outside, &measure(1101, 100)).unwrap();
    assert_eq!(make(&mut outside, &Call::Revise), Ok(Answer::Revised(101)));
    assert_eq!(revisions(&outside), [67, 26, 8]);
}

#[test]
fn p9_a_stand_in() {
    let mut rows = vec![Row::new(); STAND_IN_ROWS];
    rows[2] = vec![(5, 0), (6, 0)];
    let mut day = after(&[measure(201, 0)]);
    assert_eq!(make(&mut day, &Call::StandIn(rows)), Ok(Answer::RowsLookedAt(3)));
    assert_eq!(revisions(&day), [101, 100]);
}

#[test]
fn p10_zones() {
    for (value, expected) in [(169, 1), (170, 2), (240, 3), (380, 3), (381, 4)] {
        assert_eq!(zone(value), Ok(expected));
    }
}
