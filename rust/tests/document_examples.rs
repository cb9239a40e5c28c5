//! Document 01, "Examples": P1 to P10, and the faults that a refusal must not have. Document 02, by its requests.

use seatpomelo::{
    day_report, degree_days, month, split, zone, Entry, Estimate, Kind, Lines, OwnValue, PointDay,
    Refusal, Revision, Stage, Telemetered, Toll, Type1OtherToll, STAND_IN_ROWS,
};

const E: &[u8] = include_bytes!("../../examples/E.rep");

/// Document 01's file E as calls, allotted.
fn e() -> PointDay {
    let mut day = PointDay::fresh();
    day.measure(1000, 100).unwrap();
    for user in [7, 9, 12] {
        day.join(user).unwrap();
    }
    let lines = day.lines(&[7, 7, 9, 12], &[1, 3, 5, 2], &[300, 200, 150, 50], &[1000, 0, 2000, 0]);
    assert_eq!(lines, Lines { accepted: 4, losses_added: 6, refusal: None });
    day.allot().unwrap();
    day
}

fn revisions(day: &PointDay) -> Vec<i64> {
    day.users().map(|user| user.revision()).collect()
}

fn point(day: u32, history: &[Entry]) -> Telemetered<'_> {
    Telemetered {
        day,
        holidays: &[],
        reading: None,
        own: None,
        toll: Toll::Toll34,
        yearly: None,
        daily: None,
        factor: 750,
        history,
    }
}

#[test]
fn p1_the_figures_of_file_e() {
    let printed = "point 152 900 700 6 194\n\
                   user 7 500 3 96 599\n\
                   user 9 150 3 74 227\n\
                   user 12 50 0 24 74\n";
    assert_eq!(day_report(E).unwrap(), printed);
    let wholes: Vec<i64> = e().users().map(|user| user.whole_amount()).collect();
    assert_eq!(wholes, [599, 227, 74]);
}

#[test]
fn p2_a_negative_amount() {
    assert_eq!(split(-10, &[1, 1, 1], &[1, 2, 3]), Ok(vec![-4, -3, -3]));
}

#[test]
fn p3_balance_of_users_that_are_read() {
    let mut day = PointDay::fresh();
    day.measure(100, 0).unwrap();
    for (user, consumption) in [(1, 60), (2, 39)] {
        day.join(user).unwrap();
        assert_eq!(day.line(user, Kind::Read, consumption, 0), Ok(0));
    }
    day.allot().unwrap();
    let balances: Vec<i64> = day.users().map(|user| user.balance(Kind::Read)).collect();
    assert_eq!(balances, [1, 0]);
}

#[test]
fn p4_degree_days() {
    let cases = [(150, 200, 0), (140, 300, 10), (100, 200, 50), (50, 150, 200), (0, 100, 400)];
    for (tmin, tmax, expected) in cases {
        assert_eq!(degree_days(tmin, tmax), Ok(expected));
    }
}

#[test]
fn p5_the_mean_of_three_working_days() {
    use Entry::*;
    let history = [Real(100), Nothing, Estimated(999), Real(101), Real(7), Real(7), Real(101)];
    let friday = point(7, &history);
    assert_eq!(friday.estimate(), Ok(Estimate { consumption: 101, looked_at: 7 }));
}

#[test]
fn p6_a_new_consumer() {
    let new = Telemetered { yearly: Some(315), ..point(0, &[]) };
    assert_eq!(new.estimate(), Ok(Estimate { consumption: 2, looked_at: 0 }));
}

#[test]
fn p7_another_toll_in_june_2016() {
    let (first, saturday) = (152, 155);
    let point = |day| Type1OtherToll {
        day,
        holidays: &[],
        last_year: Some(10_000),
        c_c: 10_000,
        last_month: None,
        daily: None,
        f_c: 750,
        c_f: 850,
    };
    let june = month(saturday, &[]).unwrap();
    assert_eq!((june.first, june.days, june.working, june.mask.count_ones()), (first, 30, 22, 22));
    assert_eq!(point(first).estimate(), Ok(386));
    assert_eq!(point(saturday).estimate(), Ok(188));
}

#[test]
fn p8_e_measured_again() {
    let mut within = e();
    within.measure(1100, 100).unwrap();
    let measured = within.clone();
    assert_eq!(within.revise(), Ok(Revision::Within(100)));
    assert_eq!(within, measured);

    let mut outside = e();
    outside.measure(1101, 100).unwrap();
    assert_eq!(outside.revise(), Ok(Revision::Assigned(101)));
    assert_eq!(revisions(&outside), [67, 26, 8]);
}

#[test]
fn p9_a_stand_in() {
    let mut rows = vec![vec![]; STAND_IN_ROWS];
    rows[2] = vec![(5, 0), (6, 0)];
    let mut day = PointDay::fresh();
    day.measure(201, 0).unwrap();
    assert_eq!(day.stand_in(&rows), Ok(3));
    assert_eq!(revisions(&day), [101, 100]);
}

#[test]
fn p10_zones() {
    for (value, expected) in [(169, 1), (170, 2), (240, 3), (380, 3), (381, 4)] {
        assert_eq!(zone(value), Ok(expected));
    }
}

#[test]
fn stages_follow_each_other() {
    let mut day = e();
    for stage in [Stage::FinalProvisional, Stage::FinalDefinitive] {
        day.start_final().unwrap();
        assert_eq!((day.stage(), day.is_allotted(), day.users().count()), (stage, false, 3));
        day.allot().unwrap();
    }
    assert_eq!(day.start_final(), Err(Refusal::WrongStage));
}

#[test]
fn a_refusal_changes_nothing() {
    let mut day = e();
    let before = day.clone();
    assert_eq!(day.join(13), Err(Refusal::WrongStage));
    assert_eq!(day.line(7, Kind::Read, 1, 0), Err(Refusal::WrongStage));
    assert_eq!(day.measure(100, 101), Err(Refusal::OutOfRange));
    assert_eq!(day.allot(), Err(Refusal::WrongStage));
    let rows = vec![vec![]; STAND_IN_ROWS];
    assert_eq!(day.stand_in(&rows), Err(Refusal::WrongStage));
    assert_eq!(day, before);
}

#[test]
fn a_split_gives_no_more_than_there_is() {
    assert_eq!(split(1, &[1, 1], &[7, 7]), Err(Refusal::OutOfRange));
    assert_eq!(split(1, &[1, 1], &[7]), Err(Refusal::OutOfRange));
}

#[test]
fn an_unmeasured_emission_is_kept_within_its_limits() {
    let mut numbers = *PointDay::fresh().numbers();
    numbers[3] = 2_000_000_000;
    assert_eq!(PointDay::from_numbers(&numbers), Err(Refusal::OutOfRange));
    numbers[3] = 5;
    let mut day = PointDay::from_numbers(&numbers).unwrap();
    day.join(7).unwrap();
    assert_eq!((day.measurement(), day.numbers()[3]), (None, 5));
}

#[test]
fn raw_calls_refuse_lists_that_are_too_short() {
    let (mut rows, mut written) = (77, 77);
    let day = e();
    assert_eq!(seatpomelo::raw::inventory(day.numbers(), &mut [0; 19], &mut rows), 14);
    assert_eq!(seatpomelo::raw::day_report(E, &mut [0; 8_191], &mut written), 14);
    assert_eq!((rows, written), (77, 77));
    assert_eq!(seatpomelo::raw::fresh(&mut [0; 1_093]), 2);
}

#[test]
fn req_01_an_own_value_counts_until_720_minutes_before_the_end() {
    let history = [Entry::Real(8)];
    let came = |arrival, length| {
        let own = Some(OwnValue { kwh: 5, arrival, length });
        Telemetered { own, ..point(14, &history) }.estimate()
    };
    let used = Ok(Estimate { consumption: 5, looked_at: 0 });
    let mean = Ok(Estimate { consumption: 8, looked_at: 1 });
    for (length, limit) in [(1_380, 660), (1_440, 720), (1_500, 780)] {
        assert_eq!(
            [came(limit, length), came(limit + 1, length), came(length, length)],
            [used, mean, mean]
        );
        assert_eq!(came(length + 1, length), Err(Refusal::WrongArrival));
    }
    assert_eq!(came(0, 1_410), Err(Refusal::WrongArrival));
}
