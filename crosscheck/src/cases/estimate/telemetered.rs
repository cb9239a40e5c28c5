//! Telemetered supply points.

use super::{BOUNDS, HUGE, HUGE_32};
use crate::calendar::LAST_DAY;
use crate::estimate::Operation;
use crate::limits::MAX_ENERGY;
use crate::rng::Rng;
use crate::supply::{Entry, OwnValue, Telemetered, DAY_LENGTHS, MAX_HISTORY, TWELVE_HOURS};
use Entry::{Estimated, Nothing, Own, Real};

const SEED: u64 = 5;

pub fn all(out: &mut Vec<Operation>) {
    examples(out);
    ranges(out);
    without_match(out);
    long_histories(out);
    arrivals(out);
    lengths(out);
    late_values(out);
    order_of_refusals(out);
    let mut rng = Rng::new(SEED);
    for _ in 0..200 {
        out.push(Operation::Telemetered(random(&mut rng)));
    }
}

fn telemetered(day: i128, history: &[Entry]) -> Telemetered {
    Telemetered {
        day,
        holidays: vec![],
        reading: None,
        own: None,
        toll_3_4: false,
        q_a: None,
        q_d: None,
        f_c: 750,
        history: history.to_vec(),
    }
}

/// An own value that counts.
fn in_time(value: i128) -> OwnValue {
    OwnValue { value, arrival: 600, length: 1_440 }
}

/// P5 and P6; matches of one, two and three; own and estimated values; holidays.
fn examples(out: &mut Vec<Operation>) {
    let mut add = |point: Telemetered| out.push(Operation::Telemetered(point));
    let p5 = [Real(100), Nothing, Estimated(999), Real(101), Real(7), Real(7), Real(101)];
    add(telemetered(7, &p5));
    add(telemetered(14, &[&p5[..], &[Real(5_000), Own(3)]].concat()));
    add(telemetered(14, &[&p5[..], &[Real(MAX_ENERGY + 1)]].concat()));
    add(Telemetered { toll_3_4: true, q_a: Some(315), ..telemetered(0, &[]) });
    // A gap does not end the history, and neither own nor estimated values count.
    add(telemetered(20, &[Nothing, Nothing, Own(50), Estimated(60), Nothing, Nothing, Real(9)]));
    add(telemetered(20, &[Real(1), Own(50), Real(2)]));
    // Saturday, Sunday, and holidays of either kind.
    let fortnight: Vec<Entry> = (1..=14).map(|i| Real(i * i)).collect();
    for day in [14, 15, 16, 17, 20] {
        for holidays in [vec![], vec![day], vec![day - 7], vec![8, 9], vec![6, 10, 12, day]] {
            let mut holidays = holidays;
            holidays.sort();
            holidays.dedup();
            add(Telemetered { holidays, ..telemetered(day, &fortnight) });
        }
    }
    // Halves go up, thirds to the nearest.
    for (one, two, three) in [(1, 2, 2), (1, 1, 2), (0, 1, 0), (MAX_ENERGY, MAX_ENERGY, MAX_ENERGY)]
    {
        add(telemetered(7, &[Real(one), Real(two)]));
        add(telemetered(7, &[Real(one), Real(two), Real(three)]));
        add(telemetered(7, &[Real(one), Real(two), Real(three), Real(77)]));
    }
    // On the last gas day.
    add(telemetered(LAST_DAY, &[Real(4), Real(5), Real(6)]));
}

/// Each value at its bounds, used or not.
fn ranges(out: &mut Vec<Operation>) {
    let mut add = |point: Telemetered| out.push(Operation::Telemetered(point));
    for value in BOUNDS {
        add(Telemetered { reading: value, ..telemetered(9, &[Real(5)]) });
        let own = value.map(in_time);
        add(Telemetered { own, ..telemetered(9, &[Real(5)]) });
        add(Telemetered { reading: Some(3), own, ..telemetered(9, &[Real(5)]) });
        for toll_3_4 in [true, false] {
            add(Telemetered { toll_3_4, q_a: value, ..telemetered(9, &[]) });
            add(Telemetered { toll_3_4, q_d: value, ..telemetered(9, &[Own(1)]) });
            add(Telemetered { toll_3_4, reading: Some(0), q_d: value, ..telemetered(9, &[]) });
        }
        let entry = value.unwrap_or(1);
        for bad in [Real(entry), Estimated(entry), Own(entry)] {
            add(telemetered(9, &[Nothing, bad]));
            add(Telemetered { reading: Some(8), ..telemetered(9, &[bad, Real(1)]) });
        }
    }
    for f_c in [0, 1, 499, 500, 750, 1_000, 1_001, HUGE_32] {
        add(Telemetered { f_c, q_d: Some(1_001), ..telemetered(3, &[Nothing]) });
        add(Telemetered { f_c, own: Some(in_time(12)), ..telemetered(3, &[]) });
    }
    for q_a in [104, 105, 314, 315] {
        add(Telemetered { q_a: Some(q_a), toll_3_4: true, ..telemetered(3, &[Nothing]) });
    }
    for (day, entries) in [(0, 0), (0, 1), (1, 1), (1, 2), (5, 5), (5, 6), (LAST_DAY + 1, 0)] {
        add(Telemetered { q_d: Some(40), ..telemetered(day, &vec![Own(2); entries]) });
        add(Telemetered { reading: Some(40), ..telemetered(day, &vec![Nothing; entries]) });
    }
    for holidays in [vec![3, 3], vec![4, 3], vec![LAST_DAY + 1], vec![LAST_DAY], vec![0]] {
        add(Telemetered { reading: Some(1), holidays: holidays.clone(), ..telemetered(9, &[]) });
        add(Telemetered { holidays, ..telemetered(9, &[Real(6)]) });
    }
}

/// Real entries of another type only (15), and new consumers with and without their flow.
fn without_match(out: &mut Vec<Operation>) {
    let flows = [(None, None), (Some(210), None), (None, Some(1_000)), (Some(210), Some(1_000))];
    let histories: [&[Entry]; 5] = [
        &[],
        &[Nothing, Nothing],
        &[Own(5), Estimated(6)],
        &[Real(5)],
        &[Nothing, Real(5), Real(6)],
    ];
    for toll_3_4 in [true, false] {
        for (q_a, q_d) in flows {
            for history in histories {
                // Day 10 is a Monday: the days before are a Sunday, a Saturday and a Friday.
                let point = Telemetered { toll_3_4, q_a, q_d, ..telemetered(10, history) };
                out.push(Operation::Telemetered(point));
            }
        }
    }
}

/// 400 entries, and 401.
fn long_histories(out: &mut Vec<Operation>) {
    let mut add = |point: Telemetered| out.push(Operation::Telemetered(point));
    let mut sparse = vec![Nothing; MAX_HISTORY];
    sparse[MAX_HISTORY - 1] = Real(123);
    // On a Saturday the last entry, a Friday's, is no match; on a Tuesday a Monday's is one.
    for day in [400, 403] {
        add(Telemetered { q_d: Some(5), ..telemetered(day, &sparse) });
    }
    // Day 420 is a Friday; real entries stand on Saturdays, and at the end on Fridays too.
    let far_away: Vec<Entry> = (1..=MAX_HISTORY as i128)
        .map(|i| match i % 7 {
            0 if i > 370 => Real(i),
            6 => Real(1_000_000 * i),
            2 | 4 => Own(i),
            3 => Estimated(i),
            _ => Nothing,
        })
        .collect();
    add(telemetered(420, &far_away));
    // With a holiday on one of those Fridays and on the Saturday before the gas day.
    add(Telemetered { holidays: vec![21, 49, 414], ..telemetered(420, &far_away) });
    let mut over = vec![Nothing; MAX_HISTORY + 1];
    over[0] = Real(1);
    add(Telemetered { reading: Some(1), ..telemetered(5_000, &over) });
}

/// On Friday 28: the third match is the 21st entry, and a fourth, which is not looked at, follows.
fn fridays(own: OwnValue) -> Telemetered {
    let history: Vec<Entry> =
        (1..=28).map(|i| if i % 7 == 0 { Real(10 * i) } else { Own(i) }).collect();
    Telemetered { own: Some(own), ..telemetered(28, &history) }
}

/// At and beside twelve hours before the end of each gas day, and its end.
fn arrivals(out: &mut Vec<Operation>) {
    let mut add = |point: Telemetered| out.push(Operation::Telemetered(point));
    let beside = |minute: i128| [minute - 1, minute, minute + 1];
    let ends = DAY_LENGTHS.into_iter().flat_map(beside);
    let limits = DAY_LENGTHS.into_iter().flat_map(|length| beside(length - TWELVE_HOURS));
    // The last three are small, or below 0, in fewer bits.
    let far = [0, 1, 600, 1_000, 2_880, 1 << 16, 1 << 31, HUGE_32];
    let arrivals: Vec<i128> = limits.chain(ends).chain(far).collect();
    for length in DAY_LENGTHS {
        for &arrival in &arrivals {
            add(fridays(OwnValue { value: 7, arrival, length }));
        }
        for arrival in beside(length - TWELVE_HOURS).into_iter().chain(beside(length)) {
            let own = OwnValue { value: 0, arrival, length };
            add(fridays(own));
            add(Telemetered { reading: Some(3), ..fridays(own) });
            add(Telemetered { own: Some(own), ..telemetered(0, &[]) });
        }
    }
}

/// Lengths that no gas day has, with arrivals that would count, be late or come after the end.
fn lengths(out: &mut Vec<Operation>) {
    let mut add = |point: Telemetered| out.push(Operation::Telemetered(point));
    let beside = [1_379, 1_381, 1_410, 1_439, 1_441, 1_470, 1_499, 1_501];
    // 1,440 in hours, in seconds and in 16 bits; twice and half of it.
    let mistaken = [24, 86_400, (1 << 16) + 1_440, 2_880, 720];
    for length in beside.into_iter().chain(mistaken).chain([0, 1, 719, 721, HUGE_32]) {
        let limit = (length - TWELVE_HOURS).max(0);
        let after = (length + 1).min(HUGE_32);
        for arrival in [0, limit, length / 2, length, after] {
            add(fridays(OwnValue { value: 7, arrival, length }));
        }
        let own = Some(OwnValue { value: 7, arrival: limit, length });
        add(Telemetered { reading: Some(3), own, ..telemetered(28, &[]) });
        add(Telemetered { own, ..telemetered(28, &[]) });
    }
}

/// As if nothing had been sent: the mean, the flow of a new consumer, or no basis; and a reading.
fn late_values(out: &mut Vec<Operation>) {
    let mut add = |point: Telemetered| out.push(Operation::Telemetered(point));
    let histories: [&[Entry]; 6] = [
        &[],
        &[Nothing, Own(4), Estimated(6)],
        // Day 10 is a Monday: the days before are a Sunday, a Saturday and a Friday.
        &[Real(5), Nothing, Own(8)],
        &[Real(5), Real(6), Real(9)],
        &[Real(5), Real(6), Real(9), Nothing, Real(4), Own(3)],
        &[Real(5), Real(6), Real(9), Nothing, Real(4), Real(2), Real(1), Real(1_000)],
    ];
    for length in DAY_LENGTHS {
        let late = OwnValue { value: 77, arrival: length - TWELVE_HOURS + 1, length };
        let at_the_end = OwnValue { arrival: length, ..late };
        for own in [Some(late), Some(at_the_end), None] {
            for history in histories {
                let point = Telemetered { own, q_a: Some(315), ..telemetered(10, history) };
                add(Telemetered { toll_3_4: true, ..point.clone() });
                add(Telemetered { q_d: Some(1_001), ..point.clone() });
                add(Telemetered { reading: Some(12), ..point.clone() });
                add(point);
            }
        }
    }
}

/// 2 before 16 before 15: each value past its range, beside late and wrong arrivals.
fn order_of_refusals(out: &mut Vec<Operation>) {
    let mut add = |point: Telemetered| out.push(Operation::Telemetered(point));
    let (counts, late, after_the_end) = ((600, 1_440), (1_200, 1_440), (1_441, 1_440));
    let (no_such_day, before_it) = ((0, 1_410), (700, 719));
    for (arrival, length) in [counts, late, after_the_end, no_such_day, before_it] {
        for value in BOUNDS.into_iter().flatten() {
            let own = OwnValue { value, arrival, length };
            add(fridays(own));
            add(Telemetered { reading: Some(3), ..fridays(own) });
            add(Telemetered { own: Some(own), ..telemetered(10, &[]) });
        }
    }
    for (arrival, length) in [late, after_the_end, no_such_day] {
        let point = fridays(OwnValue { value: 7, arrival, length });
        let too_large = Some(MAX_ENERGY + 1);
        add(Telemetered { day: LAST_DAY + 1, ..point.clone() });
        add(Telemetered { day: 27, ..point.clone() });
        add(Telemetered { holidays: vec![3, 3], ..point.clone() });
        add(Telemetered { reading: too_large, ..point.clone() });
        add(Telemetered { q_a: too_large, ..point.clone() });
        add(Telemetered { q_d: Some(HUGE), ..point.clone() });
        add(Telemetered { f_c: 1_001, ..point.clone() });
        add(Telemetered { history: vec![Nothing, Real(MAX_ENERGY + 1)], ..point.clone() });
        let long = Telemetered { day: 5_000, ..point };
        add(Telemetered { history: vec![Nothing; MAX_HISTORY], ..long.clone() });
        add(Telemetered { history: vec![Nothing; MAX_HISTORY + 1], ..long.clone() });
        // Real entries, of Saturdays alone: no basis, if it comes to that.
        add(Telemetered { day: 5, history: vec![Nothing, Nothing, Nothing, Real(1)], ..long });
    }
}

fn entry(greatest: i128, rng: &mut Rng) -> Entry {
    let value = rng.between(0, greatest);
    match rng.below(6) {
        0 => Nothing,
        1 => Estimated(value),
        2 => Own(value),
        _ => Real(value),
    }
}

/// Most arrivals are close to twelve hours before the end, or to the end.
fn random_own(greatest: i128, rng: &mut Rng) -> OwnValue {
    let length = match rng.below(10) {
        0 => rng.between(0, 1_600),
        1 => rng.pick(&DAY_LENGTHS) + rng.pick(&[-1, 1]),
        _ => rng.pick(&DAY_LENGTHS),
    };
    let arrival = match rng.below(8) {
        0 => rng.between(0, 1_600),
        1 => length + rng.between(-1, 1),
        _ => length - TWELVE_HOURS + rng.between(-3, 3),
    };
    OwnValue { value: rng.between(0, greatest), arrival: arrival.max(0), length }
}

fn random(rng: &mut Rng) -> Telemetered {
    let day = rng.between(25, LAST_DAY);
    let count = rng.below(24);
    let greatest = rng.pick(&[9, 1_000, MAX_ENERGY]);
    let gaps = rng.pick(&[2, 3, 20]);
    let history: Vec<Entry> =
        (0..count).map(|_| if rng.one_in(gaps) { Nothing } else { entry(greatest, rng) }).collect();
    let mut holidays: Vec<i128> =
        (0..rng.below(5)).map(|_| (day - rng.between(0, 24)).max(0)).collect();
    holidays.sort();
    holidays.dedup();
    let maybe = |rng: &mut Rng| rng.one_in(2).then(|| rng.between(0, MAX_ENERGY));
    Telemetered {
        day,
        holidays,
        reading: if rng.one_in(12) { maybe(rng) } else { None },
        own: if rng.one_in(3) { Some(random_own(greatest, rng)) } else { None },
        toll_3_4: rng.one_in(2),
        q_a: maybe(rng),
        q_d: maybe(rng),
        f_c: rng.between(0, 1_000),
        history,
    }
}
