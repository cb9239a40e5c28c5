//! include/seatpomelo.h has the same numbers as this crate.

use std::collections::BTreeMap;

use seatpomelo::{Kind, PointDay, Refusal, Stage, Toll, STAND_IN_ROWS};

/// The header's constants by name, without the prefix.
fn constants() -> BTreeMap<&'static str, usize> {
    let header = include_str!("../../include/seatpomelo.h");
    let defined = header.lines().filter_map(|line| line.strip_prefix("#define SEATPOMELO_"));
    let constant = |line: &'static str| {
        let mut words = line.split_whitespace();
        Some((words.next()?, words.next()?.parse().ok()?))
    };
    defined.filter_map(constant).collect()
}

/// `WrongStage` as `WRONG_STAGE`.
fn name(refusal: Refusal) -> String {
    let mut name = String::new();
    for letter in format!("{refusal:?}").chars() {
        if letter.is_uppercase() && !name.is_empty() {
            name.push('_');
        }
        name.push(letter.to_ascii_uppercase());
    }
    name
}

#[test]
fn refusals() {
    let constants = constants();
    for refusal in Refusal::ALL {
        assert_eq!(constants[name(refusal).as_str()], refusal.number() as usize);
        assert_eq!(Refusal::from_number(refusal.number()), Some(refusal));
    }
    assert_eq!(
        (constants["DONE"], Refusal::from_number(0), Refusal::from_number(17)),
        (0, None, None)
    );
}

#[test]
fn kinds_stages_and_sizes() {
    let constants = constants();
    for (name, number) in [
        ("READ", Kind::Read as usize),
        ("ESTIMATED", Kind::Estimated as usize),
        ("TYPE_1_TOLL_34", Kind::Type1Toll34 as usize),
        ("TYPE_1_OTHER_TOLL", Kind::Type1OtherToll as usize),
        ("TYPE_2", Kind::Type2 as usize),
        ("PROVISIONAL", Stage::Provisional as usize),
        ("FINAL_PROVISIONAL", Stage::FinalProvisional as usize),
        ("FINAL_DEFINITIVE", Stage::FinalDefinitive as usize),
        ("OTHER_TOLL", Toll::Other as usize),
        ("TOLL_34", Toll::Toll34 as usize),
        ("DAY", PointDay::NUMBERS),
        ("KINDS", Kind::ALL.len()),
        ("STAND_IN_ROWS", STAND_IN_ROWS),
    ] {
        assert_eq!(constants[name], number, "{name}");
    }
}

#[test]
fn places() {
    let constants = constants();
    let mut numbers = *PointDay::fresh().numbers();
    let user_at = constants["USERS"] + 1;
    numbers[constants["STAGE"]] = 1;
    numbers[constants["ALLOTTED"]] = 1;
    numbers[constants["MEASURED"]] = 1;
    numbers[constants["EMISSION"]] = 90;
    numbers[constants["DOWNSTREAM"]] = 30;
    numbers[constants["USER_COUNT"]] = 2;
    (numbers[user_at - 1], numbers[user_at]) = (8, 9);
    let cell = 5 + Kind::Type1Toll34 as usize - 1;
    numbers[constants["CONSUMPTION"] + cell] = 11;
    numbers[constants["LOSSES"] + cell] = 12;
    numbers[constants["BALANCE"] + cell] = 13;
    numbers[constants["REVISION"] + 1] = 14;
    let day = PointDay::from_numbers(&numbers).unwrap();
    assert_eq!((day.stage(), day.is_allotted()), (Stage::FinalProvisional, true));
    assert_eq!(day.measurement().unwrap().net(), 60);
    let user = day.user(9).unwrap();
    let kind = Kind::Type1Toll34;
    assert_eq!((user.consumption(kind), user.losses(kind), user.balance(kind)), (11, 12, 13));
    assert_eq!((user.revision(), user.whole_amount()), (14, 50));
}
