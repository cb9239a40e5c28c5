//! The declarations of include/seatpomelo.h, and each call on slices. The only unsafe code of the crate.
//!
//! SAFETY, of every call here: a list goes as the pointer and length of a slice and a value as a reference, all of which live through the
//! call, are never null, and do not overlap where one is written to. The proved library reads and writes nothing else, whatever the numbers.
#![allow(unsafe_code, clippy::too_many_arguments)]

#[rustfmt::skip]
extern "C" {
    fn seatpomelo_fresh(day: *mut i64, numbers: usize) -> u8;
    fn seatpomelo_join(day: *mut i64, numbers: usize, user: u16) -> u8;
    fn seatpomelo_line(day: *mut i64, numbers: usize, user: u16, kind: u8, consumption: u64, coefficient: u64, losses_added: *mut u64) -> u8;
    fn seatpomelo_lines(day: *mut i64, numbers: usize, users: *const u16, user_count: usize, kinds: *const u8, kind_count: usize,
        consumptions: *const u64, consumption_count: usize, coefficients: *const u64, coefficient_count: usize,
        accepted: *mut u64, losses_added: *mut u64) -> u8;
    fn seatpomelo_measure(day: *mut i64, numbers: usize, emission: u64, downstream: u64) -> u8;
    fn seatpomelo_allot(day: *mut i64, numbers: usize) -> u8;
    fn seatpomelo_stand_in(day: *mut i64, numbers: usize, counts: *const usize, count_count: usize, users: *const u16, user_count: usize,
        amounts: *const i64, amount_count: usize, rows_looked_at: *mut u64) -> u8;
    fn seatpomelo_revise(day: *mut i64, numbers: usize, within: *mut u64, amount: *mut i64) -> u8;
    fn seatpomelo_start_final(day: *mut i64, numbers: usize) -> u8;
    fn seatpomelo_inventory(day: *const i64, numbers: usize, out: *mut i64, room: usize, rows: *mut u64) -> u8;
    fn seatpomelo_day_report(file: *const u8, bytes: usize, out: *mut u8, room: usize, written: *mut u64) -> u8;
    fn seatpomelo_day_type(day: u32, holidays: *const u32, holiday_count: usize, day_type: *mut u64) -> u8;
    fn seatpomelo_month(day: u32, holidays: *const u32, holiday_count: usize, first: *mut u64, days: *mut u64, mask: *mut u64,
        working: *mut u64) -> u8;
    fn seatpomelo_telemetered(day: u32, holidays: *const u32, holiday_count: usize, reading: *const u64, reading_count: usize,
        own: *const u64, own_count: usize, arrival: u32, day_length: u32, toll: u8, yearly: *const u64, yearly_count: usize,
        daily: *const u64, daily_count: usize, factor: u32, tags: *const u8, tag_count: usize, values: *const u64, value_count: usize,
        consumption: *mut u64, looked_at: *mut u64) -> u8;
    fn seatpomelo_type_1_toll_34(day: u32, last_year: *const u64, last_year_count: usize, g: u32, last_days: *const u32,
        last_day_count: usize, last_month: *const u64, last_month_count: usize, yearly: *const u64, yearly_count: usize,
        consumption: *mut u64) -> u8;
    fn seatpomelo_type_1_other_toll(day: u32, holidays: *const u32, holiday_count: usize, last_year: *const u64, last_year_count: usize,
        c_c: u32, last_month: *const u64, last_month_count: usize, daily: *const u64, daily_count: usize, f_c: u32, c_f: u32,
        consumption: *mut u64) -> u8;
    fn seatpomelo_type_2(consumers: u32, profile: u64, g: u32, winters: u8, first: *const u32, first_count: usize, second: *const u32,
        second_count: usize, consumption: *mut u64) -> u8;
    fn seatpomelo_profile(f1: u64, f2: u64, nc1: u32, nc2: u32, n1: u32, n2: u32, wh: *mut u64) -> u8;
    fn seatpomelo_degree_days(tmin: i32, tmax: i32, fortieths: *mut u64) -> u8;
    fn seatpomelo_zone(hundredths: u32, zone: *mut u64) -> u8;
    fn seatpomelo_province(number: u32, value: *mut u64, zone: *mut u64) -> u8;
    fn seatpomelo_split(amount: i64, weights: *const u64, weight_count: usize, keys: *const u64, key_count: usize, out: *mut i64,
        room: usize) -> u8;
    fn seatpomelo_spread(reading: u64, weights: *const i64, days: usize, out: *mut i64, room: usize) -> u8;
}

/// Makes the numbers a fresh point-day.
pub fn fresh(day: &mut [i64]) -> u8 {
    unsafe { seatpomelo_fresh(day.as_mut_ptr(), day.len()) }
}

/// Join.
pub fn join(day: &mut [i64], user: u16) -> u8 {
    unsafe { seatpomelo_join(day.as_mut_ptr(), day.len(), user) }
}

/// Line.
pub fn line(
    day: &mut [i64],
    user: u16,
    kind: u8,
    consumption: u64,
    coefficient: u64,
    losses_added: &mut u64,
) -> u8 {
    unsafe {
        seatpomelo_line(
            day.as_mut_ptr(),
            day.len(),
            user,
            kind,
            consumption,
            coefficient,
            losses_added,
        )
    }
}

/// Many lines, until one is refused; the values are written in every case.
pub fn lines(
    day: &mut [i64],
    users: &[u16],
    kinds: &[u8],
    consumptions: &[u64],
    coefficients: &[u64],
    accepted: &mut u64,
    losses_added: &mut u64,
) -> u8 {
    unsafe {
        seatpomelo_lines(
            day.as_mut_ptr(),
            day.len(),
            users.as_ptr(),
            users.len(),
            kinds.as_ptr(),
            kinds.len(),
            consumptions.as_ptr(),
            consumptions.len(),
            coefficients.as_ptr(),
            coefficients.len(),
            accepted,
            losses_added,
        )
    }
}

/// Measure.
pub fn measure(day: &mut [i64], emission: u64, downstream: u64) -> u8 {
    unsafe { seatpomelo_measure(day.as_mut_ptr(), day.len(), emission, downstream) }
}

/// Allot.
pub fn allot(day: &mut [i64]) -> u8 {
    unsafe { seatpomelo_allot(day.as_mut_ptr(), day.len()) }
}

/// Stand-in.
pub fn stand_in(
    day: &mut [i64],
    counts: &[usize],
    users: &[u16],
    amounts: &[i64],
    rows_looked_at: &mut u64,
) -> u8 {
    unsafe {
        seatpomelo_stand_in(
            day.as_mut_ptr(),
            day.len(),
            counts.as_ptr(),
            counts.len(),
            users.as_ptr(),
            users.len(),
            amounts.as_ptr(),
            amounts.len(),
            rows_looked_at,
        )
    }
}

/// Revise.
pub fn revise(day: &mut [i64], within: &mut u64, amount: &mut i64) -> u8 {
    unsafe { seatpomelo_revise(day.as_mut_ptr(), day.len(), within, amount) }
}

/// Start-final.
pub fn start_final(day: &mut [i64]) -> u8 {
    unsafe { seatpomelo_start_final(day.as_mut_ptr(), day.len()) }
}

/// The inventory.
pub fn inventory(day: &[i64], out: &mut [i64], rows: &mut u64) -> u8 {
    unsafe { seatpomelo_inventory(day.as_ptr(), day.len(), out.as_mut_ptr(), out.len(), rows) }
}

/// The report on a day file.
pub fn day_report(file: &[u8], out: &mut [u8], written: &mut u64) -> u8 {
    unsafe {
        seatpomelo_day_report(file.as_ptr(), file.len(), out.as_mut_ptr(), out.len(), written)
    }
}

/// The type of a gas day.
pub fn day_type(day: u32, holidays: &[u32], day_type: &mut u64) -> u8 {
    unsafe { seatpomelo_day_type(day, holidays.as_ptr(), holidays.len(), day_type) }
}

/// The month of a gas day.
pub fn month(
    day: u32,
    holidays: &[u32],
    first: &mut u64,
    days: &mut u64,
    mask: &mut u64,
    working: &mut u64,
) -> u8 {
    unsafe { seatpomelo_month(day, holidays.as_ptr(), holidays.len(), first, days, mask, working) }
}

/// Telemetered consumption.
pub fn telemetered(
    day: u32,
    holidays: &[u32],
    reading: &[u64],
    own: &[u64],
    arrival: u32,
    day_length: u32,
    toll: u8,
    yearly: &[u64],
    daily: &[u64],
    factor: u32,
    tags: &[u8],
    values: &[u64],
    consumption: &mut u64,
    looked_at: &mut u64,
) -> u8 {
    unsafe {
        seatpomelo_telemetered(
            day,
            holidays.as_ptr(),
            holidays.len(),
            reading.as_ptr(),
            reading.len(),
            own.as_ptr(),
            own.len(),
            arrival,
            day_length,
            toll,
            yearly.as_ptr(),
            yearly.len(),
            daily.as_ptr(),
            daily.len(),
            factor,
            tags.as_ptr(),
            tags.len(),
            values.as_ptr(),
            values.len(),
            consumption,
            looked_at,
        )
    }
}

/// Type 1, toll 3.4.
pub fn type_1_toll_34(
    day: u32,
    last_year: &[u64],
    g: u32,
    last_days: &[u32],
    last_month: &[u64],
    yearly: &[u64],
    consumption: &mut u64,
) -> u8 {
    unsafe {
        seatpomelo_type_1_toll_34(
            day,
            last_year.as_ptr(),
            last_year.len(),
            g,
            last_days.as_ptr(),
            last_days.len(),
            last_month.as_ptr(),
            last_month.len(),
            yearly.as_ptr(),
            yearly.len(),
            consumption,
        )
    }
}

/// Type 1, other toll.
pub fn type_1_other_toll(
    day: u32,
    holidays: &[u32],
    last_year: &[u64],
    c_c: u32,
    last_month: &[u64],
    daily: &[u64],
    f_c: u32,
    c_f: u32,
    consumption: &mut u64,
) -> u8 {
    unsafe {
        seatpomelo_type_1_other_toll(
            day,
            holidays.as_ptr(),
            holidays.len(),
            last_year.as_ptr(),
            last_year.len(),
            c_c,
            last_month.as_ptr(),
            last_month.len(),
            daily.as_ptr(),
            daily.len(),
            f_c,
            c_f,
            consumption,
        )
    }
}

/// Type 2.
pub fn type_2(
    consumers: u32,
    profile: u64,
    g: u32,
    winters: u8,
    first: &[u32],
    second: &[u32],
    consumption: &mut u64,
) -> u8 {
    unsafe {
        seatpomelo_type_2(
            consumers,
            profile,
            g,
            winters,
            first.as_ptr(),
            first.len(),
            second.as_ptr(),
            second.len(),
            consumption,
        )
    }
}

/// A profile.
pub fn profile(f1: u64, f2: u64, nc1: u32, nc2: u32, n1: u32, n2: u32, wh: &mut u64) -> u8 {
    unsafe { seatpomelo_profile(f1, f2, nc1, nc2, n1, n2, wh) }
}

/// Degree days.
pub fn degree_days(tmin: i32, tmax: i32, fortieths: &mut u64) -> u8 {
    unsafe { seatpomelo_degree_days(tmin, tmax, fortieths) }
}

/// The zone of a value.
pub fn zone(hundredths: u32, zone: &mut u64) -> u8 {
    unsafe { seatpomelo_zone(hundredths, zone) }
}

/// A province's value and zone.
pub fn province(number: u32, value: &mut u64, zone: &mut u64) -> u8 {
    unsafe { seatpomelo_province(number, value, zone) }
}

/// An amount prorated over weights.
pub fn split(amount: i64, weights: &[u64], keys: &[u64], out: &mut [i64]) -> u8 {
    unsafe {
        seatpomelo_split(
            amount,
            weights.as_ptr(),
            weights.len(),
            keys.as_ptr(),
            keys.len(),
            out.as_mut_ptr(),
            out.len(),
        )
    }
}

/// A reading spread over days.
pub fn spread(reading: u64, weights: &[i64], out: &mut [i64]) -> u8 {
    unsafe {
        seatpomelo_spread(reading, weights.as_ptr(), weights.len(), out.as_mut_ptr(), out.len())
    }
}
