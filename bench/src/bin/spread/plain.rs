//! The same in plain Rust: the tests in document 01's order, floors, then a sort by remainder and day.

use std::cmp::Reverse;

pub fn spread(reading: u64, weights: &[i64], out: &mut [i64]) -> Result<(), u8> {
    let days = weights.len();
    let in_range = |&weight: &i64| (-2_000_000_000..=2_000_000_000).contains(&weight);
    if reading > 1_000_000_000 || days == 0 || days > 366 || !weights.iter().all(in_range) {
        return Err(2);
    }
    if weights.iter().any(|&weight| weight < 0) {
        return Err(11);
    }
    if out.len() < days {
        return Err(14);
    }

    let total: u64 = weights.iter().map(|&weight| weight as u64).sum();
    let whole = if total == 0 { days as u64 } else { total };
    let mut left = reading;
    let mut order = Vec::with_capacity(days);
    for (day, &weight) in weights.iter().enumerate() {
        let product = reading * if total == 0 { 1 } else { weight as u64 };
        let floor = product / whole;
        out[day] = floor as i64;
        left -= floor;
        order.push((Reverse(product % whole), day));
    }
    order.sort_unstable();
    for &(_, day) in order.iter().take(left as usize) {
        out[day] += 1;
    }
    Ok(())
}
