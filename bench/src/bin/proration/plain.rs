//! The same split in plain Rust: floors, then a sort by remainder and key. It tests its arguments as the proved call does.

use std::cmp::Reverse;

/// Whether no two keys are alike: only a key whose bucket is taken is searched among those before it.
fn distinct(keys: &[u64]) -> bool {
    let mut marked = [false; 1024];
    for (i, &key) in keys.iter().enumerate() {
        let bucket = (key % 1024) as usize;
        if marked[bucket] && keys[..i].contains(&key) {
            return false;
        }
        marked[bucket] = true;
    }
    true
}

pub fn split(amount: i64, weights: &[u64], keys: &[u64], shares: &mut [i64]) -> Result<(), u8> {
    let parties = weights.len();
    let size = amount.unsigned_abs();
    if size > 1_000_000_000 || parties == 0 || parties > 366 || keys.len() != parties {
        return Err(2);
    }
    if weights.iter().any(|&weight| weight > 2_000_000_000) {
        return Err(2);
    }
    if !distinct(keys) {
        return Err(2);
    }
    if shares.len() < parties {
        return Err(14);
    }

    let total: u64 = weights.iter().sum();
    let whole = if total == 0 { parties as u64 } else { total };
    let mut left = size;
    let mut order = Vec::with_capacity(parties);
    for (i, &weight) in weights.iter().enumerate() {
        let product = size * if total == 0 { 1 } else { weight };
        let floor = product / whole;
        shares[i] = floor as i64;
        left -= floor;
        order.push((Reverse(product % whole), keys[i], i));
    }
    order.sort_unstable();
    for &(_, _, i) in order.iter().take(left as usize) {
        shares[i] += 1;
    }
    if amount < 0 {
        for share in &mut shares[..parties] {
            *share = -*share;
        }
    }
    Ok(())
}
