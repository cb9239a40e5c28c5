//! Document 01, "Proration".

/// One party of a split: its weight (never negative), and the user number, kind number or day
/// that decides between equal remainders. The keys of a split are distinct.
#[derive(Clone, Copy, Debug, PartialEq, Eq)]
pub struct Party {
    pub weight: i128,
    pub key: i128,
}

/// The parties' shares of `amount`, in the parties' order.
pub fn prorate(amount: i128, parties: &[Party]) -> Vec<i128> {
    // "A negative amount is split by its size and the sign put back."
    let sign = if amount < 0 { -1 } else { 1 };
    let shares = split_size(amount.abs(), &counted_weights(parties), parties);
    shares.into_iter().map(|share| sign * share).collect()
}

/// "If all weights are zero, each counts as 1."
pub fn counted_weights(parties: &[Party]) -> Vec<i128> {
    let all_zero = parties.iter().all(|party| party.weight == 0);
    parties.iter().map(|party| if all_zero { 1 } else { party.weight }).collect()
}

fn split_size(size: i128, weights: &[i128], parties: &[Party]) -> Vec<i128> {
    assert!(weights.iter().all(|&weight| weight >= 0), "a weight is negative");
    let total: i128 = weights.iter().sum();

    // "Party i first gets the floor of A × w_i / W."
    let mut shares: Vec<i128> = weights.iter().map(|w| size * w / total).collect();
    let remainders: Vec<i128> = weights.iter().map(|w| size * w % total).collect();
    let left = size - shares.iter().sum::<i128>();

    // "The units left over go one each to the largest remainders; equal remainders go to the
    // lower user or kind number, or the earlier day."
    let mut order: Vec<usize> = (0..parties.len()).collect();
    order.sort_by_key(|&i| (-remainders[i], parties[i].key));
    for &i in order.iter().take(left as usize) {
        shares[i] += 1;
    }
    shares
}

#[cfg(test)]
mod tests {
    use super::*;

    fn shares(amount: i128, weights_and_keys: &[(i128, i128)]) -> Vec<i128> {
        let parties: Vec<Party> =
            weights_and_keys.iter().map(|&(weight, key)| Party { weight, key }).collect();
        prorate(amount, &parties)
    }

    #[test]
    fn ties_go_to_the_lower_number_not_the_earlier_place() {
        assert_eq!(shares(10, &[(1, 9), (1, 7), (1, 8)]), [3, 4, 3]);
    }

    #[test]
    fn zero_weights_count_as_one_each() {
        assert_eq!(shares(201, &[(0, 5), (0, 6)]), [101, 100]);
        assert_eq!(shares(7, &[(0, 5), (2, 6)]), [0, 7]);
    }

    #[test]
    fn shares_sum_to_the_amount() {
        let parties: Vec<(i128, i128)> = (0..366).map(|i| (2_000_000_000 - i * i, i)).collect();
        for amount in [1_000_000_000, -1_000_000_000, 365, 1, 0, -1] {
            assert_eq!(shares(amount, &parties).iter().sum::<i128>(), amount);
        }
    }
}
