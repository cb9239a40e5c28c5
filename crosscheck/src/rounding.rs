//! Document 01's "nearest": rounded to a whole number, halves up.

/// The nearest whole number to `numerator / denominator`; the denominator is above 0.
pub fn nearest(numerator: i128, denominator: i128) -> i128 {
    assert!(denominator > 0);
    (2 * numerator + denominator).div_euclid(2 * denominator)
}

#[cfg(test)]
mod tests {
    use super::nearest;

    #[test]
    fn halves_go_up() {
        assert_eq!(nearest(3, 2), 2);
        assert_eq!(nearest(375, 2), 188);
        assert_eq!(nearest(149, 100), 1);
        assert_eq!(nearest(0, 7), 0);
    }
}
