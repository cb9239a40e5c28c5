//! Day files.

use crate::raw;
use crate::refusal::{answer, Refusal};

/// Room enough for every report.
const ROOM: usize = 8_192;

/// The report on a day file: a line `point` with day, net, consumption, losses and balance, then for each user in file order a line `user`
/// with number, consumption, losses, balance and whole amount.
///
/// ```
/// use seatpomelo::Refusal;
///
/// // A day with one user.
/// let mut file = b"REP1".to_vec();
/// for number in [152_u32, 1_000, 100] {
///     file.extend(number.to_le_bytes()); // gas day, emission, downstream emission
/// }
/// file.extend([1, 0]); // one section
/// file.extend([26, 0, 0, 0, 9, 0, 0, 0]); // from byte 26, 9 bytes
/// file.extend([7, 0, 1, 44, 1, 0, 0, 232, 3]); // user 7: kind 1, 300 kWh, coefficient 1,000
/// assert_eq!(seatpomelo::day_report(&file).unwrap(), "point 152 900 300 3 597\nuser 7 300 3 597 900\n");
/// assert_eq!(seatpomelo::day_report(&file[1..]), Err(Refusal::Malformed));
/// ```
pub fn day_report(file: &[u8]) -> Result<String, Refusal> {
    let mut out = [0; ROOM];
    let mut written = 0;
    answer(raw::day_report(file, &mut out, &mut written))?;
    Ok(String::from_utf8_lossy(&out[..written as usize]).into_owned())
}
