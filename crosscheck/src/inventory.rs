//! Document 01, "Day file and inventory": the inventory of an allotted point-day.

use crate::limits::KINDS;
use crate::point_day::PointDay;
use crate::refusal::{Refusal, Refusals};

/// User, kind, consumption, losses, balance.
pub type InventoryRow = [i128; 5];

const NUMBERS_A_ROW: usize = 5;

/// Writes the rows into the lent buffer and answers their count; later numbers stay.
pub fn inventory(day: &PointDay, buffer: &mut [i128]) -> Result<usize, Refusal> {
    if !day.taken() {
        return Err(Refusal::OutOfRange);
    }
    let rows = in_product_order(rows(day), day);
    let mut refusals = Refusals::new();
    refusals.when(!day.allotted, Refusal::WrongStage);
    refusals.when(buffer.len() < NUMBERS_A_ROW * rows.len(), Refusal::BufferTooShort);
    refusals.decide()?;
    for (i, number) in rows.iter().flatten().enumerate() {
        buffer[i] = *number;
    }
    Ok(rows.len())
}

/// A row "for each user and kind not all zero".
pub fn rows(day: &PointDay) -> Vec<InventoryRow> {
    let mut rows = Vec::new();
    for slot in day.users() {
        for kind in 0..KINDS {
            let amounts = [slot.consumption[kind], slot.losses[kind], slot.balance[kind]];
            if amounts != [0, 0, 0] {
                let [consumption, losses, balance] = amounts;
                rows.push([slot.number, kind as i128 + 1, consumption, losses, balance]);
            }
        }
    }
    rows
}

/// "Rows come in any order": the product writes them by place of joining, then by kind.
fn in_product_order(mut rows: Vec<InventoryRow>, day: &PointDay) -> Vec<InventoryRow> {
    rows.sort_by_key(|row| (day.slot_of(row[0]), row[1]));
    rows
}
