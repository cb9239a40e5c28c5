//! The calls as include/seatpomelo.h has them, on slices: each returns 0 or the number of the refusal, and values go through `&mut`.
//!
//! For numbers that are kept where they are, for instance many point-days in one list. Any numbers may be given: the calls test them
//! themselves. The header says what each argument means; the rest of this crate is these calls with types.
//!
//! ```
//! use seatpomelo::raw;
//!
//! let mut day = [0; seatpomelo::PointDay::NUMBERS];
//! assert_eq!(raw::fresh(&mut day), 0);
//! assert_eq!(raw::join(&mut day, 7), 0);
//! assert_eq!(raw::join(&mut day, 7), 4); // already joined
//! ```

pub use crate::sys::{
    allot, day_report, day_type, degree_days, fresh, inventory, join, line, lines, measure, month,
    profile, province, revise, split, spread, stand_in, start_final, telemetered,
    type_1_other_toll, type_1_toll_34, type_2, zone,
};
