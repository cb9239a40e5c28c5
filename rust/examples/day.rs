//! A day from its lines to its inventory and its revision, in Rust. From the repository's root:
//!
//!     tools/build archive
//!     cargo run --offline --manifest-path rust/Cargo.toml --example day
//!
//! It prints examples/day.out. examples/day.c is the same program in C.

use seatpomelo::{PointDay, Refusal, Revision};

fn main() -> Result<(), Refusal> {
    // Document 01's file E: three users and their lines, one number of each list a line.
    let users = [7, 7, 9, 12];
    let kinds = [1, 3, 5, 2];
    let consumptions = [300, 200, 150, 50]; // kWh
    let coefficients = [1000, 0, 2000, 0]; // parts of 100,000

    let mut day = PointDay::fresh();
    for user in [7, 9, 12] {
        day.join(user)?;
    }
    let lines = day.lines(&users, &kinds, &consumptions, &coefficients);
    if let Some(refusal) = lines.refusal {
        return Err(refusal);
    }
    println!("{} lines, losses {}", lines.accepted, lines.losses_added);

    day.measure(1000, 100)?;
    day.allot()?;
    for row in day.inventory()? {
        println!(
            "user {} kind {}: consumption {}, losses {}, balance {}",
            row.user,
            row.kind.number(),
            row.consumption,
            row.losses,
            row.balance
        );
    }

    // A later measurement, and what it changes.
    day.measure(1101, 100)?;
    match day.revise()? {
        Revision::Within(amount) => println!("revision {amount}, within tolerance"),
        Revision::Assigned(amount) => println!("revision {amount}"),
    }
    for user in day.users() {
        println!("user {}: revision {}", user.number(), user.revision());
    }
    Ok(())
}
