//! Demand 3: what a list of calls from fresh leaves, held against the day book.

use crate::calls::{self, Answer, Call, LineArguments, TOLERANCE};
use crate::cases::call_lists::{random_list, Style};
use crate::cases::hand_lists;
use crate::day_book::{figure, DayBook, Entry, Split, Step};
use crate::limits::{KINDS, MAX_ENERGY};
use crate::point_day::{sum, PointDay, Stage};
use crate::refusal::Refusal;
use crate::rng::Rng;

const SEED: u64 = 3;
const RANDOM_LISTS: usize = 4_000;

/// Runs the lists about each rule, and random lists, through the point-day and the book.
pub fn confirm() -> Result<(), String> {
    let mut lists = hand_lists::lists();
    let mut rng = Rng::new(SEED);
    for number in 0..RANDOM_LISTS {
        let many = number % 50 == 0;
        let style = if many { Style::of(66, &mut rng) } else { Style::random(&mut rng) };
        let length = if many { 150 } else { rng.pick(&[5, 20, 40, 60]) };
        lists.push(random_list(length, &style, &mut rng));
    }
    for (number, list) in lists.iter().enumerate() {
        check_list(list).map_err(|message| format!("day book: list {}, {message}", number + 1))?;
    }
    let calls: usize = lists.iter().map(Vec::len).sum();
    println!("day book: {} lists of {calls} calls confirmed", lists.len());
    Ok(())
}

/// Feeds one list to both, and checks after each call.
pub fn check_list(list: &[Call]) -> Result<(), String> {
    let mut checker = Checker {
        day: PointDay::fresh(),
        book: DayBook::fresh(),
        lines: Vec::new(),
        revised: false,
    };
    for (i, call) in list.iter().enumerate() {
        checker.step(call).map_err(|message| format!("call {} ({call:?}): {message}", i + 1))?;
    }
    Ok(())
}

struct Checker {
    day: PointDay,
    book: DayBook,
    /// The lines that the stage has accepted.
    lines: Vec<LineArguments>,
    /// Whether an accepted revise came after the last measurement.
    revised: bool,
}

fn ensure(holds: bool, message: &str) -> Result<(), String> {
    if holds {
        Ok(())
    } else {
        Err(message.to_string())
    }
}

impl Checker {
    fn step(&mut self, call: &Call) -> Result<(), String> {
        let before = self.day.clone();
        let result = calls::make(&mut self.day, call);
        let entry = self.book.feed(call);
        ensure(entry == entry_of(&result), "the book refuses or answers otherwise")?;
        match result {
            Err(_) => ensure(self.day == before, "a refused call changed the point-day")?,
            Ok(answer) => {
                self.note(call, &answer);
                self.check_shares(call, &answer, &before)?;
            }
        }
        ensure(self.day.taken(), "the point-day is not taken")?;
        self.check_same_figures()?;
        self.check_lines()?;
        self.check_sums()
    }

    fn note(&mut self, call: &Call, answer: &Answer) {
        match call {
            Call::Line(arguments) | Call::Edit(arguments) => self.lines.push(arguments.clone()),
            Call::StartFinal => self.lines.clear(),
            _ => {}
        }
        match answer {
            Answer::Revised(_) | Answer::WithinTolerance(_) => self.revised = true,
            _ if matches!(call, Call::Measure(_)) => self.revised = false,
            _ => {}
        }
    }

    /// Stage, users in the order of joining, measurement and every figure are the book's.
    fn check_same_figures(&self) -> Result<(), String> {
        ensure(step_of(&self.day) == self.book.step, "another stage")?;
        let users: Vec<i128> = self.day.users().iter().map(|slot| slot.number).collect();
        ensure(users == self.book.joined, "other users")?;
        let measured = self.day.measurement.map(|values| (values.emission, values.downstream));
        ensure(measured == self.book.measured, "another measurement")?;
        for slot in self.day.users() {
            for kind in 1..=KINDS {
                let of = |figures| figure(figures, slot.number, kind as i128);
                ensure(slot.consumption[kind - 1] == of(&self.book.consumption), "consumption")?;
                ensure(slot.losses[kind - 1] == of(&self.book.losses), "losses")?;
                ensure(slot.balance[kind - 1] == of(&self.book.balance), "balance")?;
            }
            let revision = *self.book.revision.get(&slot.number).unwrap_or(&0);
            ensure(slot.revision == revision, "revision")?;
        }
        Ok(())
    }

    /// The stage's accepted lines account for all consumption and losses.
    fn check_lines(&self) -> Result<(), String> {
        for slot in self.day.users() {
            for kind in 1..=KINDS {
                let own =
                    |line: &&LineArguments| line.user == slot.number && line.kind == kind as i128;
                let consumption: i128 =
                    self.lines.iter().filter(own).map(|line| line.consumption).sum();
                let losses: i128 = self
                    .lines
                    .iter()
                    .filter(own)
                    .map(|line| (line.consumption * line.coefficient + 50_000) / 100_000)
                    .sum();
                ensure(slot.consumption[kind - 1] == consumption, "consumption not of the lines")?;
                ensure(slot.losses[kind - 1] == losses, "losses not of the lines")?;
            }
        }
        Ok(())
    }

    /// Allotted, the whole amounts are the settled net together; after a revise, the net within
    /// the tolerance.
    fn check_sums(&self) -> Result<(), String> {
        if !self.day.allotted {
            return Ok(());
        }
        let allotted = self.day.whole_amount();
        ensure(allotted == self.book.settled_net, "the sum is not the settled net")?;
        ensure((0..=MAX_ENERGY).contains(&allotted), "the sum is out of range")?;
        if self.revised && self.day.stage == Stage::Provisional {
            let r = self.day.net().unwrap() - allotted;
            ensure(r.abs() <= TOLERANCE, "past the tolerance after a revise")?;
        }
        Ok(())
    }

    /// Every share that the call gave is less than 1 kWh from its exact proportion. The weights
    /// and shares are read from the point-day's figures before and after the call.
    fn check_shares(&self, call: &Call, answer: &Answer, before: &PointDay) -> Result<(), String> {
        for split in &self.book.splits {
            check_split(split)?;
        }
        match (call, answer) {
            (Call::Allot, _) => self.check_balance(before),
            (Call::StandIn(rows), Answer::RowsLookedAt(looked_at)) => {
                ensure(rows[..looked_at - 1].iter().all(Vec::is_empty), "a nearer row has a pair")?;
                let row = &rows[looked_at - 1];
                let shares = self.day.users().iter().map(|slot| slot.revision);
                let parties =
                    row.iter().zip(shares).map(|(&(user, weight), share)| (user, weight, share));
                check_weights(self.day.net().unwrap(), parties.collect())
            }
            (Call::Revise, Answer::Revised(r)) => {
                let pairs = before.users().iter().zip(self.day.users());
                let parties = pairs.map(|(old, new)| {
                    (old.number, old.whole_amount(), new.revision - old.revision)
                });
                check_weights(*r, parties.collect())
            }
            _ => Ok(()),
        }
    }

    /// The shares of an allot, over users and over each user's kinds.
    fn check_balance(&self, before: &PointDay) -> Result<(), String> {
        let amount = before.net().unwrap() - before.consumption() - before.losses();
        let weight = |user: usize, kind: usize| {
            before.slots[user].consumption[kind] + before.slots[user].losses[kind]
        };
        let from_kind_2 =
            (0..before.count).any(|user| (1..KINDS).any(|kind| weight(user, kind) > 0));
        let kinds = if from_kind_2 { 1..KINDS } else { 0..KINDS };
        let mut of_users = Vec::new();
        for (i, slot) in self.day.users().iter().enumerate() {
            let weights: Vec<i128> = kinds.clone().map(|kind| weight(i, kind)).collect();
            let share = sum(&slot.balance);
            of_users.push((slot.number, sum(&weights), share));
            if sum(&weights) == 0 {
                ensure(slot.balance == [share, 0, 0, 0, 0], "not the whole on kind 1")?;
                continue;
            }
            let of_kinds =
                kinds.clone().map(|kind| (kind as i128, weight(i, kind), slot.balance[kind]));
            check_weights(share, of_kinds.collect())?;
            ensure(!from_kind_2 || slot.balance[0] == 0, "balance on kind 1")?;
        }
        check_weights(amount, of_users)
    }
}

/// The same as the book's split, for weights that may all be zero.
fn check_weights(amount: i128, parties: Vec<(i128, i128, i128)>) -> Result<(), String> {
    let all_zero = parties.iter().all(|party| party.1 == 0);
    let counted = parties
        .into_iter()
        .map(|(key, weight, share)| (key, if all_zero { 1 } else { weight }, share));
    check_split(&Split { amount, parties: counted.collect() })
}

/// |share − A × w / W| < 1, and the shares are A together.
fn check_split(split: &Split) -> Result<(), String> {
    let total: i128 = split.parties.iter().map(|party| party.1).sum();
    for &(_, weight, share) in &split.parties {
        let distance = (share * total - split.amount * weight).abs();
        ensure(distance < total, "a share is 1 kWh or more from its proportion")?;
    }
    let given: i128 = split.parties.iter().map(|party| party.2).sum();
    ensure(given == split.amount, "the shares are not the amount")
}

fn step_of(day: &PointDay) -> Step {
    match (day.stage, day.allotted) {
        (Stage::Provisional, false) => Step::ProvisionalEntering,
        (Stage::Provisional, true) => Step::ProvisionalAllotted,
        (Stage::FinalProvisional, false) => Step::FinalProvisionalEntering,
        (Stage::FinalProvisional, true) => Step::FinalProvisionalAllotted,
        (Stage::FinalDefinitive, false) => Step::FinalDefinitiveEntering,
        (Stage::FinalDefinitive, true) => Step::FinalDefinitiveAllotted,
    }
}

/// What the book has to note of the call's result.
fn entry_of(result: &Result<Answer, Refusal>) -> Entry {
    match result {
        Err(refusal) => Entry::Refused(refusal.number()),
        Ok(Answer::LossesAdded(losses)) => Entry::Added { losses: *losses },
        Ok(Answer::RowsLookedAt(rows)) => Entry::StoodIn { rows: *rows },
        Ok(Answer::Revised(r)) => Entry::Revised { r: *r, assigned: true },
        Ok(Answer::WithinTolerance(r)) => Entry::Revised { r: *r, assigned: false },
        Ok(Answer::Done) => Entry::Accepted,
    }
}
