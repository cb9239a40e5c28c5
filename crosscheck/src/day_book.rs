//! Document 01, "Day book".
//!
//! Written apart from point_day.rs and calls.rs: other data, its own tests and its own splits, so
//! that neither can hide a slip of the other.

use std::collections::{BTreeMap, BTreeSet};

use crate::calls::{Call, LineArguments, Row};

/// A split that a call made: the amount, and each party's weight and share, by key.
#[derive(Clone, Debug)]
pub struct Split {
    pub amount: i128,
    pub parties: Vec<(i128, i128, i128)>,
}

/// What one fed call came to.
#[derive(Clone, Debug, PartialEq, Eq)]
pub enum Entry {
    Refused(u8),
    Accepted,
    /// A revise with this R; whether it was assigned.
    Revised {
        r: i128,
        assigned: bool,
    },
    /// A stand-in and the rows looked at.
    StoodIn {
        rows: usize,
    },
    /// A line and the losses added.
    Added {
        losses: i128,
    },
}

/// The six steps of a gas day, in order.
#[derive(Clone, Copy, Debug, PartialEq, Eq, PartialOrd, Ord)]
pub enum Step {
    ProvisionalEntering,
    ProvisionalAllotted,
    FinalProvisionalEntering,
    FinalProvisionalAllotted,
    FinalDefinitiveEntering,
    FinalDefinitiveAllotted,
}

use Step::*;

impl Step {
    pub fn entering(self) -> bool {
        matches!(self, ProvisionalEntering | FinalProvisionalEntering | FinalDefinitiveEntering)
    }

    fn following(self) -> Step {
        match self {
            ProvisionalEntering => ProvisionalAllotted,
            ProvisionalAllotted => FinalProvisionalEntering,
            FinalProvisionalEntering => FinalProvisionalAllotted,
            FinalProvisionalAllotted => FinalDefinitiveEntering,
            FinalDefinitiveEntering | FinalDefinitiveAllotted => FinalDefinitiveAllotted,
        }
    }
}

/// Figures by user and kind; what is not there is 0.
type Figures = BTreeMap<(i128, i128), i128>;

#[derive(Clone, Debug)]
pub struct DayBook {
    pub step: Step,
    /// User numbers in the order of joining.
    pub joined: Vec<i128>,
    /// Emission and downstream emission.
    pub measured: Option<(i128, i128)>,
    pub consumption: Figures,
    pub losses: Figures,
    pub balance: Figures,
    pub revision: BTreeMap<i128, i128>,
    pub settled_net: i128,
    /// The splits of the call fed last.
    pub splits: Vec<Split>,
}

impl DayBook {
    pub fn fresh() -> DayBook {
        DayBook {
            step: ProvisionalEntering,
            joined: Vec::new(),
            measured: None,
            consumption: Figures::new(),
            losses: Figures::new(),
            balance: Figures::new(),
            revision: BTreeMap::new(),
            settled_net: 0,
            splits: Vec::new(),
        }
    }

    /// Feeds a call with its arguments.
    pub fn feed(&mut self, call: &Call) -> Entry {
        self.splits.clear();
        match call {
            Call::Join(user) => self.join(*user),
            Call::Line(arguments) | Call::Edit(arguments) => self.line(arguments),
            Call::Measure(values) => self.measure(values.emission, values.downstream),
            Call::Allot => self.allot(),
            Call::StandIn(rows) => self.stand_in(rows),
            Call::Revise => self.revise(),
            Call::StartFinal => self.start_final(),
        }
    }

    pub fn net(&self) -> i128 {
        let (emission, downstream) = self.measured.expect("a measurement");
        emission - downstream
    }

    /// A user's consumption, losses and balance over all kinds, plus revision.
    pub fn whole(&self, user: i128) -> i128 {
        let of_kinds: i128 = (1..=5)
            .map(|kind| {
                figure(&self.consumption, user, kind)
                    + figure(&self.losses, user, kind)
                    + figure(&self.balance, user, kind)
            })
            .sum();
        of_kinds + self.revision.get(&user).unwrap_or(&0)
    }

    fn some_whole_too_large(&self) -> bool {
        self.joined.iter().any(|&user| self.whole(user).abs() > 2_000_000_000)
    }

    fn join(&mut self, user: i128) -> Entry {
        if !self.step.entering() {
            return Entry::Refused(1);
        }
        if !(1..=65_535).contains(&user) {
            return Entry::Refused(2);
        }
        if self.joined.contains(&user) {
            return Entry::Refused(4);
        }
        if self.joined.len() >= 64 {
            return Entry::Refused(5);
        }
        self.joined.push(user);
        Entry::Accepted
    }

    fn line(&mut self, arguments: &LineArguments) -> Entry {
        let LineArguments { user, kind, consumption, coefficient } = *arguments;
        if !self.step.entering() {
            return Entry::Refused(1);
        }
        let ranges = [
            (user, 1, 65_535),
            (kind, 1, 5),
            (consumption, 0, 1_000_000_000),
            (coefficient, 0, 10_000),
        ];
        if ranges.iter().any(|&(value, low, high)| value < low || value > high) {
            return Entry::Refused(2);
        }
        if !self.joined.contains(&user) {
            return Entry::Refused(3);
        }
        // Halves up: 50,000 of the 100,000 parts and more make one more.
        let parts = consumption * coefficient;
        let losses = parts / 100_000 + if parts % 100_000 >= 50_000 { 1 } else { 0 };
        let so_far: i128 = self.consumption.values().chain(self.losses.values()).sum();
        if so_far + consumption + losses > 1_000_000_000 {
            return Entry::Refused(6);
        }
        *self.consumption.entry((user, kind)).or_insert(0) += consumption;
        *self.losses.entry((user, kind)).or_insert(0) += losses;
        Entry::Added { losses }
    }

    fn measure(&mut self, emission: i128, downstream: i128) -> Entry {
        if self.step > ProvisionalAllotted && !self.step.entering() {
            return Entry::Refused(1);
        }
        if emission > 1_000_000_000 || downstream > emission || downstream < 0 {
            return Entry::Refused(2);
        }
        self.measured = Some((emission, downstream));
        Entry::Accepted
    }

    fn allot(&mut self) -> Entry {
        if !self.step.entering() {
            return Entry::Refused(1);
        }
        if self.measured.is_none() {
            return Entry::Refused(7);
        }
        if self.joined.is_empty() {
            return Entry::Refused(8);
        }
        let before = self.clone();
        let entered: i128 = self.consumption.values().chain(self.losses.values()).sum();
        let balance = self.net() - entered;
        let lowest = if self.nothing_from_kind(2) { 1 } else { 2 };
        let by_user: Vec<(i128, i128)> = self
            .joined
            .iter()
            .map(|&user| (user, (lowest..=5).map(|kind| self.entered(user, kind)).sum()))
            .collect();
        for (user, share) in self.split(balance, &by_user) {
            self.allot_user(user, share, lowest);
        }
        if self.some_whole_too_large() {
            *self = before;
            return Entry::Refused(12);
        }
        self.step = self.step.following();
        self.settled_net = self.net();
        Entry::Accepted
    }

    /// A user's share over the user's kinds, from the lowest that counts.
    fn allot_user(&mut self, user: i128, share: i128, lowest: i128) {
        let by_kind: Vec<(i128, i128)> =
            (lowest..=5).map(|kind| (kind, self.entered(user, kind))).collect();
        if by_kind.iter().all(|&(_, weight)| weight == 0) {
            self.balance.insert((user, 1), share);
            return;
        }
        for (kind, part) in self.split(share, &by_kind) {
            self.balance.insert((user, kind), part);
        }
    }

    /// Consumption plus losses of a user and kind.
    fn entered(&self, user: i128, kind: i128) -> i128 {
        figure(&self.consumption, user, kind) + figure(&self.losses, user, kind)
    }

    fn nothing_from_kind(&self, lowest: i128) -> bool {
        self.joined.iter().all(|&user| (lowest..=5).all(|kind| self.entered(user, kind) == 0))
    }

    fn stand_in(&mut self, rows: &[Row]) -> Entry {
        if self.step != ProvisionalEntering || !self.joined.is_empty() {
            return Entry::Refused(1);
        }
        for row in rows {
            let users: BTreeSet<i128> = row.iter().map(|pair| pair.0).collect();
            let in_order: Vec<i128> = row.iter().map(|pair| pair.0).collect();
            let rising = users.into_iter().collect::<Vec<i128>>() == in_order;
            let in_range = row.iter().all(|&(user, amount)| {
                (1..=65_535).contains(&user) && (-2_000_000_000..=2_000_000_000).contains(&amount)
            });
            if row.len() > 64 || !rising || !in_range {
                return Entry::Refused(2);
            }
        }
        if self.measured.is_none() {
            return Entry::Refused(7);
        }
        if self.net() <= 100 {
            return Entry::Refused(9);
        }
        let mut looked_at = 0;
        let mut nearest = None;
        while nearest.is_none() && looked_at < rows.len() {
            if !rows[looked_at].is_empty() {
                nearest = Some(rows[looked_at].clone());
            }
            looked_at += 1;
        }
        let Some(row) = nearest else {
            return Entry::Refused(10);
        };
        if row.iter().any(|pair| pair.1 < 0) {
            return Entry::Refused(11);
        }
        let before = self.clone();
        self.joined = row.iter().map(|pair| pair.0).collect();
        for (user, share) in self.split(self.net(), &row) {
            self.revision.insert(user, share);
        }
        if self.some_whole_too_large() {
            *self = before;
            return Entry::Refused(12);
        }
        self.step = ProvisionalAllotted;
        self.settled_net = self.net();
        Entry::StoodIn { rows: looked_at }
    }

    fn revise(&mut self) -> Entry {
        if self.step != ProvisionalAllotted {
            return Entry::Refused(1);
        }
        // "R in it is net − settled net."
        let r = self.net() - self.settled_net;
        if (-100..=100).contains(&r) {
            return Entry::Revised { r, assigned: false };
        }
        let wholes: Vec<(i128, i128)> =
            self.joined.iter().map(|&user| (user, self.whole(user))).collect();
        if wholes.iter().any(|pair| pair.1 < 0) {
            return Entry::Refused(11);
        }
        let before = self.clone();
        for (user, share) in self.split(r, &wholes) {
            *self.revision.entry(user).or_insert(0) += share;
        }
        if self.some_whole_too_large() {
            *self = before;
            return Entry::Refused(12);
        }
        self.settled_net = self.net();
        Entry::Revised { r, assigned: true }
    }

    fn start_final(&mut self) -> Entry {
        if self.step.entering() || self.step == FinalDefinitiveAllotted {
            return Entry::Refused(1);
        }
        self.step = self.step.following();
        self.consumption.clear();
        self.losses.clear();
        self.balance.clear();
        self.revision.clear();
        Entry::Accepted
    }

    /// Splits an amount over (key, weight) pairs, one unit at a time to the party that is owed
    /// most, and notes the split. Gives (key, share) pairs.
    fn split(&mut self, amount: i128, parties: &[(i128, i128)]) -> Vec<(i128, i128)> {
        let all_zero = parties.iter().all(|pair| pair.1 == 0);
        let weights: Vec<i128> =
            parties.iter().map(|pair| if all_zero { 1 } else { pair.1 }).collect();
        let total: i128 = weights.iter().sum();
        let size = if amount < 0 { -amount } else { amount };
        let mut shares: Vec<i128> = weights.iter().map(|weight| (size * weight) / total).collect();
        let mut given: i128 = shares.iter().sum();
        while given < size {
            // What a party is owed still, times W; a party that got a unit is owed less than 0.
            let owed = |i: usize| size * weights[i] - shares[i] * total;
            let mut best = 0;
            for i in 1..parties.len() {
                let ahead = owed(i) > owed(best)
                    || (owed(i) == owed(best) && parties[i].0 < parties[best].0);
                if ahead {
                    best = i;
                }
            }
            shares[best] += 1;
            given += 1;
        }
        if amount < 0 {
            shares.iter_mut().for_each(|share| *share = -*share);
        }
        let noted = (0..parties.len()).map(|i| (parties[i].0, weights[i], shares[i]));
        self.splits.push(Split { amount, parties: noted.collect() });
        (0..parties.len()).map(|i| (parties[i].0, shares[i])).collect()
    }
}

pub fn figure(figures: &Figures, user: i128, kind: i128) -> i128 {
    *figures.get(&(user, kind)).unwrap_or(&0)
}
