//! The same report in plain Rust: the file is tested, then read once; each call's conditions are tested where they can fail. A user's
//! balance over all kinds is its share, so that no share is split over the kinds.

use std::cmp::Reverse;

const MOST_BYTES: usize = 65_536;
const HEADER: usize = 18;
const LAST_DAY: u32 = 30_680;
const LIMIT: u64 = 1_000_000_000;
const USERS: usize = 64;
const KINDS: usize = 5;
const TEXT_ROOM: usize = 8_192;

struct Day {
    net: i64,
    count: usize,
    users: [u16; USERS],
    consumption: [[i64; KINDS]; USERS],
    losses: [[i64; KINDS]; USERS],
    shares: [i64; USERS],
    offtake: u64,
}

/// Writes the report into the buffer and answers how many bytes it has, or gives the number of a refusal and writes nothing: the file's
/// own, then 14 if there is too little room.
pub fn day_report(file: &[u8], out: &mut [u8]) -> Result<usize, u8> {
    if !is_well_formed(file) {
        return Err(13);
    }
    let gas_day = u32_at(file, 4);
    if gas_day > LAST_DAY {
        return Err(2);
    }
    let (emission, downstream) = (u32_at(file, 8), u32_at(file, 12));
    if emission as u64 > LIMIT || downstream > emission {
        return Err(2);
    }
    let mut day = Day {
        net: (emission - downstream) as i64,
        count: 0,
        users: [0; USERS],
        consumption: [[0; KINDS]; USERS],
        losses: [[0; KINDS]; USERS],
        shares: [0; USERS],
        offtake: 0,
    };
    for (start, end) in pairs(file) {
        day.enter(&file[start..end])?;
    }
    day.allot()?;
    if out.len() < TEXT_ROOM {
        return Err(14);
    }
    let mut text = Text { out, len: 0 };
    day.print(gas_day, &mut text);
    Ok(text.len)
}

fn is_well_formed(file: &[u8]) -> bool {
    if file.len() > MOST_BYTES || file.len() < HEADER || &file[..4] != b"REP1" {
        return false;
    }
    let mut free_from = HEADER + 8 * u16_at(file, 16) as usize;
    if file.len() < free_from {
        return false;
    }
    for (start, end) in pairs(file) {
        if start < free_from || end > file.len() || end < start + 2 || (end - start - 2) % 7 != 0 {
            return false;
        }
        free_from = end;
    }
    true
}

/// Start and end of each section of a file that has room for its pairs.
fn pairs(file: &[u8]) -> impl Iterator<Item = (usize, usize)> + '_ {
    let count = u16_at(file, 16) as usize;
    file[HEADER..HEADER + 8 * count]
        .chunks_exact(8)
        .map(|pair| {
            let start = u32_at(pair, 0) as usize;
            (start, start + u32_at(pair, 4) as usize)
        })
}

fn u16_at(bytes: &[u8], at: usize) -> u16 {
    u16::from_le_bytes(bytes[at..at + 2].try_into().unwrap())
}

fn u32_at(bytes: &[u8], at: usize) -> u32 {
    u32::from_le_bytes(bytes[at..at + 4].try_into().unwrap())
}

impl Day {
    /// A user joins, and its lines are added.
    fn enter(&mut self, section: &[u8]) -> Result<(), u8> {
        let (user, lines) = section.split_at(2);
        let user = u16_at(user, 0);
        let slot = self.count;
        if user == 0 {
            return Err(2);
        }
        if self.users[..slot].contains(&user) {
            return Err(4);
        }
        if slot == USERS {
            return Err(5);
        }
        self.users[slot] = user;
        self.count += 1;
        let (consumption, losses) = (&mut self.consumption[slot], &mut self.losses[slot]);
        for line in lines.chunks_exact(7) {
            let kind = line[0] as usize;
            let amount = u32_at(line, 1) as u64;
            let coefficient = u16_at(line, 5) as u64;
            if !(1..=KINDS).contains(&kind) || amount > LIMIT || coefficient > 10_000 {
                return Err(2);
            }
            let added = (amount * coefficient + 50_000) / 100_000;
            self.offtake += amount + added;
            if self.offtake > LIMIT {
                return Err(6);
            }
            consumption[kind - 1] += amount as i64;
            losses[kind - 1] += added as i64;
        }
        Ok(())
    }

    fn allot(&mut self) -> Result<(), u8> {
        if self.count == 0 {
            return Err(8);
        }
        let mut weights = [0; USERS];
        let weights = &mut weights[..self.count];
        for from in [1, 0] {
            for (slot, weight) in weights.iter_mut().enumerate() {
                let consumption: i64 = self.consumption[slot][from..].iter().sum();
                *weight = consumption + self.losses[slot][from..].iter().sum::<i64>();
            }
            if weights.iter().any(|&weight| weight != 0) {
                break;
            }
        }
        split::<USERS>(
            self.net - self.offtake as i64,
            weights,
            &self.users[..self.count],
            &mut self.shares[..self.count],
        );
        Ok(())
    }

    fn print(&self, gas_day: u32, text: &mut Text) {
        let users = &self.consumption[..self.count];
        let (consumption, offtake) = (users.iter().flatten().sum(), self.offtake as i64);
        text.line(
            b"point",
            &[
                gas_day as i64,
                self.net,
                consumption,
                offtake - consumption,
                self.net - offtake,
            ],
        );
        for slot in 0..self.count {
            let consumption: i64 = self.consumption[slot].iter().sum();
            let losses: i64 = self.losses[slot].iter().sum();
            let share = self.shares[slot];
            let whole = consumption + losses + share;
            text.line(
                b"user",
                &[self.users[slot] as i64, consumption, losses, share, whole],
            );
        }
    }
}

/// Floors, then a sort by remainder and key; N is the most parties.
fn split<const N: usize>(amount: i64, weights: &[i64], keys: &[u16], shares: &mut [i64]) {
    let size = amount.unsigned_abs();
    let total: u64 = weights.iter().map(|&weight| weight as u64).sum();
    let whole = if total == 0 {
        weights.len() as u64
    } else {
        total
    };
    let mut left = size;
    let mut order = [(Reverse(0), 0, 0); N];
    for (i, &weight) in weights.iter().enumerate() {
        let product = size * if total == 0 { 1 } else { weight as u64 };
        let floor = product / whole;
        shares[i] = floor as i64;
        left -= floor;
        order[i] = (Reverse(product % whole), keys[i], i);
    }
    if left > 0 {
        order[..weights.len()].sort_unstable();
        for &(_, _, i) in &order[..left as usize] {
            shares[i] += 1;
        }
    }
    if amount < 0 {
        for share in shares {
            *share = -*share;
        }
    }
}

struct Text<'a> {
    out: &'a mut [u8],
    len: usize,
}

impl Text<'_> {
    fn line(&mut self, word: &[u8], numbers: &[i64]) {
        self.put(word);
        for &number in numbers {
            self.put(if number < 0 { b" -" } else { b" " });
            self.digits(number.unsigned_abs());
        }
        self.put(b"\n");
    }

    fn put(&mut self, bytes: &[u8]) {
        self.out[self.len..self.len + bytes.len()].copy_from_slice(bytes);
        self.len += bytes.len();
    }

    fn digits(&mut self, mut number: u64) {
        let mut digits = [0; 20];
        let mut at = digits.len();
        loop {
            at -= 1;
            digits[at] = b'0' + (number % 10) as u8;
            number /= 10;
            if number == 0 {
                break;
            }
        }
        self.put(&digits[at..]);
    }
}
