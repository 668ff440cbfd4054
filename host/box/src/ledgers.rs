//! The year's ledger of a bay number (02, item 12), in exact integers.
use common::reference::{litres, MOST_LITRES};
use tick::rewriting::Litres;

/// Signal number is farm number.
pub const FARMS: usize = 32;

/// The year total of each farm.
pub type Totals = [u64; FARMS];

/// The totals of all farms, then the ledger's total, a single-precision number each.
pub const READING_LENGTH: usize = 4 * FARMS + 4;

/// How far the ledger's total may lie from the exact sum.
const WITHIN: u64 = 496;

/// What an instant makes of the totals, or number 19.
pub fn added(totals: &Totals, delivered: &Litres) -> Result<Totals, u8> {
    let mut after = *totals;
    delivered.iter().for_each(|(&farm, litres)| after[farm as usize] += litres);
    match after.iter().all(|&total| total <= MOST_LITRES) {
        true => Ok(after),
        false => Err(19),
    }
}

/// The total that four bytes are: none if they are no whole number up to the limit.
pub fn total(bytes: &[u8]) -> u64 {
    litres(u32::from_le_bytes(bytes.try_into().expect("four bytes"))).map_or(0, u64::from)
}

/// The single-precision number of an integer below 2^32 that has 24 binary digits and then zeros.
pub fn bytes(number: u64) -> [u8; 4] {
    let digits = 64 - number.leading_zeros();
    let bits = match digits {
        0 => 0,
        1..=24 => (digits + 126) << 23 | (number << (24 - digits)) as u32 & 0x7F_FFFF,
        _ => (digits + 126) << 23 | (number >> (digits - 24)) as u32 & 0x7F_FFFF,
    };
    bits.to_le_bytes()
}

/// The sum of two in single precision: the nearest number of 24 binary digits, of two as near the even one.
fn rounded_sum(a: u64, b: u64) -> u64 {
    let (sum, digits) = (a + b, 64 - (a + b).leading_zeros());
    let step = 1u64 << digits.saturating_sub(24);
    let (low, rest) = (sum / step, sum % step);
    let up = 2 * rest > step || 2 * rest == step && low % 2 == 1;
    (low + up as u64) * step
}

/// What is read of a ledger.
pub fn reading(totals: &Totals) -> Vec<u8> {
    let sum = totals.iter().fold(0, |sum, &total| rounded_sum(sum, total));
    totals.iter().chain([&sum]).flat_map(|&number| bytes(number)).collect()
}

/// Whether what the archive shows lies close enough to the exact sum.
pub fn close(shown: &[u8], totals: &Totals) -> bool {
    let bits = u32::from_le_bytes(shown[4 * FARMS..].try_into().expect("four bytes"));
    let shown = f64::from(f32::from_bits(bits));
    (shown - totals.iter().sum::<u64>() as f64).abs() <= WITHIN as f64
}

/// What the lists of calls met.
#[derive(Default, Debug)]
pub struct Met {
    /// Instants that delivered, and such of two farms and more.
    delivered: u64,
    farms: u64,
    /// Totals that were exactly the limit after an instant.
    full: u64,
    /// Ticks that gave 19, such whose litres alone pass the limit, and such by which another farm would have had room.
    refused: u64,
    alone: u64,
    beside: u64,
    /// Instants that delivered right after a 19 of their bay number, and right after a new year.
    after_refusal: u64,
    after_new_year: u64,
    /// Readings whose total was not the exact sum.
    rounded: u64,
}

impl Met {
    /// An accepted tick of a bay: the totals before and after, and what its bay number gave last.
    pub fn instant(&mut self, before: &Totals, after: &Totals, last: Last) {
        let changed = before.iter().zip(after).filter(|(before, after)| before != after).count();
        self.delivered += (changed > 0) as u64;
        self.farms += (changed > 1) as u64;
        self.full += before.iter().zip(after).any(|(before, after)| before < after && *after == MOST_LITRES) as u64;
        self.after_refusal += (changed > 0 && last == Last::Refusal) as u64;
        self.after_new_year += (changed > 0 && last == Last::NewYear) as u64;
    }

    /// A tick that gave 19: the totals and the litres.
    pub fn refusal(&mut self, totals: &Totals, delivered: &Litres) {
        let fits = |(farm, litres): (&u8, &u64)| totals[*farm as usize] + litres <= MOST_LITRES;
        self.refused += 1;
        self.alone += delivered.values().any(|litres| *litres > MOST_LITRES) as u64;
        self.beside += delivered.iter().any(fits) as u64;
    }

    pub fn reading(&mut self, shown: &[u8], totals: &Totals) {
        let exact = bytes(totals.iter().sum());
        self.rounded += (shown[4 * FARMS..] != exact) as u64;
    }

    /// Whether each kind was met.
    pub fn all(&self) -> bool {
        let counts = [
            self.delivered,
            self.farms,
            self.full,
            self.refused,
            self.alone,
            self.beside,
            self.after_refusal,
            self.after_new_year,
            self.rounded,
        ];
        counts.iter().all(|&count| count > 20)
    }
}

/// What the ledger of a bay number last had to do with.
#[derive(Clone, Copy, Default, PartialEq)]
pub enum Last {
    #[default]
    Other,
    Refusal,
    NewYear,
}
