//! Damages records, so that every refusal is met.

use crate::random::Random;

/// Damages a record somewhere, once or twice.
pub fn damage(random: &mut Random, record: &mut Vec<u8>) {
    for _ in 0..random.within(1, 2) {
        let length = record.len() as u64;
        // Faults near the start reach the maps and the counts.
        let end = if random.once_in(2) { length.min(24) } else { length };
        let at = random.below(end) as usize;
        match random.below(9) {
            0 => record.truncate(at),
            1 => record.truncate(length.saturating_sub(random.within(1, 9)) as usize),
            2 => (0..random.within(1, 9)).for_each(|_| record.push(random.byte())),
            3 if length > 0 => record[at] = 0,
            4 if length > 0 => record[at] = 255,
            5 if length > 0 => record[at] ^= 1 << random.below(8),
            6 if length > 1 => record[random.below(2) as usize] ^= 1 << random.below(8),
            7 if at + 4 <= record.len() => {
                let amount = random.within(999_999_998, 1_000_000_002) as u32;
                record[at..at + 4].copy_from_slice(&amount.to_le_bytes());
            }
            8 if length > 0 => record[at] = random.byte(),
            _ => {}
        }
    }
}
