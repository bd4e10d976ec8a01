//! Bands and tuning word.

#[derive(Clone, Copy, Debug, PartialEq, Eq)]
pub struct Band {
    pub minimum: u64,
    pub maximum: u64,
    pub oscillator: u64,
}

pub const BANDS: [Band; 2] = [
    Band { minimum: 100_000, maximum: 34_000_000, oscillator: 0 },
    Band { minimum: 140_000_000, maximum: 150_000_000, oscillator: 160_000_000 },
];

pub fn frequency_allowed(frequency: u64) -> bool {
    BANDS.iter().any(|band| (band.minimum..=band.maximum).contains(&frequency))
}

/// The offset n of a frequency of the bands: how far it lies from its band's oscillator.
fn offset_of(frequency: u64) -> u64 {
    let [first, second] = BANDS;
    if frequency <= first.maximum {
        frequency - first.oscillator
    } else {
        second.oscillator - frequency
    }
}

/// n x 2^32 / clock to the nearest whole number, halves up. For a frequency of the bands and a clock of its range.
pub fn word(frequency: u64, clock: u32) -> u32 {
    let offset = offset_of(frequency);
    let clock = u64::from(clock);
    (((offset << 33) + clock) / (2 * clock)) as u32
}

/// Whether a frequency lies in a band and a word is its word at a clock of its range. Every feed and every cut asks this, so
/// nothing is divided: the dividend of the word lies fewer than one divisor above word times divisor.
pub fn agree(frequency: u64, clock: u32, word: u32) -> bool {
    let (clock, word) = (u64::from(clock), u64::from(word));
    frequency_allowed(frequency) && ((offset_of(frequency) << 33) + clock).wrapping_sub(2 * clock * word) < 2 * clock
}

/// The five bytes of a frequency on the wire.
pub fn frequency_bytes(frequency: u64) -> [u8; 5] {
    let [a, b, c, d, e, ..] = frequency.to_le_bytes();
    [a, b, c, d, e]
}

pub fn frequency_from(bytes: [u8; 5]) -> u64 {
    let [a, b, c, d, e] = bytes;
    u64::from_le_bytes([a, b, c, d, e, 0, 0, 0])
}

#[cfg(test)]
mod tests {
    use super::*;
    use crate::random::Random;

    #[test]
    fn words_of_document_01() {
        assert_eq!(word(14_010_000, 80_000_000), 752_156_148);
        assert_eq!(word(145_000_000, 80_000_000), 805_306_368);
    }

    #[test]
    fn words_at_other_clocks() {
        for (frequency, clock, found) in [
            (10_000_000, 80_000_000, 536_870_912),
            (14_010_000, 80_000_123, 752_154_991),
            (145_000_000, 80_000_123, 805_305_130),
            (100_000, 79_992_000, 5_369_246),
            (34_000_000, 79_992_000, 1_825_543_655),
            (150_000_000, 80_008_000, 536_817_230),
            (140_000_000, 79_992_000, 1_073_849_209),
        ] {
            assert_eq!(word(frequency, clock), found, "{frequency} at {clock}");
            assert!(agree(frequency, clock, found), "{frequency} at {clock}");
        }
    }

    /// What the product says of a word is what the quotient says: of the true one, of those beside it and of any other.
    fn same_by_quotient(frequency: u64, clock: u32, others: &[u32]) {
        let right = word(frequency, clock);
        let near = [right, right - 1, right + 1, right - 2, right + 2];
        let turned = (0..32).map(|bit| right ^ 1 << bit);
        for asked in near.into_iter().chain(turned).chain(others.iter().copied()) {
            assert_eq!(agree(frequency, clock, asked), asked == right, "{asked} of {frequency} at {clock}");
        }
    }

    #[test]
    fn the_product_tells_what_the_quotient_would() {
        for frequency in [100_000, 100_001, 33_999_999, 34_000_000, 140_000_000, 140_000_001, 150_000_000] {
            for clock in (79_992_000..=80_008_000).step_by(100).chain([79_992_001, 80_000_001, 80_007_999]) {
                same_by_quotient(frequency, clock, &[0, 1, 1 << 31, u32::MAX]);
            }
        }
        let mut random = Random::new(10);
        for _ in 0..100_000 {
            let bands = [random.within(100_000, 34_000_000), random.within(140_000_000, 150_000_000)];
            let frequency = random.of(&bands);
            let clock = random.within(79_992_000, 80_008_000) as u32;
            same_by_quotient(frequency, clock, &[random.any() as u32, random.any() as u32]);
        }
    }

    #[test]
    fn no_word_agrees_outside_the_bands() {
        for frequency in [0, 99_999, 34_000_001, 80_000_000, 139_999_999, 150_000_001, 160_000_000, u64::MAX] {
            for clock in [79_992_000, 80_000_000, 80_008_000] {
                for offset in [frequency, frequency.abs_diff(160_000_000)] {
                    let right = ((offset << 33) + u64::from(clock)) / (2 * u64::from(clock));
                    assert!(!agree(frequency, clock, right as u32), "{right} of {frequency} at {clock}");
                }
            }
        }
    }

    #[test]
    fn words_are_nearest_with_halves_up() {
        for &frequency in &[100_000, 100_001, 33_999_999, 34_000_000, 140_000_000, 149_999_999] {
            for clock in 79_992_000..79_992_400 {
                let n = if frequency > 34_000_000 { 160_000_000 - frequency } else { frequency };
                let (n, clock_wide) = (u128::from(n) << 32, u128::from(clock));
                let w = u128::from(word(frequency, clock));
                // w - 1/2 <= n / clock < w + 1/2
                assert!((2 * w - 1) * clock_wide <= 2 * n && 2 * n < (2 * w + 1) * clock_wide);
            }
        }
    }

    #[test]
    fn edges_of_the_bands() {
        for (frequency, allowed) in [
            (99_999, false),
            (100_000, true),
            (34_000_000, true),
            (34_000_001, false),
            (139_999_999, false),
            (140_000_000, true),
            (150_000_000, true),
            (150_000_001, false),
            (4_308_977_296, false),
        ] {
            assert_eq!(frequency_allowed(frequency), allowed, "{frequency}");
        }
    }
}
