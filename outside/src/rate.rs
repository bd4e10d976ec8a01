//! The rates 20,000,000 / D.

const SOURCE: u32 = 20_000_000;
pub const FIRST: u32 = 10;
pub const LAST: u32 = 625;

/// 20,000,000 / D in whole Hz, halves up, for D from 10 to 625.
pub const ACHIEVED: [u32; 616] = {
    let mut table = [0; 616];
    let mut i = 0;
    while i < table.len() {
        let divisor = FIRST + i as u32;
        table[i] = (2 * SOURCE + divisor) / (2 * divisor);
        i += 1;
    }
    table
};

pub fn divisor_allowed(divisor: u32) -> bool {
    (FIRST..=LAST).contains(&divisor)
}

pub fn rate_allowed(rate: u32) -> bool {
    (32_000..=2_000_000).contains(&rate)
}

/// The achieved rate of an allowed D.
pub fn achieved(divisor: u32) -> u32 {
    ACHIEVED[(divisor - FIRST) as usize]
}

/// The D whose achieved rate this is.
pub fn divisor_of(rate: u32) -> Option<u32> {
    // the table falls from its first entry to its last
    ACHIEVED.binary_search_by(|entry| rate.cmp(entry)).ok().map(|i| FIRST + i as u32)
}

/// The D with the exact rate nearest to an allowed rate.
pub fn nearest(rate: u32) -> u32 {
    let below = SOURCE / rate; // its rate is at or above the one asked for
    let above = below + 1; // and this one's below it
    let (d, e) = (u64::from(below), u64::from(above));
    let (source, asked) = (u64::from(SOURCE), u64::from(rate));
    // (source / d - asked) against (asked - source / e), times d and e
    if (source - asked * d) * e <= (asked * e - source) * d {
        below
    } else {
        above
    }
}

#[cfg(test)]
mod tests {
    use super::*;

    #[test]
    fn rates_of_document_01() {
        assert_eq!(nearest(55_556), 360);
        assert_eq!(achieved(360).to_le_bytes(), [0x04, 0xD9, 0x00, 0x00]);
        assert_eq!(nearest(1_907_000), 11);
        assert_eq!(achieved(11), 1_818_182);
        assert_eq!(nearest(32_000), 625);
        assert!(!rate_allowed(31_999) && !rate_allowed(2_000_001));
    }

    #[test]
    fn nearest_is_nearest_for_every_rate_and_unique() {
        // walk D upward as the rate falls; distances compared as exact fractions
        let closer = |rate: u64, d: u64, e: u64| {
            // |20e6/d - rate| < |20e6/e - rate|
            let source = u64::from(SOURCE);
            source.abs_diff(rate * d) * e < source.abs_diff(rate * e) * d
        };
        for rate in 32_000..=2_000_000u64 {
            let d = u64::from(nearest(rate as u32));
            assert!((10..=625).contains(&d), "{rate}");
            assert!(d == 10 || closer(rate, d, d - 1), "{rate}");
            assert!(d == 625 || closer(rate, d, d + 1), "{rate}");
        }
    }

    #[test]
    fn the_table_falls_and_names_its_divisor() {
        assert!(ACHIEVED.windows(2).all(|pair| pair[0] > pair[1]));
        for divisor in FIRST..=LAST {
            assert_eq!(divisor_of(achieved(divisor)), Some(divisor));
            assert_eq!(nearest(achieved(divisor)), divisor);
        }
        assert_eq!(divisor_of(55_555), None);
        assert_eq!(divisor_of(0), None);
        assert_eq!(divisor_of(u32::MAX), None);
    }
}
