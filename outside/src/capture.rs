//! The samples and packets of the benchmarks.

use std::ops::Range;

use crate::item::{MODE_16, MODE_24, SETUP_DUAL, SETUP_SINGLE, SIZE_LARGE, SIZE_SMALL};
use crate::packet::{number_at, Form};
use crate::random::Random;

/// Packets cut or unpacked in a run: what a cache near the processor holds.
pub const PACKETS: usize = 16;

/// Packets read in a run. Of these only the first bytes are looked at, and that takes so little time that in fewer the clock
/// would be seen.
pub const PACKETS_READ: usize = 256;

/// A form with its name, mode and size.
pub const FORMS: [(&str, Form, u8, u8); 4] = [
    ("large, 24 bits", Form::LARGE_24, MODE_24, SIZE_LARGE),
    ("small, 24 bits", Form::SMALL_24, MODE_24, SIZE_SMALL),
    ("large, 16 bits", Form::LARGE_16, MODE_16, SIZE_LARGE),
    ("small, 16 bits", Form::SMALL_16, MODE_16, SIZE_SMALL),
];

/// Captures with one channel and with two: what a row's name has more, the box's setup, and the reader's count.
pub const COUNTS: [(&str, u8, u8); 2] = [("", SETUP_SINGLE, 1), (", two channels", SETUP_DUAL, 2)];

/// As many samples as PACKETS packets hold.
pub fn signal(form: Form) -> Vec<i32> {
    let mut random = Random::new(2);
    (0..PACKETS * form.samples()).map(|_| (random.any() as i32) >> 8).collect()
}

/// Packets of one form at the positions given, their samples at random. They are not cut by the box: where cutting is timed,
/// it keeps its one caller.
pub fn packets(form: Form, positions: impl IntoIterator<Item = u64>) -> Vec<u8> {
    let mut random = Random::new(3);
    let mut packets = Vec::new();
    for position in positions {
        packets.extend(form.header());
        packets.extend(number_at(position).to_le_bytes());
        packets.extend(random.bytes(form.total() - 4));
    }
    packets
}

/// The first packets of a capture, none lost.
pub fn first_packets(form: Form, count: usize) -> Vec<u8> {
    packets(form, 0..count as u64)
}

/// Samples a second at the slowest rate, D = 625.
const SLOWEST: u64 = 32_000;

/// What arrives of a long capture.
pub struct Arrivals {
    /// the packets' numbers, by stretches in which none is missing: of a list of them all, 23 MB for a day, the way to memory
    /// was seen in the times
    pub stretches: Vec<Range<usize>>,
    /// the position of the last packet
    pub last: u64,
    /// packets that were lost before it
    pub lost: u64,
}

/// Some hours of packets at the slowest rate. One in a thousand is lost, at random; and once an hour all are for 2 to 60
/// seconds, as where a network drops, which is far less than the full turn that no reader can tell. The first arrives, or there
/// would be no capture, and the last, for what is lost behind it leaves no trace.
pub fn arrivals(form: Form, hours: u64) -> Arrivals {
    let mut random = Random::new(5);
    let hour = SLOWEST * 3600 / form.pairs;
    let last = hours * hour - 1;
    let mut stretches: Vec<Range<usize>> = Vec::new();
    let mut lost = 0;
    for begin in (0..hours).map(|passed| passed * hour) {
        let gap = random.within(2, 60) * SLOWEST / form.pairs;
        let from = begin + random.within(1, hour - gap - 1);
        for position in begin..begin + hour {
            let is_lost = (from..from + gap).contains(&position) || random.once_in(1000);
            if is_lost && position != 0 && position != last {
                lost += 1;
                continue;
            }
            let number = usize::from(number_at(position));
            match stretches.last_mut() {
                Some(stretch) if stretch.end == number => stretch.end += 1,
                _ => stretches.push(number..number + 1),
            }
        }
    }
    Arrivals { stretches, last, lost }
}

/// A packet of every number, for readers, who look at its first four bytes alone: these stand side by side, and those of the
/// next numbers are a packet's samples. Packets that lie apart take 25 to 95 MB, and what is timed is then the way to memory;
/// but a packet that has just arrived is in a cache.
pub fn numbered_packets(form: Form) -> Vec<u8> {
    let samples_as_heads = form.total().div_ceil(4);
    let numbers = (0..=u16::MAX).chain(0..samples_as_heads as u16);
    numbers.flat_map(|number| [form.header(), number.to_le_bytes()]).flatten().collect()
}

/// The one of this number among them.
pub fn numbered(packets: &[u8], number: usize, total: usize) -> &[u8] {
    &packets[4 * number..][..total]
}
