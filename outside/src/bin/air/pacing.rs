//! When packets are due. Times are microseconds since the capture began.

use outside::boundary::Library;
use outside::onair::library::DONE;

/// The times at which a capture's packets are due: each when its last sample is there, for no box can send a packet
/// before. Each is counted from the capture's start, or from where the clock was last set, so that no error adds up.
pub struct Schedule {
    library: &'static (dyn Library + Sync),
    pairs: u64,
    divisor: u32,
    clock: u32,
    /// the packet from which the clock holds, and when its first sample is
    from: u64,
    since: u64,
    /// samples a second
    rate: f64,
}

impl Schedule {
    pub fn new(library: &'static (dyn Library + Sync), pairs: u64, divisor: u32, clock: u32) -> Self {
        let rate = rate(library, divisor, clock);
        Schedule { library, pairs, divisor, clock, from: 0, since: 0, rate }
    }

    pub fn rate(&self) -> f64 {
        self.rate
    }

    /// When a packet is due, or the library's code where it has no answer.
    pub fn due(&self, packet: u64) -> Result<u64, u8> {
        self.begins(packet + 1)
    }

    /// When the first sample of a packet is, which is when the one before it is due.
    fn begins(&self, packet: u64) -> Result<u64, u8> {
        let samples = packet.saturating_sub(self.from).saturating_mul(self.pairs);
        match self.library.end_time(samples, self.divisor, self.clock) {
            (DONE, microseconds) => Ok(self.since + microseconds),
            (code, _) => Err(code),
        }
    }

    /// From this packet on the samples take as long as this clock has it.
    pub fn set_clock(&mut self, packet: u64, clock: u32) -> Result<(), u8> {
        if clock != self.clock {
            self.since = self.begins(packet)?;
            self.from = packet;
            self.clock = clock;
            self.rate = rate(self.library, self.divisor, clock);
        }
        Ok(())
    }
}

/// How many packets go together. What a stall has held up does not come in one burst, which no receiver could take: it is
/// caught up with at about twice the pace, in bursts that are hardly longer than usual; where a packet takes more than a
/// millisecond, one by one, two in a millisecond.
pub struct Bursts {
    /// packets of a millisecond
    usual: u64,
    /// at most so many now
    most: u64,
    /// how long a packet's samples take
    each: f64,
    last: u64,
}

/// Those that are due in a millisecond go together: to wake for each of 31,250 packets a second would cost more than to cut
/// and send them. Where some are left over, the next ones go sooner.
const TOGETHER: u64 = 1_000;
const SOONER: u64 = 500;

/// Where the machine gives this program its turn so rarely that it stays behind, bursts grow, up to so long a time's packets.
const LONGEST: f64 = 20_000.0;

impl Bursts {
    pub fn new(pairs: u64, rate: f64) -> Self {
        let each = pairs as f64 * 1e6 / rate;
        let usual = ((TOGETHER as f64 / each) as u64).max(1);
        Bursts { usual, most: usual + usual / 2, each, last: 0 }
    }

    /// How many may go now.
    pub fn allowed(&mut self, now: u64) -> u64 {
        let passed = now.saturating_sub(self.last) as f64;
        self.last = now;
        self.most.min((2.0 * passed / self.each) as u64).max(self.usual)
    }

    /// They went, and the next one is due then: when to send again.
    pub fn next(&mut self, now: u64, due: u64) -> u64 {
        if due > now {
            self.most = (self.most - self.most / 8).max(self.usual + self.usual / 2);
            return due.max(now + TOGETHER);
        }
        let longest = (LONGEST / self.each) as u64;
        self.most = (self.most + self.most / 8 + 1).min(longest.max(self.usual));
        now + SOONER
    }
}

/// How many samples a second a D and a clock make. The library knows how long samples take; of so many the microsecond
/// that it rounds away is nothing.
fn rate(library: &dyn Library, divisor: u32, clock: u32) -> f64 {
    const MANY: u64 = 100_000_000_000;
    match library.end_time(MANY, divisor, clock) {
        (DONE, microseconds) if microseconds > 0 => MANY as f64 / (microseconds as f64 * 1e-6),
        _ => 0.0,
    }
}

#[cfg(test)]
mod tests {
    use super::*;
    use outside::onair::library::library;

    const HOURS_10: u64 = 10 * 3600 * 1_000_000;

    /// A time in microseconds by its own sum, not rounded: samples x 4 D / clock seconds.
    fn exact(samples: u64, divisor: u32, clock: u32) -> f64 {
        samples as f64 * 4e6 * f64::from(divisor) / f64::from(clock)
    }

    #[test]
    fn ten_hours_without_drift() {
        for (pairs, divisor, clock) in [(64, 10, 80_000_000), (240, 625, 79_992_000), (128, 11, 80_007_999)] {
            let schedule = Schedule::new(library(), pairs, divisor, clock);
            let packets = (HOURS_10 as f64 / exact(pairs, divisor, clock)) as u64;
            let mut before = 0;
            for packet in (0..packets).step_by(9_973).chain(packets - 100..packets) {
                let due = schedule.due(packet).unwrap();
                let error = exact((packet + 1) * pairs, divisor, clock) - due as f64;
                assert!((-0.01..1.01).contains(&error), "packet {packet} is {error} microseconds off");
                assert!(due > before);
                before = due;
            }
            assert!(before > HOURS_10 - 20_000);
        }
    }

    #[test]
    fn a_packet_is_due_when_its_samples_are_there() {
        let schedule = Schedule::new(library(), 64, 10, 80_000_000);
        assert_eq!((schedule.due(0), schedule.due(1), schedule.due(31_249)), (Ok(32), Ok(64), Ok(1_000_000)));
    }

    #[test]
    fn a_new_clock_holds_from_its_packet_on() {
        let mut schedule = Schedule::new(library(), 64, 10, 80_000_000);
        schedule.set_clock(31_250, 79_992_000).unwrap();
        assert_eq!(schedule.due(31_249), Ok(1_000_000));
        assert_eq!(schedule.due(62_499), Ok(2_000_100));
        assert!((schedule.rate() - 1_999_800.0).abs() < 1e-3);
        schedule.set_clock(62_500, 79_992_000).unwrap();
        assert_eq!(schedule.due(93_749), Ok(3_000_200));
    }

    #[test]
    fn what_the_library_refuses_is_told() {
        assert_ne!(Schedule::new(library(), 64, 9, 80_000_000).due(0), Ok(0));
        assert!(Schedule::new(library(), 64, 10, 80_000_000).due(u64::MAX - 1).is_err());
    }

    /// Sends for so long a time on a machine that gives a turn `late` microseconds after it was asked for; the most packets
    /// that went in any 10 ms from a time on, and how far behind the last of them was.
    fn paced(schedule: &Schedule, from: u64, until: u64, stall: u64, late: u64) -> (u64, u64) {
        let mut bursts = Bursts::new(schedule.pairs, schedule.rate());
        let (mut now, mut packet) = (0, 0);
        let (mut window, mut went, mut most) = (0, 0, 0);
        while now < until {
            let mut left = bursts.allowed(now);
            let mut due = schedule.due(packet).unwrap();
            while due <= now && left > 0 {
                (packet, left, went) = (packet + 1, left - 1, went + 1);
                due = schedule.due(packet).unwrap();
            }
            if now / 10_000 != window {
                (window, went, most) = (now / 10_000, 0, if now > from { most.max(went) } else { 0 });
            }
            now = bursts.next(now, due) + late;
            if now > from && now < from + stall {
                now = from + stall;
            }
        }
        (most, now.saturating_sub(schedule.due(packet).unwrap()))
    }

    #[test]
    fn a_stall_is_caught_up_with_and_not_in_one_burst() {
        let fast = Schedule::new(library(), 64, 10, 80_000_000);
        let (most, _) = paced(&fast, 1_000_000, 2_000_000, 0, 60);
        assert!((300..350).contains(&most), "{most} in 10 ms without a stall, and 312.5 are due");
        let (most, behind) = paced(&fast, 1_000_000, 2_500_000, 500_000, 60);
        assert!(most < 650, "{most} in 10 ms");
        assert!(behind < 2_000, "{behind}");
        let slow = Schedule::new(library(), 240, 625, 80_000_000);
        let (most, behind) = paced(&slow, 1_000_000, 3_000_000, 500_000, 60);
        assert!(most <= 20 && behind < 10_000, "{most}, {behind}");
    }

    #[test]
    fn a_busy_machine_does_not_fall_behind_for_good() {
        for late in [1_000, 4_000, 9_000] {
            let fast = Schedule::new(library(), 64, 10, 80_000_000);
            let (_, behind) = paced(&fast, 1_000_000, 5_000_000, 0, late);
            assert!(behind < 40_000, "{behind} where each turn is {late} late");
        }
    }

    #[test]
    fn rates() {
        assert_eq!(rate(library(), 10, 80_000_000), 2_000_000.0);
        assert!((rate(library(), 625, 79_992_000) - 31_996.8).abs() < 1e-6);
        assert_eq!(rate(library(), 9, 80_000_000), 0.0);
    }
}
