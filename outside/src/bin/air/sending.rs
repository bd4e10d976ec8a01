//! What becomes of the packets that are cut: sent, or lost, repeated and late on purpose; and what is counted of them.

use outside::random::Random;

/// Trouble on purpose: one packet in so many, by a random series that is the same for each capture.
#[derive(Clone, Copy, Debug, PartialEq, Eq)]
pub struct Troubles {
    pub lose: Option<u64>,
    pub repeat: Option<u64>,
    pub late: Option<u64>,
    pub seed: u64,
}

impl Default for Troubles {
    fn default() -> Self {
        Troubles { lose: None, repeat: None, late: None, seed: 1 }
    }
}

/// Losses come one by one, and once in so many times several in a row, up to so many.
const RUN_ONCE_IN: u64 = 8;
const LONGEST_RUN: u64 = 40;

/// A late packet, or a second one, comes at most so many packets later.
const LATEST: u64 = 20;

/// What becomes of a packet that has been cut.
#[derive(Clone, Copy, Debug, PartialEq, Eq)]
enum Fate {
    Sent,
    Lost,
    /// sent behind the packet that is so many positions later
    Late(u64),
    /// sent, and once more behind the packet that is so many positions later
    Twice(u64),
}

/// The fates of a capture's packets, one after another.
struct Fates {
    troubles: Troubles,
    random: Random,
    /// how many more are lost in a row
    run: u64,
}

impl Fates {
    fn new(troubles: Troubles) -> Self {
        Fates { troubles, random: Random::new(troubles.seed), run: 0 }
    }

    /// Without its first packet a capture is none: that one is neither lost nor late.
    fn of(&mut self, position: u64) -> Fate {
        if position > 0 {
            if self.is_lost() {
                return Fate::Lost;
            }
            if self.once_in(self.troubles.late) {
                return Fate::Late(self.random.within(1, LATEST));
            }
        }
        if self.once_in(self.troubles.repeat) {
            return Fate::Twice(if self.random.once_in(2) { 0 } else { self.random.within(1, LATEST) });
        }
        Fate::Sent
    }

    fn once_in(&mut self, times: Option<u64>) -> bool {
        times.is_some_and(|times| self.random.once_in(times))
    }

    fn is_lost(&mut self) -> bool {
        if self.run == 0 && self.run_begins() {
            self.run = if self.random.once_in(RUN_ONCE_IN) { self.random.within(1, LONGEST_RUN) } else { 1 };
        }
        let lost = self.run > 0;
        self.run = self.run.saturating_sub(1);
        lost
    }

    /// Of 2 x RUN_ONCE_IN runs the average has `lost` packets; so that one packet in N is lost, there have to be N - 1 times
    /// as many between them.
    fn run_begins(&mut self) -> bool {
        let Some(times) = self.troubles.lose else { return false };
        let runs = 2 * RUN_ONCE_IN;
        let lost = 2 * (RUN_ONCE_IN - 1) + LONGEST_RUN + 1;
        self.random.below(lost * (times - 1) + runs) < runs
    }
}

/// What is counted of a capture's packets. Each that was cut is one of those heard, lost, late and not sent.
#[derive(Clone, Copy, Debug, Default, PartialEq, Eq)]
pub struct Tally {
    pub cut: u64,
    /// sent, and behind none that is later
    pub heard: u64,
    /// the position behind the last of them
    pub covered: u64,
    /// lost on purpose
    pub lost: u64,
    /// sent behind one that is later
    pub late: u64,
    /// sent twice
    pub repeated: u64,
    /// those that the network did not take
    pub not_sent: u64,
}

/// A packet that is held back, until the packet at `behind` has been cut.
struct Held {
    behind: u64,
    position: u64,
    second: bool,
    packet: Vec<u8>,
}

/// The packets of a capture on their way.
pub struct Sending {
    fates: Fates,
    /// at most one, and one more, for each of the last LATEST
    held: Vec<Held>,
    tally: Tally,
}

impl Sending {
    pub fn new(troubles: Troubles) -> Self {
        Sending { fates: Fates::new(troubles), held: vec![], tally: Tally::default() }
    }

    /// Takes the next packet that was cut. `send` answers whether the network took what it was given.
    pub fn take(&mut self, position: u64, packet: &[u8], mut send: impl FnMut(&[u8]) -> bool) {
        self.tally.cut += 1;
        match self.fates.of(position) {
            Fate::Sent => {
                self.send(position, packet, &mut send);
            }
            Fate::Lost => self.tally.lost += 1,
            Fate::Late(by) => self.hold(position, by, false, packet),
            Fate::Twice(by) => {
                // what did not go once cannot go twice
                if self.send(position, packet, &mut send) {
                    self.hold(position, by, true, packet);
                }
            }
        }
        self.send_held(position, &mut send);
    }

    /// What is still held back when the capture ends is lost; what was to be sent a second time is not.
    pub fn end(&mut self) -> Tally {
        self.tally.lost += self.held.drain(..).filter(|held| !held.second).count() as u64;
        self.tally
    }

    fn hold(&mut self, position: u64, by: u64, second: bool, packet: &[u8]) {
        self.held.push(Held { behind: position + by, position, second, packet: packet.to_vec() });
    }

    fn send_held(&mut self, position: u64, send: &mut impl FnMut(&[u8]) -> bool) {
        while let Some(place) = self.held.iter().position(|held| held.behind <= position) {
            let held = self.held.remove(place);
            if !held.second {
                self.send(held.position, &held.packet, send);
            } else if send(&held.packet) {
                self.tally.repeated += 1;
            }
        }
    }

    /// Sends a packet for the first time. One that was held back while all later ones were lost is in time all the same.
    fn send(&mut self, position: u64, packet: &[u8], send: &mut impl FnMut(&[u8]) -> bool) -> bool {
        let sent = send(packet);
        if !sent {
            self.tally.not_sent += 1;
        } else if position < self.tally.covered {
            self.tally.late += 1;
        } else {
            self.tally.heard += 1;
            self.tally.covered = position + 1;
        }
        sent
    }
}

#[cfg(test)]
mod tests {
    use super::*;

    const MANY: u64 = 1_000_000;

    fn all(seed: u64) -> Troubles {
        Troubles { lose: Some(50), repeat: Some(30), late: Some(40), seed }
    }

    /// Sends so many packets, each its position; what arrived, in its order.
    fn sent(troubles: Troubles, count: u64, takes: impl Fn(u64) -> bool) -> (Vec<u64>, Tally) {
        let mut sending = Sending::new(troubles);
        let mut arrived = vec![];
        for position in 0..count {
            sending.take(position, &position.to_le_bytes(), |packet| {
                let position = u64::from_le_bytes(packet.try_into().unwrap());
                let taken = takes(position);
                if taken {
                    arrived.push(position);
                }
                taken
            });
        }
        (arrived, sending.end())
    }

    /// Those that stand behind none that is later or the same, as a recorder keeps them.
    fn in_time(arrived: &[u64]) -> Vec<u64> {
        let mut kept = vec![];
        for &position in arrived {
            if kept.last().is_none_or(|&last| last < position) {
                kept.push(position);
            }
        }
        kept
    }

    #[test]
    fn without_trouble_all_arrive() {
        let (arrived, tally) = sent(Troubles::default(), 1000, |_| true);
        assert!(arrived.into_iter().eq(0..1000));
        assert_eq!(tally, Tally { cut: 1000, heard: 1000, covered: 1000, ..Tally::default() });
    }

    #[test]
    fn counts_are_those_of_what_arrives() {
        for seed in 1..200 {
            let (arrived, tally) = sent(all(seed), 3000, |position| position % 977 != 976);
            let kept = in_time(&arrived);
            assert_eq!(arrived[0], 0);
            assert_eq!(tally.cut, 3000);
            assert_eq!(tally.heard, kept.len() as u64);
            assert_eq!(tally.covered, kept.last().unwrap() + 1);
            assert_eq!(tally.heard + tally.late + tally.repeated, arrived.len() as u64);
            assert_eq!(tally.heard + tally.late + tally.lost + tally.not_sent, tally.cut);
            let mut once = arrived.clone();
            once.sort_unstable();
            once.dedup();
            assert_eq!(tally.repeated, (arrived.len() - once.len()) as u64);
            assert_eq!(tally.not_sent + tally.lost, 3000 - once.len() as u64);
        }
    }

    #[test]
    fn a_captures_first_is_never_lost_nor_late() {
        for seed in 0..20_000 {
            let troubles = Troubles { lose: Some(2), repeat: Some(2), late: Some(2), seed };
            let fate = Fates::new(troubles).of(0);
            assert!(matches!(fate, Fate::Sent | Fate::Twice(_)), "seed {seed}: {fate:?}");
        }
    }

    #[test]
    fn one_in_n_is_lost_and_now_and_then_a_run() {
        for times in [2, 10, 100, 1000] {
            let (arrived, tally) = sent(Troubles { lose: Some(times), ..Troubles::default() }, MANY, |_| true);
            let ratio = tally.lost as f64 * times as f64 / MANY as f64;
            assert!((0.85..1.15).contains(&ratio), "--lose {times}: {} lost", tally.lost);
            let longest = arrived.windows(2).map(|two| two[1] - two[0] - 1).max();
            assert!(longest >= Some(20), "--lose {times}: {longest:?} in a row");
        }
    }

    #[test]
    fn one_in_n_is_repeated_or_late_and_not_by_much() {
        let (_, tally) = sent(Troubles { repeat: Some(100), ..Troubles::default() }, MANY, |_| true);
        assert!((9_500..10_500).contains(&tally.repeated), "{tally:?}");
        assert_eq!(tally.heard, MANY);
        let (arrived, tally) = sent(Troubles { late: Some(100), ..Troubles::default() }, MANY, |_| true);
        assert!((9_500..10_500).contains(&tally.late), "{tally:?}");
        let mut covered = 0;
        for position in arrived {
            assert!(position + LATEST + 1 >= covered);
            covered = covered.max(position + 1);
        }
    }

    #[test]
    fn the_same_seed_the_same_trouble() {
        assert_eq!(sent(all(7), 5000, |_| true), sent(all(7), 5000, |_| true));
        assert_ne!(sent(all(7), 5000, |_| true), sent(all(8), 5000, |_| true));
    }

    #[test]
    fn what_is_held_back_at_the_end_is_lost() {
        let mut sending = Sending::new(Troubles::default());
        sending.tally.cut = 2;
        sending.hold(1, 5, false, &[1]);
        sending.hold(0, 5, true, &[0]);
        assert_eq!(sending.end().lost, 1);
    }

    #[test]
    fn nothing_is_counted_where_the_network_takes_nothing() {
        let (arrived, tally) = sent(all(3), 500, |_| false);
        assert_eq!((arrived.len(), tally.heard, tally.covered, tally.late, tally.repeated), (0, 0, 0, 0, 0));
        assert_eq!(tally.not_sent + tally.lost, 500);
    }
}
