//! Packets on their way to the file: buffers of many packets, made once and used again.

use std::sync::mpsc::{channel, Receiver, Sender};
use std::time::Duration;

/// About so many bytes are written at once.
const BATCH: usize = 64 << 10;

/// So many bytes may wait for the disk: five seconds of the highest rate of one channel.
const QUEUED: usize = 64 << 20;

/// How many batches there are at most.
pub const MOST: usize = QUEUED / BATCH;

/// Whole packets, one behind another.
pub struct Batch {
    /// room for packets, and a byte more, so that what is longer than a packet is seen to be
    room: Vec<u8>,
    filled: usize,
    each: usize,
    /// how many packets are missing in the capture up to its end
    pub missed: u64,
}

impl Batch {
    fn new(each: usize) -> Self {
        let packets = (BATCH / each.max(1)).max(1);
        Batch { room: vec![0; packets * each + 1], filled: 0, each, missed: 0 }
    }

    /// Where the next packet may be put, with a byte to spare; empty where the batch is full.
    pub fn next(&mut self) -> &mut [u8] {
        self.room.get_mut(self.filled..self.filled + self.each + 1).unwrap_or_default()
    }

    /// Keeps the packet that was put there.
    pub fn keep(&mut self, missed: u64) {
        self.filled += self.each;
        self.missed = missed;
    }

    pub fn is_full(&self) -> bool {
        self.filled + self.each >= self.room.len()
    }

    pub fn is_empty(&self) -> bool {
        self.filled == 0
    }

    pub fn packets(&self) -> &[u8] {
        &self.room[..self.filled]
    }

    /// Forgets the packets past so many bytes, which are whole ones.
    pub fn shorten(&mut self, bytes: usize) {
        self.filled = self.filled.min(bytes);
    }
}

/// The batches that are free.
pub struct Free {
    back: Receiver<Batch>,
    each: usize,
    made: usize,
}

impl Free {
    /// None yet; and where those that are done come back.
    pub fn new(each: usize) -> (Self, Sender<Batch>) {
        let (sender, back) = channel();
        (Free { back, each, made: 0 }, sender)
    }

    /// An empty batch: one that came back, a new one, or, where there are as many as may be, the first that comes back
    /// in time.
    pub fn take(&mut self, wait: Duration) -> Option<Batch> {
        if let Ok(batch) = self.back.try_recv() {
            return Some(emptied(batch));
        }
        if self.made < MOST {
            self.made += 1;
            return Some(Batch::new(self.each));
        }
        self.back.recv_timeout(wait).ok().map(emptied)
    }
}

fn emptied(mut batch: Batch) -> Batch {
    batch.filled = 0;
    batch
}

#[cfg(test)]
mod tests {
    use super::*;

    #[test]
    fn filled_with_whole_packets() {
        for each in [1, 388, 1_444, BATCH, BATCH + 1] {
            let (mut free, back) = Free::new(each);
            let mut batch = free.take(Duration::ZERO).expect("a new one");
            let mut packets = 0;
            while !batch.is_full() {
                assert_eq!(batch.next().len(), each + 1);
                batch.next().fill(7);
                batch.keep(packets);
                packets += 1;
            }
            assert_eq!(batch.packets().len() as u64, packets * each as u64);
            assert!(packets > 0 && batch.packets().len() <= BATCH.max(each));
            assert!(batch.next().is_empty());
            back.send(batch).expect("given back");
            assert!(free.take(Duration::ZERO).is_some_and(|batch| batch.is_empty()));
            assert_eq!(free.made, 1);
        }
    }

    #[test]
    fn no_more_than_may_be() {
        let (mut free, back) = Free::new(1);
        free.made = MOST;
        assert!(free.take(Duration::from_millis(1)).is_none());
        back.send(Batch::new(1)).expect("given back");
        assert!(free.take(Duration::from_millis(1)).is_some());
    }
}
