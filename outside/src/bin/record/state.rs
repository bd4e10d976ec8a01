//! What the threads of a recording know of each other: how far it is, and what was counted.

use std::sync::atomic::{AtomicBool, AtomicU64, AtomicU8, Ordering};

/// How far a recording is.
#[derive(Clone, Copy, Debug, PartialEq, Eq)]
#[repr(u8)]
pub enum Stage {
    /// the box has not said yet that it runs
    Waiting,
    Running,
    /// the box is told to stop
    Stopping,
    /// it has stopped; packets may be on their way still
    Ending,
    /// nothing more is wanted
    Over,
}

#[derive(Default)]
pub struct State {
    stage: AtomicU8,
    /// packets written, missing among them, and the file's bytes with them
    heard: AtomicU64,
    missed: AtomicU64,
    bytes: AtomicU64,
    /// packets left out: repeated or late, and none of the capture
    late: AtomicU64,
    stray: AtomicU64,
    /// nobody writes packets any more
    unwritten: AtomicBool,
}

/// What was counted so far.
#[derive(Clone, Copy, Debug, PartialEq, Eq)]
pub struct Counts {
    pub heard: u64,
    pub missed: u64,
    pub bytes: u64,
    pub late: u64,
    pub stray: u64,
}

impl State {
    pub fn stage(&self) -> Stage {
        match self.stage.load(Ordering::Acquire) {
            0 => Stage::Waiting,
            1 => Stage::Running,
            2 => Stage::Stopping,
            3 => Stage::Ending,
            _ => Stage::Over,
        }
    }

    pub fn enter(&self, stage: Stage) {
        self.stage.store(stage as u8, Ordering::Release);
    }

    /// Whether packets are written still.
    pub fn is_written(&self) -> bool {
        !self.unwritten.load(Ordering::Acquire)
    }

    pub fn write_no_more(&self) {
        self.unwritten.store(true, Ordering::Release);
    }

    pub fn count_late(&self) {
        self.late.fetch_add(1, Ordering::Relaxed);
    }

    pub fn count_stray(&self) {
        self.stray.fetch_add(1, Ordering::Relaxed);
    }

    /// Packets have been written.
    pub fn written(&self, packets: u64, missed: u64, bytes: u64) {
        self.heard.fetch_add(packets, Ordering::Relaxed);
        self.missed.store(missed, Ordering::Relaxed);
        self.bytes.store(bytes, Ordering::Relaxed);
    }

    pub fn counts(&self) -> Counts {
        let of = |count: &AtomicU64| count.load(Ordering::Relaxed);
        Counts {
            heard: of(&self.heard),
            missed: of(&self.missed),
            bytes: of(&self.bytes),
            late: of(&self.late),
            stray: of(&self.stray),
        }
    }
}
