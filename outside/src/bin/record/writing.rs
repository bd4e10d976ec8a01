//! The thread that writes batches to the file and hands them on to the span program.

use std::sync::mpsc::{Receiver, Sender};
use std::sync::Arc;

use crate::batch::Batch;
use crate::file::CaptureFile;
use crate::spanning::Spanning;
use crate::state::State;

pub struct Writing {
    pub full: Receiver<Batch>,
    pub file: CaptureFile,
    pub spanning: Option<Spanning>,
    /// where batches go that are done
    pub free: Sender<Batch>,
    /// bytes of a packet
    pub each: usize,
    pub state: Arc<State>,
}

/// What is left when all is written, or no more can be.
pub struct Written {
    pub file: CaptureFile,
    pub spanning: Option<Spanning>,
    pub trouble: Option<String>,
}

impl Writing {
    /// Writes until no more batches can come. Where the file takes no more it ends before that, and then the receiving thread
    /// ends too, for nobody takes its batches.
    pub fn run(mut self) -> Written {
        let mut trouble = None;
        while let Ok(mut batch) = self.full.recv() {
            if let Err(full) = self.file.append(batch.packets()) {
                trouble = Some(format!("no more can be written: {}", full.error));
                batch.shorten(full.written);
            }
            self.count(&batch, trouble.is_some());
            match &mut self.spanning {
                Some(spanning) => spanning.hand(batch),
                // where the receiving thread has ended nobody wants it back
                None => drop(self.free.send(batch)),
            }
            if trouble.is_some() {
                break;
            }
        }
        self.state.write_no_more();
        Written { file: self.file, spanning: self.spanning, trouble }
    }

    fn count(&self, batch: &Batch, shortened: bool) {
        let packets = (batch.packets().len() / self.each.max(1)) as u64;
        // of a batch that is not whole it is not known how many were missed up to its new end
        let missed = if shortened { self.state.counts().missed } else { batch.missed };
        self.state.written(packets, missed, self.file.bytes());
    }
}
