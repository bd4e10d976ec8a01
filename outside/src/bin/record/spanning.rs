//! The capture's span, by the program that is proved to tell it. Every byte that is written to the file goes to it too,
//! as it is written, so that its report is there when the recording ends.
//!
//! It cannot hold the recording up: what it has not read yet waits in batches, of which there are so many, and where these
//! are too many or it is gone, the recording goes on without.

use std::io::{self, Read, Write};
use std::os::unix::process::CommandExt;
use std::path::Path;
use std::process::{Child, ChildStdin, Command, Stdio};
use std::sync::atomic::{AtomicUsize, Ordering};
use std::sync::mpsc::{channel, Receiver, Sender};
use std::sync::Arc;
use std::thread;
use std::time::Duration;

use crate::batch::{Batch, MOST};
use crate::say::say;

/// So many batches may wait for it: a quarter is left for the recording.
const MOST_WAITING: usize = MOST / 4 * 3;

/// How long its report may take when it has been given all but what waits.
const REPORTS_WITHIN: Duration = Duration::from_secs(30);

pub struct Spanning {
    child: Child,
    /// `None` once it was given up
    batches: Option<Sender<Batch>>,
    waiting: Arc<AtomicUsize>,
    /// where batches go that are done
    free: Sender<Batch>,
    report: Receiver<String>,
}

impl Spanning {
    /// Starts the program and gives it the head.
    pub fn start(program: &Path, head: &[u8], free: Sender<Batch>) -> io::Result<Self> {
        let mut child = Command::new(program)
            .stdin(Stdio::piped())
            .stdout(Stdio::piped())
            // Ctrl-C is for the recorder
            .process_group(0)
            .spawn()?;
        let (Some(stdin), Some(stdout)) = (child.stdin.take(), child.stdout.take()) else {
            return Err(io::Error::other("no pipe"));
        };
        let (batches, fed) = channel();
        let (reported, report) = channel();
        let waiting = Arc::new(AtomicUsize::new(0));
        let feeding = Feeding { head: head.to_vec(), stdin, fed, waiting: waiting.clone(), free: free.clone() };
        thread::Builder::new().name("span".into()).spawn(|| feeding.run())?;
        thread::Builder::new().name("report".into()).spawn(move || {
            let mut text = String::new();
            let _ = { stdout }.read_to_string(&mut text);
            // where nobody waits for it any more
            let _ = reported.send(text);
        })?;
        Ok(Spanning { child, batches: Some(batches), waiting, free, report })
    }

    /// Gives it what has been written to the file.
    pub fn hand(&mut self, batch: Batch) {
        if self.batches.is_some() && self.waiting.load(Ordering::Relaxed) >= MOST_WAITING {
            say("the span program does not keep up: it is given up");
            self.batches = None;
            let _ = self.child.kill();
        }
        let Some(batches) = &self.batches else {
            // where the recording has ended nobody wants it back
            let _ = self.free.send(batch);
            return;
        };
        self.waiting.fetch_add(1, Ordering::Relaxed);
        // the thread that feeds it ends after all senders only
        let _ = batches.send(batch);
    }

    /// The report's line of the capture, where there is one.
    pub fn end(mut self) -> Option<String> {
        self.batches.take()?;
        let Ok(report) = self.report.recv_timeout(REPORTS_WITHIN) else {
            say(format_args!("the span program did not report within {} s", REPORTS_WITHIN.as_secs()));
            return None;
        };
        line_of(&report)
    }
}

impl Drop for Spanning {
    /// It has reported, or its report is not wanted.
    fn drop(&mut self) {
        let _ = self.child.kill();
        let _ = self.child.wait();
    }
}

/// The last line of a capture in a report that was read to its end; else it is said what came instead.
fn line_of(report: &str) -> Option<String> {
    let last = report.lines().last().unwrap_or_default();
    if !last.starts_with("E ") {
        say(format_args!("the span program did not read the capture to its end: it reports {report:?}"));
        return None;
    }
    report.lines().rfind(|line| line.starts_with("C ")).map(String::from)
}

/// The thread that feeds it.
struct Feeding {
    head: Vec<u8>,
    stdin: ChildStdin,
    fed: Receiver<Batch>,
    waiting: Arc<AtomicUsize>,
    free: Sender<Batch>,
}

impl Feeding {
    fn run(mut self) {
        let mut reads = give(&mut self.stdin, &self.head);
        for batch in self.fed {
            reads = reads && give(&mut self.stdin, batch.packets());
            self.waiting.fetch_sub(1, Ordering::Relaxed);
            // where the recording has ended nobody wants it back
            let _ = self.free.send(batch);
        }
    }
}

/// Whether the program reads; said once where it does not.
fn give(stdin: &mut ChildStdin, bytes: &[u8]) -> bool {
    let given = stdin.write_all(bytes);
    if let Err(error) = &given {
        say(format_args!("the span program reads no more: {error}"));
    }
    given.is_ok()
}

#[cfg(test)]
mod tests {
    use super::*;
    use std::fs::{self, Permissions};
    use std::os::unix::fs::PermissionsExt;
    use std::path::PathBuf;
    use std::time::Instant;

    use crate::batch::Free;

    #[test]
    fn lines_of_reports() {
        assert_eq!(line_of("SPAN 1\nC 1 24 64 3 5 320 1600 2\nE 1\n"), Some("C 1 24 64 3 5 320 1600 2".into()));
        assert_eq!(line_of("SPAN 1\nE 0\n"), None);
        assert_eq!(line_of("SPAN 1\nC 1 24 64 3 5 320 1600 2\nR 30 999\n"), None);
        assert_eq!(line_of(""), None);
    }

    fn program(name: &str, text: &str) -> PathBuf {
        let path = std::env::temp_dir().join(format!("record-test-{}-{name}", std::process::id()));
        fs::write(&path, format!("#!/bin/sh\n{text}\n")).expect("written");
        fs::set_permissions(&path, Permissions::from_mode(0o755)).expect("may run");
        path
    }

    /// A program that was given a head and so many full batches.
    fn fed(path: &Path, batches: usize) -> Spanning {
        let (mut free, back) = Free::new(1_000);
        let mut spanning = Spanning::start(path, b"HEAD", back).expect("started");
        for _ in 0..batches {
            let mut batch = free.take(Duration::from_secs(5)).expect("a free one");
            while !batch.is_full() {
                batch.next().fill(b'x');
                batch.keep(0);
            }
            spanning.hand(batch);
        }
        fs::remove_file(path).expect("taken away");
        spanning
    }

    #[test]
    fn all_that_was_written_is_read() {
        let path = program("counts", "echo C $(wc -c)\necho E 1");
        // no more than may wait
        assert_eq!(fed(&path, 700).end(), Some("C 45500004".into()));
    }

    #[test]
    fn one_that_dies() {
        let begun = Instant::now();
        assert_eq!(fed(&program("dies", "exit 3"), 3_000).end(), None);
        assert!(begun.elapsed() < Duration::from_secs(10));
    }

    #[test]
    fn one_that_does_not_read() {
        let begun = Instant::now();
        assert_eq!(fed(&program("sleeps", "exec sleep 60"), 3_000).end(), None);
        assert!(begun.elapsed() < Duration::from_secs(10));
    }
}
