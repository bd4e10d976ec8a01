//! The keeper: a process beside the recorder that outlives it, however it ends.
//!
//! A recorder that is killed in the middle of a write leaves a part of a packet behind. The keeper waits until its standard
//! input closes, which only the recorder holds open, and then cuts the file back to its head and whole packets. It is this
//! same program, started with a first word that is no option; the file is its standard output, so that it needs no name.

use std::ffi::OsStr;
use std::fs::File;
use std::io;
use std::os::fd::AsFd;
use std::os::unix::process::CommandExt;
use std::process::{Child, Command, ExitCode, Stdio};

use outside::onair::signals;

use crate::say::say;

/// The first word of a keeper's command line; the head's bytes and a packet's follow.
const KEEPER: &str = "keep-the-file-behind-this-whole";

/// The recorder's side of it.
pub struct Keeper {
    child: Child,
}

impl Keeper {
    pub fn start(file: File, head: usize, each: usize) -> io::Result<Self> {
        let child = Command::new(std::env::current_exe()?)
            .args([KEEPER, &head.to_string(), &each.to_string()])
            .stdin(Stdio::piped())
            .stdout(file)
            // Ctrl-C is for the recorder
            .process_group(0)
            .spawn()?;
        Ok(Keeper { child })
    }

    /// The recorder has written all: lets the keeper look and end.
    pub fn end(mut self) {
        drop(self.child.stdin.take());
        match self.child.wait() {
            Ok(status) if status.success() => {}
            Ok(status) => say(format_args!("the keeper of the file ended with {status}")),
            Err(error) => say(format_args!("the keeper of the file is lost: {error}")),
        }
    }
}

/// What this process has to do where it was started as a keeper.
pub fn called() -> Option<ExitCode> {
    let mut words = std::env::args_os().skip(1);
    if words.next().as_deref() != Some(OsStr::new(KEEPER)) {
        return None;
    }
    let mut number = || words.next()?.to_str()?.parse().ok();
    let (Some(head), Some(each)) = (number(), number()) else { return Some(ExitCode::from(2)) };
    Some(keep(head, each))
}

fn keep(head: u64, each: u64) -> ExitCode {
    // what ends the recorder politely does not end its keeper
    signals::heed();
    // an error is an end as well
    let _ = io::copy(&mut io::stdin().lock(), &mut io::sink());
    let kept = io::stdout().as_fd().try_clone_to_owned().map(File::from).and_then(|file| cut_back(&file, head, each));
    match kept {
        Ok(false) => ExitCode::SUCCESS,
        Ok(true) => {
            say("the file was cut back to whole packets");
            ExitCode::SUCCESS
        }
        Err(error) => {
            say(format_args!("the file could not be cut back to whole packets: {error}"));
            ExitCode::FAILURE
        }
    }
}

/// Cuts off what is no whole packet; whether there was any.
fn cut_back(file: &File, head: u64, each: u64) -> io::Result<bool> {
    let there = file.metadata()?.len();
    let rest = there.checked_sub(head).and_then(|packets| packets.checked_rem(each)).unwrap_or(0);
    if rest > 0 {
        file.set_len(there - rest)?;
    }
    Ok(rest > 0)
}

#[cfg(test)]
mod tests {
    use super::*;

    #[test]
    fn only_whole_packets_stay() {
        let path = std::env::temp_dir().join(format!("record-test-{}-kept", std::process::id()));
        for (there, left) in [(0, 0), (9, 9), (10, 10), (11, 10), (13, 10), (14, 14), (17, 14), (18, 18)] {
            let file = File::create(&path).expect("made");
            file.set_len(there).expect("of that length");
            assert_eq!(cut_back(&file, 10, 4).expect("cut"), there != left, "{there}");
            assert_eq!(file.metadata().expect("there").len(), left);
        }
        std::fs::remove_file(&path).expect("taken away");
    }
}
