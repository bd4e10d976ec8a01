//! The capture file: a head, and whole packets behind it, always.

use std::fs::{self, File};
use std::io::{self, ErrorKind, Write};
use std::path::{Path, PathBuf};

use outside::onair::c::{ignore_signal, SIGXFSZ};

pub struct CaptureFile {
    file: File,
    /// bytes of a packet
    each: u64,
    /// bytes of the head, and of the packets behind it
    bytes: u64,
}

/// So many bytes of packets were written, and then no more could be.
#[derive(Debug)]
pub struct Full {
    pub written: usize,
    pub error: io::Error,
}

impl CaptureFile {
    /// Makes the file, which must not be there, with its head.
    pub fn create(path: &Path, head: &[u8], each: usize) -> io::Result<(Self, Provisional)> {
        ignore_size_limit();
        let mut file = File::options().write(true).create_new(true).open(path)?;
        let provisional = Provisional { path: Some(path.into()) };
        file.write_all(head)?;
        Ok((CaptureFile { file, each: each as u64, bytes: head.len() as u64 }, provisional))
    }

    pub fn bytes(&self) -> u64 {
        self.bytes
    }

    /// The open file, for another process to keep.
    pub fn handle(&self) -> io::Result<File> {
        self.file.try_clone()
    }

    /// Writes packets. Where that fails in the middle, those that are whole in the file stay, and nothing behind them.
    pub fn append(&mut self, packets: &[u8]) -> Result<(), Full> {
        let (count, failed) = write_most(&mut self.file, packets);
        let Err(error) = failed else {
            self.bytes += count as u64;
            return Ok(());
        };
        let whole = count as u64 / self.each * self.each;
        self.bytes += whole;
        // where even this fails, the keeper tries again
        let _ = self.file.set_len(self.bytes);
        Err(Full { written: whole as usize, error })
    }

    /// Waits until all is on the disk.
    pub fn sync(&self) -> io::Result<()> {
        self.file.sync_data()
    }
}

/// A file that is taken away again, unless something is recorded.
pub struct Provisional {
    path: Option<PathBuf>,
}

impl Provisional {
    pub fn keep(mut self) {
        self.path = None;
    }
}

impl Drop for Provisional {
    fn drop(&mut self) {
        if let Some(path) = &self.path {
            // it was made by this recorder, so nothing of anybody else goes with it
            let _ = fs::remove_file(path);
        }
    }
}

/// A file that may not grow further (ulimit -f) is an error like a full disk, and no death of the recorder.
fn ignore_size_limit() {
    ignore_signal(SIGXFSZ);
}

/// Writes as much as can be; how much, and what hindered the rest. (`write_all` does not say how much.)
fn write_most(out: &mut impl Write, bytes: &[u8]) -> (usize, io::Result<()>) {
    let mut count = 0;
    while count < bytes.len() {
        match out.write(&bytes[count..]) {
            Ok(0) => return (count, Err(ErrorKind::WriteZero.into())),
            Ok(more) => count += more,
            Err(error) if error.kind() == ErrorKind::Interrupted => {}
            Err(error) => return (count, Err(error)),
        }
    }
    (count, Ok(()))
}

#[cfg(test)]
mod tests {
    use super::*;

    fn path(name: &str) -> PathBuf {
        std::env::temp_dir().join(format!("record-test-{}-{name}", std::process::id()))
    }

    #[test]
    fn made_once_written_and_taken_away() {
        let path = path("made");
        let (mut file, provisional) = CaptureFile::create(&path, b"HEAD", 3).expect("made");
        assert_eq!(CaptureFile::create(&path, b"HEAD", 3).err().expect("there").kind(), ErrorKind::AlreadyExists);
        file.append(b"abcdef").expect("written");
        file.append(b"").expect("written");
        assert_eq!(file.bytes(), 10);
        file.sync().expect("on the disk");
        assert_eq!(fs::read(&path).expect("read"), b"HEADabcdef");
        drop(provisional);
        assert!(!path.exists());
        let (_, provisional) = CaptureFile::create(&path, b"HEAD", 3).expect("made");
        provisional.keep();
        fs::remove_file(&path).expect("it stayed");
    }

    /// Takes so many bytes, a few at a time, and then fails.
    struct Narrow(usize);

    impl Write for Narrow {
        fn write(&mut self, bytes: &[u8]) -> io::Result<usize> {
            if self.0 == 0 {
                return Err(ErrorKind::StorageFull.into());
            }
            let count = bytes.len().min(self.0).min(7);
            self.0 -= count;
            Ok(count)
        }

        fn flush(&mut self) -> io::Result<()> {
            Ok(())
        }
    }

    #[test]
    fn what_fits_is_written() {
        for room in 0..40 {
            let (count, failed) = write_most(&mut Narrow(room), &[0; 30]);
            assert_eq!((count, failed.is_err()), (room.min(30), room < 30), "{room}");
        }
    }
}
