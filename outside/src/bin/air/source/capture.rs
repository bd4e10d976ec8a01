//! A capture file: a head, then packets, both read by the library. What was missed plays as silence.

use std::fs::File;
use std::io::{self, BufReader, Seek, SeekFrom};

use outside::boundary::{Library, ReaderBytes, Shape, READER_BYTES};
use outside::onair::library::DONE;
use outside::station::Settings;
use outside::Head;

use super::looped::{read_full, Break, Tape};
use super::BITS;

/// More bytes than any head has: the library looks at those that it needs.
const FRONT: usize = 256;

/// Read ahead so many bytes.
const AHEAD: usize = 1 << 18;

pub struct CaptureTape {
    library: &'static (dyn Library + Sync),
    file: BufReader<File>,
    head: Head,
    shape: Shape,
    /// where the packets begin
    begins: u64,
    /// one that has heard nothing, and the one that follows this round
    silent: ReaderBytes,
    reader: ReaderBytes,
    packet: Vec<u8>,
}

impl CaptureTape {
    /// A file's head, behind which the packets begin, or why it is no capture.
    pub fn of(library: &'static (dyn Library + Sync), file: File) -> Result<Self, String> {
        let mut file = BufReader::with_capacity(AHEAD, file);
        let mut front = [0; FRONT];
        let count = read_full(&mut file, &mut front).map_err(|error| error.to_string())?;
        let head = match library.read_head(&front[..count]) {
            (DONE, head) => head,
            (code, _) => return Err(format!("it is no capture file, its head is refused with code {code}")),
        };
        let shape = match library.shape(head.mode, head.size) {
            (DONE, shape) => shape,
            (code, _) => return Err(format!("how its packets are laid out is refused with code {code}")),
        };
        let mut silent = [0; READER_BYTES];
        match library.silent(shape.channels, &mut silent) {
            DONE => {}
            code => return Err(format!("a reader of {} channels is refused with code {code}", shape.channels)),
        }
        let begins = library.head_length(head.version) as u64;
        let packet = vec![0; shape.total];
        let mut tape = CaptureTape { library, file, head, shape, begins, silent, reader: silent, packet };
        tape.rewind().map_err(|error| error.to_string())?;
        Ok(tape)
    }

    /// The packet's numbers at the end of the block, as wide as the box takes them.
    fn unpack(&self, block: &mut Vec<i32>) -> Result<(), Break> {
        let from = block.len();
        block.resize(from + self.shape.numbers, 0);
        let numbers = &mut block[from..];
        match self.library.unpack(&self.packet, numbers) {
            (DONE, _) => {}
            (code, _) => return Err(Break::Round(format!("a packet cannot be unpacked, code {code}"))),
        }
        let wider = BITS.saturating_sub(self.shape.bits);
        numbers.iter_mut().for_each(|number| *number <<= wider);
        Ok(())
    }
}

impl Tape for CaptureTape {
    fn channels(&self) -> usize {
        usize::from(self.shape.channels).max(1)
    }

    fn differs(&self, settings: &Settings, _rate: f64) -> Option<String> {
        let (made, played) = (self.head.divisor, settings.divisor);
        (made != played).then(|| format!("its head has D = {made}, the box plays it with D = {played}"))
    }

    fn rewind(&mut self) -> io::Result<()> {
        self.reader = self.silent;
        self.file.seek(SeekFrom::Start(self.begins)).map(|_| ())
    }

    fn next(&mut self, block: &mut Vec<i32>) -> Result<Option<u64>, Break> {
        let count = read_full(&mut self.file, &mut self.packet)?;
        if count == 0 {
            return Ok(None);
        }
        if count < self.packet.len() {
            return Err(Break::Round(format!("its last packet has {count} bytes of {}", self.packet.len())));
        }
        match self.library.read(&mut self.reader, &self.packet) {
            (DONE, place) => {
                self.unpack(block)?;
                Ok(Some(place.missed.saturating_mul(self.shape.pairs)))
            }
            (code, _) => Err(Break::Round(format!("a packet is refused with code {code}"))),
        }
    }
}

#[cfg(test)]
mod tests {
    use super::super::looped::tests::{played, settings, Kept};
    use super::super::looped::Looped;
    use super::super::Source;
    use super::*;
    use outside::onair::library::library;
    use outside::packet::write;
    use outside::{head, Form};
    use std::path::Path;

    fn head_bytes(mode: u8, size: u8) -> Vec<u8> {
        let head = Head {
            version: head::VERSION_2,
            divisor: 100,
            frequency: 14_010_000,
            mode,
            size,
            serial: *b"MT123456",
            clock: 80_000_000,
        };
        let mut bytes = vec![0; head.length()];
        head.write(&mut bytes).unwrap();
        bytes
    }

    /// A packet whose numbers are its position at both ends and those of a ramp between, as wide as they are sent.
    fn numbers(form: Form, position: u64) -> Vec<i32> {
        (0..form.samples() as i32).map(|place| place - 100 + position as i32).collect()
    }

    fn packet(form: Form, position: u64) -> Vec<u8> {
        let scale = if form.bits == 24 { 1 } else { 256 };
        let samples: Vec<i32> = numbers(form, position).iter().map(|number| number * scale).collect();
        let mut bytes = vec![0; form.total()];
        write(form, position, &samples, &mut bytes);
        bytes
    }

    fn file(name: &str, mode: u8, size: u8, positions: &[u64]) -> Kept {
        let form = Form::of_settings(mode & 0x80, size);
        let packets = positions.iter().map(|&position| packet(form, position));
        Kept::new(name, &[head_bytes(mode, size)].into_iter().chain(packets).collect::<Vec<_>>().concat())
    }

    fn open(path: &Path) -> Result<Looped<CaptureTape>, String> {
        Looped::open(path, |file| CaptureTape::of(library(), file))
    }

    #[test]
    fn missed_packets_are_silence_and_the_end_is_the_start() {
        let kept = file("missed.spn", 0x80, 1, &[0, 1, 4, 0]);
        let mut source = open(&kept.0).unwrap();
        let form = Form::SMALL_24;
        let silence = vec![0; form.samples()];
        let round = [
            numbers(form, 0),
            numbers(form, 1),
            silence.clone(),
            silence,
            numbers(form, 4),
            numbers(form, 0), // the next capture follows at once
        ]
        .concat();
        let both = played(&mut source, 1, 2 * round.len());
        assert_eq!(both[..round.len()], round);
        assert_eq!(both[round.len()..], round);
    }

    #[test]
    fn sixteen_bits_are_as_loud() {
        let kept = file("narrow.spn", 0x00, 0, &[0]);
        let mut source = open(&kept.0).unwrap();
        let expected: Vec<i32> = numbers(Form::LARGE_16, 0).iter().map(|number| number * 256).collect();
        assert_eq!(played(&mut source, 1, expected.len()), expected);
    }

    #[test]
    fn of_two_channels_the_first_on_one() {
        let kept = file("two.spn", 0xC0, 1, &[0, 2]);
        let mut source = open(&kept.0).unwrap();
        let whole = numbers(Form::SMALL_24, 0);
        let first: Vec<i32> = whole.chunks(4).flat_map(|frame| frame[..2].to_vec()).collect();
        assert_eq!(played(&mut source, 1, first.len()), first);
        assert_eq!(played(&mut source, 1, first.len()), vec![0; first.len()]);
        source.start(&settings(), 200_000.0);
        assert_eq!(played(&mut source, 2, whole.len()), whole);
    }

    #[test]
    fn a_broken_end_is_left_out() {
        let form = Form::SMALL_24;
        for rest in [packet(form, 1)[..100].to_vec(), packet(Form::LARGE_24, 1), vec![0; 388]] {
            let kept = Kept::new("broken.spn", &[head_bytes(0x80, 1), packet(form, 0), rest].concat());
            let mut source = open(&kept.0).unwrap();
            let expected = [numbers(form, 0), numbers(form, 0), numbers(form, 0)].concat();
            assert_eq!(played(&mut source, 1, expected.len()), expected);
        }
    }

    #[test]
    fn what_is_no_capture_is_refused() {
        let form = Form::SMALL_24;
        for (name, bytes, word) in [
            ("empty.spn", vec![], "code 40"),
            ("text.spn", b"a text that is longer than any head".to_vec(), "code 40"),
            ("version.spn", b"SPN\x03\0aaaaaaaaaaaaaaaaaaaaaaaaaa".to_vec(), "code 41"),
            ("bare.spn", head_bytes(0x80, 1), "no samples"),
            ("half.spn", [head_bytes(0x80, 1), packet(form, 0)[..387].to_vec()].concat(), "387 bytes of 388"),
            ("other.spn", [head_bytes(0x80, 0), packet(form, 0).repeat(4)].concat(), "code 30"),
            ("late.spn", [head_bytes(0x80, 1), packet(form, 3)].concat(), "code 31"),
        ] {
            let kept = Kept::new(name, &bytes);
            let why = open(&kept.0).err().unwrap_or_default();
            assert!(why.contains(word), "{name}: {why:?}");
        }
    }

    #[test]
    fn a_file_that_shrinks_is_silent() {
        let kept = file("shrinks.spn", 0x80, 1, &[0]);
        let mut source = open(&kept.0).unwrap();
        File::options().write(true).open(&kept.0).unwrap().set_len(30).unwrap();
        assert_eq!(played(&mut source, 1, 512), vec![0; 512]);
    }

    #[test]
    fn another_d_is_told() {
        let kept = file("rate.spn", 0x80, 1, &[0]);
        let tape = CaptureTape::of(library(), File::open(&kept.0).unwrap()).unwrap();
        let mut other = settings();
        assert_eq!(tape.differs(&other, 0.0), None);
        other.divisor = 10;
        assert!(tape.differs(&other, 0.0).is_some_and(|words| words.contains("D = 100") && words.contains("D = 10")));
    }
}
