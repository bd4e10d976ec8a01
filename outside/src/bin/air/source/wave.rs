//! A WAVE file of two channels: I on the left, Q on the right.

use std::fs::File;
use std::io::{self, BufReader, Read, Seek, SeekFrom};

use outside::station::Settings;

use super::looped::{read_full, Break, Tape};
use super::{BITS, PAIR};

/// How a fmt chunk names PCM, and a chunk that has the true name further on.
const PCM: u16 = 1;
const EXTENSIBLE: u16 = 0xFFFE;

/// The bytes of a fmt chunk that count here: those of PCM, and of an extensible one, whose last 16 name the format.
const SHORT: usize = 16;
const LONG: usize = 40;
const PCM_NAME: [u8; 16] = *b"\x01\0\0\0\0\0\x10\0\x80\0\0\xAA\0\x38\x9B\x71";

/// Read ahead so many bytes, and so many pairs at a time.
const AHEAD: usize = 1 << 18;
const PAIRS: u64 = 1024;

pub struct WaveTape {
    file: BufReader<File>,
    format: Format,
    /// where the samples begin, how many pairs there are, and how many are left in this round
    begins: u64,
    pairs: u64,
    left: u64,
    bytes: Vec<u8>,
}

#[derive(Clone, Copy, Debug, PartialEq, Eq)]
struct Format {
    /// samples a second
    rate: u32,
    bits: u64,
}

impl Format {
    /// Of the bytes of a fmt chunk.
    fn of(chunk: &[u8]) -> Result<Format, String> {
        let Some(short) = chunk.first_chunk::<SHORT>() else { return Err("its fmt chunk is too short".into()) };
        let word = |at: usize| u16::from_le_bytes([short[at], short[at + 1]]);
        let (tag, channels, block, bits) = (word(0), word(2), word(12), word(14));
        let rate = u32::from_le_bytes([short[4], short[5], short[6], short[7]]);
        let is_pcm = tag == PCM || tag == EXTENSIBLE && chunk.get(LONG - PCM_NAME.len()..LONG) == Some(&PCM_NAME);
        if !is_pcm {
            return Err(format!("it is not PCM (format {tag})"));
        }
        if channels != 2 {
            return Err(format!("it has {channels} channels, and not two, I and Q"));
        }
        if !matches!(bits, 16 | 24) || u64::from(block) != 2 * u64::from(bits) / 8 {
            return Err(format!("its samples have {bits} bits in pairs of {block} bytes, and not 16 in 4 or 24 in 6"));
        }
        Ok(Format { rate, bits: bits.into() })
    }

    fn bytes_of_pair(self) -> u64 {
        PAIR as u64 * self.bits / 8
    }
}

impl WaveTape {
    /// Walks a file's chunks to its samples, or says why they are none.
    pub fn of(file: File) -> Result<Self, String> {
        let length = file.metadata().map_err(|error| error.to_string())?.len();
        let mut file = BufReader::with_capacity(AHEAD, file);
        let end = riff_end(&mut file, length)?;
        let (format, begins, size) = find_samples(&mut file, end)?;
        let pairs = size / format.bytes_of_pair();
        let mut tape = WaveTape { file, format, begins, pairs, left: 0, bytes: vec![] };
        tape.rewind().map_err(|error| error.to_string())?;
        Ok(tape)
    }
}

/// Where the RIFF chunk ends, which has to be the whole of a WAVE file.
fn riff_end(file: &mut impl Read, length: u64) -> Result<u64, String> {
    let mut front = [0; 12];
    let count = read_full(file, &mut front).map_err(|error| error.to_string())?;
    let [b'R', b'I', b'F', b'F', s0, s1, s2, s3, b'W', b'A', b'V', b'E'] = front else {
        return Err("it is no RIFF WAVE file".into());
    };
    let end = 8 + u64::from(u32::from_le_bytes([s0, s1, s2, s3]));
    if count < front.len() || end > length {
        return Err(format!("it is to have {end} bytes and has {length}"));
    }
    Ok(end)
}

/// The format, where the samples begin, and how many bytes they have.
fn find_samples(file: &mut (impl Read + Seek), end: u64) -> Result<(Format, u64, u64), String> {
    let mut format = None;
    let mut at = 12;
    while at + 8 <= end {
        let mut front = [0; 8];
        read_at(file, at, &mut front)?;
        let [n0, n1, n2, n3, s0, s1, s2, s3] = front;
        let size = u64::from(u32::from_le_bytes([s0, s1, s2, s3]));
        at += 8;
        if at + size > end {
            let name = String::from_utf8_lossy(&[n0, n1, n2, n3]).into_owned();
            return Err(format!("its chunk {name:?} is to have {size} bytes and has {}", end - at));
        }
        match ([n0, n1, n2, n3], format) {
            ([b'f', b'm', b't', b' '], _) => {
                let mut chunk = vec![0; size.min(LONG as u64) as usize];
                read_at(file, at, &mut chunk)?;
                format = Some(Format::of(&chunk)?);
            }
            ([b'd', b'a', b't', b'a'], Some(format)) => return Ok((format, at, size)),
            ([b'd', b'a', b't', b'a'], None) => return Err("its samples come before their format".into()),
            _ => {}
        }
        // chunks begin at even bytes
        at += size + size % 2;
    }
    Err("it has no data chunk".into())
}

fn read_at(file: &mut (impl Read + Seek), at: u64, buffer: &mut [u8]) -> Result<(), String> {
    file.seek(SeekFrom::Start(at)).and_then(|_| file.read_exact(buffer)).map_err(|error| error.to_string())
}

impl Tape for WaveTape {
    fn channels(&self) -> usize {
        1
    }

    fn differs(&self, _settings: &Settings, rate: f64) -> Option<String> {
        let made = self.format.rate;
        let differs = (f64::from(made) - rate).abs() > 1.0;
        differs.then(|| format!("it was made at {made} samples a second, the box plays it at {rate:.0}"))
    }

    fn rewind(&mut self) -> io::Result<()> {
        self.left = self.pairs;
        self.file.seek(SeekFrom::Start(self.begins)).map(|_| ())
    }

    fn next(&mut self, block: &mut Vec<i32>) -> Result<Option<u64>, Break> {
        if self.left == 0 {
            return Ok(None);
        }
        let pair = self.format.bytes_of_pair() as usize;
        self.bytes.resize(self.left.min(PAIRS) as usize * pair, 0);
        let count = read_full(&mut self.file, &mut self.bytes)?;
        let pairs = count / pair;
        if pairs == 0 {
            return Err(Break::Round("it has become shorter".into()));
        }
        self.left -= pairs as u64;
        put_numbers(&self.bytes[..pairs * pair], self.format.bits, block);
        Ok(Some(0))
    }
}

/// The numbers of samples of 16 or 24 bits, as wide as the box takes them.
fn put_numbers(bytes: &[u8], bits: u64, block: &mut Vec<i32>) {
    if bits == BITS {
        block.extend(bytes.as_chunks::<3>().0.iter().map(|&[a, b, c]| i32::from_le_bytes([0, a, b, c]) >> 8));
    } else {
        let wider = BITS - bits;
        block.extend(bytes.as_chunks::<2>().0.iter().map(|&two| i32::from(i16::from_le_bytes(two)) << wider));
    }
}

#[cfg(test)]
mod tests {
    use super::super::looped::tests::{played, Kept};
    use super::super::looped::Looped;
    use super::*;

    fn chunk(name: &[u8; 4], body: &[u8]) -> Vec<u8> {
        let mut bytes = [name, &(body.len() as u32).to_le_bytes()[..], body].concat();
        if body.len() % 2 == 1 {
            bytes.push(0xEE);
        }
        bytes
    }

    fn riff(chunks: &[Vec<u8>]) -> Vec<u8> {
        let body = [b"WAVE".to_vec(), chunks.concat()].concat();
        [b"RIFF".to_vec(), (body.len() as u32).to_le_bytes().to_vec(), body].concat()
    }

    fn fmt(tag: u16, channels: u16, bits: u16) -> Vec<u8> {
        let block = channels * (bits / 8);
        let rate = 200_000u32;
        let mut body = [tag.to_le_bytes(), channels.to_le_bytes()].concat();
        body.extend(rate.to_le_bytes());
        body.extend((rate * u32::from(block)).to_le_bytes());
        body.extend([block.to_le_bytes(), bits.to_le_bytes()].concat());
        body
    }

    fn extensible(bits: u16, name: [u8; 16]) -> Vec<u8> {
        let mut body = fmt(EXTENSIBLE, 2, bits);
        body.extend([22, 0, bits as u8, 0, 3, 0, 0, 0]);
        body.extend(name);
        body
    }

    fn open(name: &str, bytes: &[u8]) -> Result<Looped<WaveTape>, String> {
        let kept = Kept::new(name, bytes);
        Looped::open(&kept.0, WaveTape::of)
    }

    #[test]
    fn sixteen_and_twenty_four_bits() {
        let samples: Vec<u8> = [1i16, -2, 32_767, -32_768].iter().flat_map(|number| number.to_le_bytes()).collect();
        let bytes = riff(&[chunk(b"fmt ", &fmt(PCM, 2, 16)), chunk(b"data", &samples)]);
        let mut source = open("16.wav", &bytes).unwrap();
        let round = [256, -512, 32_767 * 256, -8_388_608];
        assert_eq!(played(&mut source, 1, 10), [round, round, [256, -512, 0, 0]].concat()[..10]);
        let samples = [1, 0, 0, 0xFF, 0xFF, 0xFF, 0xFF, 0xFF, 0x7F, 0, 0, 0x80];
        let bytes = riff(&[chunk(b"fmt ", &fmt(PCM, 2, 24)), chunk(b"data", &samples)]);
        let mut source = open("24.wav", &bytes).unwrap();
        assert_eq!(played(&mut source, 1, 4), [1, -1, 8_388_607, -8_388_608]);
        assert_eq!(played(&mut source, 2, 8), [1, -1, 1, -1, 8_388_607, -8_388_608, 8_388_607, -8_388_608]);
    }

    #[test]
    fn other_chunks_odd_ones_and_long_formats() {
        let chunks = [
            chunk(b"LIST", b"odd"),
            chunk(b"fmt ", &extensible(16, PCM_NAME)),
            chunk(b"auxi", &[0; 164]),
            chunk(b"data", &[1, 0, 2, 0, 9]),
            chunk(b"id3 ", b"x"),
        ];
        let mut source = open("odd.wav", &riff(&chunks)).unwrap();
        assert_eq!(played(&mut source, 1, 4), [256, 512, 256, 512]);
    }

    #[test]
    fn a_long_one_is_played_to_its_end() {
        let numbers: Vec<i16> = (0..5001).flat_map(|number| [number, -number]).collect();
        let samples: Vec<u8> = numbers.iter().flat_map(|number| number.to_le_bytes()).collect();
        let bytes = riff(&[chunk(b"fmt ", &fmt(PCM, 2, 16)), chunk(b"data", &samples)]);
        let mut source = open("long.wav", &bytes).unwrap();
        let expected: Vec<i32> = numbers.iter().map(|&number| i32::from(number) * 256).collect();
        assert_eq!(played(&mut source, 1, 20_004), [&expected[..], &expected[..]].concat());
    }

    #[test]
    fn what_is_no_wave_is_refused() {
        let data = chunk(b"data", &[0; 12]);
        let good = riff(&[chunk(b"fmt ", &fmt(PCM, 2, 16)), data.clone()]);
        let mut long = good.clone();
        long[40] = 200;
        let mut float = PCM_NAME;
        float[0] = 3;
        let with = |body: &[u8]| riff(&[chunk(b"fmt ", body), data.clone()]);
        for (name, bytes, word) in [
            ("no.wav", vec![], "no RIFF WAVE"),
            ("rf64.wav", [b"RF64", &good[4..]].concat(), "no RIFF WAVE"),
            ("cut.wav", good[..good.len() - 1].to_vec(), "is to have 56 bytes and has 55"),
            ("short.wav", b"RIFF\x04\0\0\0WAVE".to_vec(), "no data chunk"),
            ("chunk.wav", long, "\"data\" is to have 200 bytes and has 12"),
            ("before.wav", riff(&[data.clone(), chunk(b"fmt ", &fmt(PCM, 2, 16))]), "before their format"),
            ("none.wav", riff(&[chunk(b"fmt ", &fmt(PCM, 2, 16))]), "no data chunk"),
            ("empty.wav", riff(&[chunk(b"fmt ", &fmt(PCM, 2, 16)), chunk(b"data", &[0; 3])]), "no samples"),
            ("stub.wav", with(&fmt(PCM, 2, 16)[..15]), "too short"),
            ("mono.wav", with(&fmt(PCM, 1, 16)), "1 channels"),
            ("eight.wav", with(&fmt(PCM, 2, 8)), "8 bits"),
            ("wide.wav", with(&fmt(PCM, 2, 32)), "32 bits"),
            ("float.wav", with(&fmt(3, 2, 16)), "not PCM (format 3)"),
            ("named.wav", with(&extensible(24, float)), "not PCM"),
            ("half.wav", with(&fmt(EXTENSIBLE, 2, 16)), "not PCM"),
        ] {
            let why = open(name, &bytes).err().unwrap_or_default();
            assert!(why.contains(word), "{name}: {why:?}");
        }
    }

    #[test]
    fn one_that_shrinks_is_silent() {
        let samples = [1; 4000];
        let kept = Kept::new("shrinks.wav", &riff(&[chunk(b"fmt ", &fmt(PCM, 2, 16)), chunk(b"data", &samples)]));
        let mut source = Looped::open(&kept.0, WaveTape::of).unwrap();
        File::options().write(true).open(&kept.0).unwrap().set_len(44).unwrap();
        assert_eq!(played(&mut source, 1, 512), vec![0; 512]);
    }
}
