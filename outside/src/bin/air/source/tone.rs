//! Tones at radio frequencies: what a channel hears of them follows from where it is tuned and how its gain is set.

use std::f64::consts::TAU;

use outside::station::{Channel, Settings};

use super::{Source, Tuned, GREATEST, LEAST, PAIR};

/// A tone on the air.
#[derive(Clone, Copy, Debug, PartialEq)]
pub struct Tone {
    /// its radio frequency
    pub hertz: f64,
    /// dB of full scale at gain 0
    pub level: f64,
}

/// Turns in a whole phase: a phase is a 2^64th of a turn, so that it wraps by itself and no error adds up, however long a
/// capture is.
const TURN: f64 = 18_446_744_073_709_551_616.0;

pub struct Tones {
    tones: Vec<Tone>,
    /// of each channel, of each tone
    rotors: Vec<Vec<Rotor>>,
    /// the sum of a packet's tones, kept to save making it anew
    sum: Vec<f64>,
}

impl Tones {
    pub fn new(tones: Vec<Tone>) -> Self {
        Tones { tones, rotors: vec![], sum: vec![] }
    }
}

impl Source for Tones {
    /// Each capture begins at the same phase, so that it can be had again.
    fn start(&mut self, _settings: &Settings, _rate: f64) {
        self.rotors.clear();
    }

    fn fill(&mut self, tuned: &Tuned, numbers: &mut [i32]) {
        let count = tuned.channels.len();
        self.rotors.resize_with(count, || vec![Rotor::default(); self.tones.len()]);
        self.sum.clear();
        self.sum.resize(numbers.len(), 0.0);
        for (place, (channel, rotors)) in tuned.channels.iter().zip(&mut self.rotors).enumerate() {
            for (tone, rotor) in self.tones.iter().zip(rotors) {
                rotor.tune(*tone, channel, tuned.rate);
                rotor.add(&mut self.sum, place, count);
            }
        }
        for (number, sum) in numbers.iter_mut().zip(&self.sum) {
            *number = held(*sum);
        }
    }
}

/// To the nearest whole number, and held at 24 bits. (`f64::round` is a call, where a processor may lack it.)
fn held(sum: f64) -> i32 {
    ((sum + 0.5_f64.copysign(sum)) as i32).clamp(LEAST, GREATEST)
}

/// One tone as one channel hears it.
#[derive(Clone, Default)]
struct Rotor {
    /// what the rest was made for
    offset: f64,
    rate: f64,
    gain: i8,
    /// 0 where it is not heard
    amplitude: f64,
    /// how far the phase turns with each sample, and the same as a complex number
    step: u64,
    turn: (f64, f64),
    /// of the next sample
    phase: u64,
}

impl Rotor {
    /// Follows the channel. The phase goes on from where it is.
    fn tune(&mut self, tone: Tone, channel: &Channel, rate: f64) {
        let offset = tone.hertz - channel.frequency as f64;
        if (offset, rate, channel.gain) == (self.offset, self.rate, self.gain) {
            return;
        }
        let heard = offset.abs() < rate / 2.0;
        let level = tone.level + f64::from(channel.gain);
        let turns = if heard { offset / rate } else { 0.0 };
        *self = Rotor {
            offset,
            rate,
            gain: channel.gain,
            amplitude: if heard { f64::from(GREATEST) * 10_f64.powf(level / 20.0) } else { 0.0 },
            // below half a turn, so that it fits; one backwards wraps to the same place
            step: (turns * TURN) as i64 as u64,
            turn: cos_sin(turns * TAU),
            phase: self.phase,
        };
    }

    /// Adds the next samples to those of its channel, which stands at `place` of `count`.
    fn add(&mut self, sum: &mut [f64], place: usize, count: usize) {
        if self.amplitude == 0.0 {
            return;
        }
        let (cos, sin) = cos_sin(self.phase as i64 as f64 / TURN * TAU);
        let (mut i, mut q) = (self.amplitude * cos, self.amplitude * sin);
        let (c, s) = self.turn;
        let mut pairs = 0;
        for frame in sum.chunks_exact_mut(PAIR * count) {
            // I + jQ turns forwards where the tone is above the channel's frequency
            if let [first, second] = &mut frame[PAIR * place..PAIR * place + PAIR] {
                *first += i;
                *second += q;
            }
            (i, q) = (i * c - q * s, i * s + q * c);
            pairs += 1;
        }
        self.phase = self.phase.wrapping_add(self.step.wrapping_mul(pairs));
    }
}

fn cos_sin(angle: f64) -> (f64, f64) {
    let (sin, cos) = angle.sin_cos();
    (cos, sin)
}

#[cfg(test)]
mod tests {
    use super::super::looped::tests::settings;
    use super::*;

    const RATE: f64 = 2_000_000.0;

    fn channel(frequency: u64, gain: i8) -> Channel {
        Channel { frequency, word: 0, gain }
    }

    /// How loud a frequency is in numbers of one channel, as a part of full scale.
    fn level(pairs: &[(f64, f64)], hertz: f64, rate: f64) -> f64 {
        let (mut i, mut q) = (0.0, 0.0);
        for (n, (a, b)) in pairs.iter().enumerate() {
            let (c, s) = cos_sin(-TAU * (hertz / rate * n as f64).fract());
            i += a * c - b * s;
            q += a * s + b * c;
        }
        i.hypot(q) / pairs.len() as f64 / f64::from(GREATEST)
    }

    fn decibels(part: f64) -> f64 {
        20.0 * part.log10()
    }

    /// So many pairs of each channel, asked for by packets.
    fn heard(source: &mut Tones, channels: &[Channel], rate: f64, count: usize) -> Vec<Vec<(f64, f64)>> {
        let mut heard = vec![vec![]; channels.len()];
        while heard[0].len() < count {
            let mut numbers = vec![0; 128];
            source.fill(&Tuned { channels, rate }, &mut numbers);
            for frame in numbers.chunks(PAIR * channels.len()) {
                for (pair, heard) in frame.chunks(PAIR).zip(&mut heard) {
                    heard.push((f64::from(pair[0]), f64::from(pair[1])));
                }
            }
        }
        heard
    }

    #[test]
    fn a_tone_is_where_it_should_be_and_as_loud() {
        let tone = Tone { hertz: 14_100_000.0, level: -20.0 };
        for (frequency, gain, hertz) in [(14_000_000, 0, 100_000.0), (14_300_000, -10, -200_000.0)] {
            let channels = [channel(frequency, gain)];
            let pairs = &heard(&mut Tones::new(vec![tone]), &channels, RATE, 20_000)[0];
            let expected = -20.0 + f64::from(gain);
            assert!((decibels(level(pairs, hertz, RATE)) - expected).abs() < 0.001);
            assert!(decibels(level(pairs, -hertz, RATE)) < -100.0, "nothing on the other side");
        }
    }

    #[test]
    fn two_channels_hear_what_each_is_tuned_to() {
        let tones = vec![Tone { hertz: 7_050_000.0, level: -6.0 }, Tone { hertz: 14_010_000.0, level: -40.0 }];
        let channels = [channel(7_000_000, 0), channel(14_000_000, -30)];
        let both = heard(&mut Tones::new(tones), &channels, 200_000.0, 20_000);
        assert!((decibels(level(&both[0], 50_000.0, 200_000.0)) + 6.0).abs() < 0.001);
        assert!((decibels(level(&both[1], 10_000.0, 200_000.0)) + 70.0).abs() < 0.001);
        assert!(decibels(level(&both[0], 10_000.0, 200_000.0)) < -120.0);
    }

    #[test]
    fn out_of_band_is_silence_and_too_much_is_held() {
        let tones = vec![Tone { hertz: 15_000_000.0, level: 0.0 }; 3];
        let outside = heard(&mut Tones::new(tones.clone()), &[channel(14_000_000, 0)], RATE, 128);
        assert!(outside[0].iter().all(|&pair| pair == (0.0, 0.0)));
        let held = heard(&mut Tones::new(tones), &[channel(15_000_000, 0)], RATE, 128);
        assert!(held[0].iter().all(|&pair| pair == (f64::from(GREATEST), 0.0)));
    }

    #[test]
    fn tuning_moves_it_without_a_jump() {
        let mut source = Tones::new(vec![Tone { hertz: 14_001_000.0, level: -20.0 }]);
        let before = heard(&mut source, &[channel(14_000_000, 0)], RATE, 6400);
        let after = heard(&mut source, &[channel(14_000_500, 0)], RATE, 6400);
        let (last, first) = (before[0][before[0].len() - 1], after[0][0]);
        let jump = (first.0 - last.0).hypot(first.1 - last.1) / 838_860.7;
        assert!((jump - TAU * 1000.0 / RATE).abs() < 1e-4, "{jump}");
        assert!((decibels(level(&after[0], 500.0, RATE)) + 20.0).abs() < 2.0);
    }

    /// What a rotor has after hours is what it has by one sum from the start.
    #[test]
    fn no_error_adds_up() {
        let mut rotor = Rotor::default();
        let tone = Tone { hertz: 14_123_456.789, level: 0.0 };
        rotor.tune(tone, &channel(14_000_000, 0), RATE);
        let mut none = vec![0.0; 128];
        let packets = 1_000_000_u64;
        for _ in 0..packets {
            rotor.phase = rotor.phase.wrapping_add(rotor.step.wrapping_mul(64));
        }
        let samples = packets * 64;
        assert_eq!(rotor.phase, rotor.step.wrapping_mul(samples));
        rotor.add(&mut none, 0, 1);
        let angle = (rotor.step.wrapping_mul(samples) as i64 as f64) / TURN * TAU;
        assert!((none[0] / f64::from(GREATEST) - angle.cos()).abs() < 1e-9);
        // and the step itself is right to less than a thousandth of a turn in ten hours
        let error = (rotor.step as f64 / TURN - 123_456.789 / RATE).abs() * RATE * 36_000.0;
        assert!(error < 1e-3, "{error}");
    }

    #[test]
    fn each_capture_begins_alike() {
        let mut source = Tones::new(vec![Tone { hertz: 14_001_000.0, level: -20.0 }]);
        let channels = [channel(14_000_000, 0)];
        let first = heard(&mut source, &channels, RATE, 1000);
        assert_ne!(heard(&mut source, &channels, RATE, 1000), first);
        source.start(&settings(), RATE);
        assert_eq!(heard(&mut source, &channels, RATE, 1000), first);
    }

    #[test]
    fn rounding() {
        for (sum, number) in [(0.4, 0), (0.5, 1), (-0.5, -1), (-0.4, 0), (1e9, GREATEST), (-1e12, LEAST)] {
            assert_eq!(held(sum), number);
        }
    }
}
