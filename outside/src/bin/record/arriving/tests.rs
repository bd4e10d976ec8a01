//! Simulated arrivals: a box that sends in its own time, a network that loses, repeats, swaps and delays, and a recorder that
//! stalls. What has to come out is known, since the box knows each packet's position.

use super::*;
use outside::boundary::Plain;
use outside::item::{MODE_16, MODE_24, SETUP_DUAL, SETUP_SINGLE, SIZE_LARGE, SIZE_SMALL};
use outside::random::Random;
use outside::{packet, Form};

const TURN: u64 = 65_535;
const USUAL_CLOCK: u32 = 80_000_000;

static PLAIN: Plain = Plain;

/// A box, what it sends, and what becomes of it.
struct Scene {
    arriving: Arriving,
    form: Form,
    bytes: Vec<u8>,
    /// seconds from one packet to the next by the box's own clock, and by ours where the box's is off
    each: f64,
    /// when packet 0 leaves
    starts: f64,
    /// positions written
    written: Vec<u64>,
    late: u64,
    stray: u64,
    ended: Option<Why>,
}

fn scene(divisor: u32, mode: u8, size: u8, setup: u8) -> Scene {
    let (_, head_mode) = PLAIN.head_mode(mode, setup);
    let (code, shape) = PLAIN.shape(head_mode, size);
    assert_eq!(code, DONE);
    let terms = Terms { shape, divisor, clock: USUAL_CLOCK };
    let form = Form::of_settings(mode, size);
    Scene {
        arriving: Arriving::new(&PLAIN, terms).expect("a reader"),
        form,
        bytes: vec![0; form.total()],
        each: shape.pairs as f64 * 4.0 * f64::from(divisor) / f64::from(USUAL_CLOCK),
        starts: 0.003,
        written: Vec::new(),
        late: 0,
        stray: 0,
        ended: None,
    }
}

/// 31,250 packets a second, the fastest with one channel: a turn takes 2.1 seconds.
fn fast() -> Scene {
    scene(10, MODE_24, SIZE_SMALL, SETUP_SINGLE)
}

/// 62,500 packets a second.
fn fastest() -> Scene {
    scene(10, MODE_24, SIZE_SMALL, SETUP_DUAL)
}

/// 125 packets a second.
fn slow() -> Scene {
    scene(625, MODE_16, SIZE_LARGE, SETUP_SINGLE)
}

impl Scene {
    /// The box's clock is off by a part.
    fn with_clock_off(mut self, part: f64) -> Self {
        self.each *= 1.0 + part;
        self
    }

    /// When the box sends the packet at a position.
    fn sent(&self, position: u64) -> f64 {
        self.starts + (position + 1) as f64 * self.each
    }

    fn judge(&mut self, position: u64, from_box: bool, at: f64) -> Verdict {
        let samples = vec![0; self.form.samples()];
        packet::write(self.form, position, &samples, &mut self.bytes);
        self.arriving.judge(&self.bytes, from_box, Duration::from_secs_f64(at))
    }

    /// The packet at a position is read by the recorder at a time.
    fn read(&mut self, position: u64, at: f64) -> Verdict {
        assert_eq!(self.ended, None, "a recording that has ended, at position {position}");
        let verdict = self.judge(position, true, at);
        match verdict {
            Verdict::Write => self.written.push(position),
            Verdict::Late => self.late += 1,
            Verdict::Stray => self.stray += 1,
            Verdict::End(why) => self.ended = Some(why),
        }
        verdict
    }

    /// The packets at these positions arrive, each at once.
    fn at_once(&mut self, positions: impl IntoIterator<Item = u64>) {
        for position in positions {
            let verdict = self.read(position, self.sent(position) + 0.000_2);
            assert_eq!(verdict, Verdict::Write, "position {position}");
        }
    }

    /// A packet arrives again, or for the first time, when the box has reached another position.
    fn late_at(&mut self, position: u64, reached: u64) {
        let verdict = self.read(position, self.sent(reached) + 0.000_3);
        assert_eq!(verdict, Verdict::Late, "position {position} when {reached} was sent");
    }

    /// What is written has the positions that the library reads from it, and what is not is missed.
    fn is_sound(&self) {
        assert_eq!(self.ended, None);
        assert!(self.written.is_sorted_by(|a, b| a < b), "written in order");
        let mut reader = [0; READER_BYTES];
        assert_eq!(PLAIN.silent(self.arriving.terms.shape.channels, &mut reader), DONE);
        let (mut bytes, samples) = (vec![0; self.form.total()], vec![0; self.form.samples()]);
        let mut total = 0;
        for &position in &self.written {
            packet::write(self.form, position, &samples, &mut bytes);
            let (code, place) = PLAIN.read(&mut reader, &bytes);
            assert_eq!((code, place.position), (DONE, position));
            total = place.total;
        }
        assert_eq!(self.arriving.missed(), total);
        let covered = self.written.last().map_or(0, |last| last + 1);
        assert_eq!(total + self.written.len() as u64, covered);
    }
}

#[test]
fn all_in_order() {
    for mut scene in [fast(), fastest(), slow(), scene(11, MODE_16, SIZE_SMALL, SETUP_DUAL)] {
        scene.at_once(0..3 * TURN);
        scene.is_sound();
        assert_eq!((scene.late, scene.stray), (0, 0));
        assert_eq!(scene.arriving.missed(), 0);
    }
}

#[test]
fn nothing_before_the_first() {
    let mut scene = fast();
    for position in 1..100 {
        assert_eq!(scene.read(position, scene.sent(position)), Verdict::Stray);
    }
    assert!(!scene.arriving.has_begun());
    // the first was swapped with the one behind it
    assert_eq!(scene.read(0, scene.sent(100)), Verdict::Write);
    assert!(scene.arriving.has_begun());
}

#[test]
fn strays() {
    let mut scene = fast();
    scene.at_once(0..10);
    assert_eq!(scene.judge(10, false, scene.sent(10)), Verdict::Stray);
    let at = Duration::from_secs_f64(scene.sent(10));
    let whole = scene.bytes.clone();
    let mut long = whole.clone();
    long.push(0);
    let mut other_header = whole.clone();
    other_header[1] ^= 0x20;
    let mut other_form = vec![0; Form::SMALL_16.total()];
    packet::write(Form::SMALL_16, 10, &vec![0; Form::SMALL_16.samples()], &mut other_form);
    for bytes in [&[][..], &whole[..4], &whole[..whole.len() - 1], &long, &other_header, &other_form] {
        assert_eq!(scene.arriving.judge(bytes, true, at), Verdict::Stray);
    }
    scene.at_once(10..20);
    scene.is_sound();
}

#[test]
fn losses_of_fewer_than_a_turn() {
    for lost in [1, 2, 100, 5_000, 40_000, 65_000, 65_533, 65_534] {
        for before in [1, 2, 1_000, 65_534, 65_535, 65_536, 200_000] {
            for mut scene in [fast(), fastest(), slow()] {
                scene.at_once(0..before);
                scene.at_once(before + lost..before + lost + 1_000);
                scene.is_sound();
                assert_eq!((scene.arriving.missed(), scene.late), (lost, 0), "{lost} lost behind {before}");
            }
        }
    }
}

#[test]
fn losses_again_and_again() {
    let mut scene = fast();
    let mut random = Random::new(24);
    scene.at_once([0]);
    let mut position = 0;
    while position < 20 * TURN {
        position += random.within(1, 65_535);
        scene.at_once([position]);
    }
    scene.is_sound();
}

#[test]
fn a_turn_or_more_lost_ends_it() {
    for lost in [65_535, 65_536, 70_000, 100_000, 130_000, 131_070, 400_000] {
        for mut scene in [fast(), fastest(), slow()] {
            scene.at_once(0..1_000);
            let position = 1_000 + lost;
            assert_eq!(scene.read(position, scene.sent(position) + 0.000_2), Verdict::End(Why::TurnLost), "{lost}");
        }
    }
}

#[test]
fn repeats_right_behind() {
    for mut scene in [fast(), fastest(), slow()] {
        for position in 0..TURN + 5_000 {
            scene.at_once([position]);
            if position % 7 == 0 {
                scene.late_at(position, position);
            }
            if position % 1_000 == 0 {
                scene.late_at(position, position);
            }
        }
        scene.is_sound();
        assert_eq!(scene.arriving.missed(), 0);
    }
}

#[test]
fn repeats_seconds_later() {
    for seconds in [0.1, 0.5, 0.9, 1.0, 1.5, 1.95, 3.0, 4.0, 5.0, 7.5, 10.0] {
        let mut scene = fast();
        let behind = (seconds / scene.each) as u64;
        for position in 0..10 * TURN {
            scene.at_once([position]);
            if position % 5_000 == 4_999 && position > behind {
                scene.late_at(position - behind, position);
            }
        }
        scene.is_sound();
        assert!(scene.late > 50, "{seconds}");
    }
}

#[test]
fn the_first_repeated() {
    let mut scene = fast();
    scene.at_once([0]);
    scene.late_at(0, 0);
    scene.at_once(1..100);
    scene.late_at(0, 100);
    scene.at_once(100..30_000);
    scene.late_at(0, 30_000);
    scene.at_once(30_000..32_000);
    assert_eq!(scene.read(0, scene.sent(32_000)), Verdict::End(Why::BegunAgain));
}

#[test]
fn swaps() {
    for mut scene in [fast(), fastest(), slow()] {
        scene.at_once(0..50);
        // every third packet behind the one that follows it, across the turn of the number
        let swapped = (50..TURN + 50).step_by(3);
        let count = swapped.clone().count() as u64;
        for first in swapped {
            scene.at_once([first + 1]);
            scene.late_at(first, first + 1);
            scene.at_once([first + 2]);
        }
        scene.is_sound();
        assert_eq!((scene.late, scene.arriving.missed()), (count, count));
    }
}

#[test]
fn late_by_a_few_to_thousands() {
    for behind in [1, 2, 10, 100, 1_000, 5_000, 20_000, 60_000] {
        for mut scene in [fast(), fastest(), slow()] {
            let mut held = 0;
            for position in 0..4 * TURN {
                // every thousandth is held back
                if position % 1_000 == 999 {
                    held += 1;
                } else {
                    scene.at_once([position]);
                }
                if position >= behind && (position - behind) % 1_000 == 999 {
                    scene.late_at(position - behind, position);
                }
            }
            scene.is_sound();
            assert_eq!(scene.arriving.missed(), held, "late by {behind}");
            assert!(scene.late > 0 && scene.late <= held);
        }
    }
}

#[test]
fn a_burst_of_late_ones() {
    let mut scene = fast();
    scene.at_once(0..10_000);
    scene.at_once(15_000..20_000);
    for position in 10_000..15_000 {
        scene.late_at(position, 20_000);
    }
    scene.at_once(20_000..100_000);
    scene.is_sound();
    assert_eq!((scene.late, scene.arriving.missed()), (5_000, 5_000));
}

/// The recorder reads nothing from position `from` on for `seconds`; then the kernel's buffer, of so many packets, is read as
/// fast as can be, and what came meanwhile with it.
fn stall(scene: &mut Scene, from: u64, seconds: f64, buffer: u64) {
    let count = (seconds / scene.each) as u64;
    let mut now = scene.sent(from + count);
    let mut read = |scene: &mut Scene, position| {
        now = scene.sent(position).max(now + 0.000_001);
        assert_eq!(scene.read(position, now), Verdict::Write, "position {position} behind {from}");
    };
    for position in from..from + count.min(buffer) {
        read(scene, position);
    }
    for position in from + count..from + count + 1_000 {
        read(scene, position);
    }
}

#[test]
fn stalls() {
    for (seconds, buffer) in [(0.01, TURN), (0.5, TURN), (0.5, 1_000), (0.5, 1), (0.95, TURN), (0.95, 100)] {
        for before in [1, 2, 100, 31_250, 200_000, 400_000] {
            for mut scene in [fast(), fastest()] {
                scene.at_once(0..before);
                stall(&mut scene, before, seconds, buffer);
                scene.is_sound();
                let count = (seconds / scene.each) as u64;
                assert_eq!(scene.arriving.missed(), count.saturating_sub(buffer));
                let next = scene.written.last().map_or(0, |last| last + 1);
                scene.at_once(next + 50_000..next + 50_100);
                scene.is_sound();
            }
        }
    }
}

#[test]
fn stalls_at_the_start() {
    for (mut scene, seconds) in [(fast(), 0.5), (fastest(), 0.25), (slow(), 2.5)] {
        stall(&mut scene, 0, seconds, 100);
        scene.is_sound();
    }
}

#[test]
fn stalls_one_behind_the_other() {
    let mut scene = fast();
    scene.at_once(0..1_000);
    for _ in 0..40 {
        let next = scene.written.last().map_or(0, |last| last + 1);
        stall(&mut scene, next, 0.9, 5_000);
    }
    scene.is_sound();
}

#[test]
fn repeats_after_a_stall() {
    let mut scene = fast();
    scene.at_once(0..200_000);
    // half a second later the buffer gives out what came, each packet twice
    let now = scene.sent(215_625);
    for position in 200_000..215_625 {
        let at = now + (position - 200_000) as f64 * 0.000_002;
        assert_eq!(scene.read(position, at), Verdict::Write);
        assert_eq!(scene.read(position, at), Verdict::Late);
    }
    scene.is_sound();
}

#[test]
fn a_stall_of_a_turn_ends_it() {
    let mut scene = fast();
    scene.at_once(0..100_000);
    // of the packet next in the buffer it is not known whether a turn was lost before it
    assert_eq!(scene.read(100_000, scene.sent(100_000) + 2.1), Verdict::End(Why::TurnLost));
}

#[test]
fn clocks_that_are_off() {
    for part in [-0.001, -0.000_1, 0.000_1, 0.001] {
        for make in [fast, fastest, slow] {
            let mut scene = make().with_clock_off(part);
            scene.at_once(0..100);
            let mut random = Random::new(7);
            let mut position = 100;
            // over hundreds of turns: at 31,250 a second a third of an hour
            while position < 600 * TURN {
                position += random.within(1, 2_000);
                scene.at_once([position]);
                if random.once_in(100) {
                    scene.late_at(position - random.within(0, 5_000).min(position - 1), position);
                }
                if random.once_in(1_000) {
                    position += 40_000;
                }
            }
            scene.is_sound();
        }
    }
}

#[test]
fn jitter() {
    let mut random = Random::new(5);
    for mut scene in [fast(), fastest()] {
        scene.at_once([0]);
        let mut now = 0.0f64;
        for position in 1..20 * TURN {
            if random.once_in(3) {
                continue;
            }
            // a delay of up to 30 ms, in order
            let delay = random.below(30_000) as f64 / 1_000_000.0;
            now = now.max(scene.sent(position) + delay);
            assert_eq!(scene.read(position, now), Verdict::Write, "position {position}");
        }
        scene.is_sound();
    }
}

#[test]
fn a_path_that_grows_longer_and_shorter() {
    let mut scene = fast();
    scene.at_once(0..10_000);
    for position in 10_000..1_000_000 {
        assert_eq!(scene.read(position, scene.sent(position) + 0.2), Verdict::Write);
    }
    // shorter by 50 ms: the next ones overtake those that are on the longer way
    for position in 1_001_563..1_003_000 {
        assert_eq!(scene.read(position, scene.sent(position) + 0.15), Verdict::Write);
    }
    for position in 1_000_000..1_001_563 {
        assert_eq!(scene.read(position, scene.sent(1_003_000) + 0.15), Verdict::Late);
    }
    // by all the rest: in order, and so without a gap, however fast
    let now = scene.sent(1_010_000);
    for position in 1_003_000..1_010_000 {
        assert_eq!(scene.read(position, now), Verdict::Write);
    }
    scene.at_once(1_030_000..1_100_000);
    scene.is_sound();
}

#[test]
fn a_box_that_starts_late() {
    for starts in [0.1, 1.0, 2.5] {
        let mut scene = fast();
        scene.starts = starts;
        scene.at_once(0..2_000);
        scene.late_at(1_990, 2_000);
        scene.at_once(2_000 + 30_000..40_000);
        scene.late_at(2_010, 40_000);
        scene.is_sound();
    }
}

#[test]
fn another_capture_ends_it() {
    // its first packet was lost, and the numbers are lower than they were
    let mut scene = fast();
    scene.at_once(0..60_000);
    let mut late = 0;
    loop {
        late += 1;
        match scene.read(late, scene.sent(60_000 + late)) {
            Verdict::Late => {}
            verdict => {
                assert_eq!(verdict, Verdict::End(Why::NothingButLate));
                break;
            }
        }
    }
    assert_eq!(late, 31_250);
}

#[test]
fn a_turn_is_what_the_library_says() {
    for (mut scene, seconds) in [(fast(), 2.097_12), (fastest(), 1.048_56), (slow(), 524.28)] {
        scene.at_once([0, 5]);
        let turn = scene.arriving.turn.expect("known") as f64 / 1_000_000.0;
        assert!((turn - seconds).abs() < 0.000_01, "{turn}");
    }
}
