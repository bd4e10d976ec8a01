//! Silence.

use outside::station::Settings;

use super::{Source, Tuned};

pub struct Silence;

impl Source for Silence {
    fn start(&mut self, _settings: &Settings, _rate: f64) {}

    fn fill(&mut self, _tuned: &Tuned, numbers: &mut [i32]) {
        numbers.fill(0);
    }
}
