//! Settings at random, some at and beyond a limit.

use crate::degrees::far;
use crate::random::Random;

/// The border that document 02 (K2) adds: the Rust's type has no such word, so no call site of both can say it.
pub const WRAP: u8 = 3;

#[derive(Debug)]
pub struct Settings {
    pub angle: f64,
    pub minimum_transitions: usize,
    pub minimum_amplitude: u8,
    pub blur_length: usize,
    pub iterations: usize,
    pub factor: f64,
    pub border: u8,
    pub border_value: u8,
}

impl Settings {
    pub fn random(random: &mut Random, side: usize) -> Self {
        let angle = match random.below(10) {
            0 => far(random),
            1 => (random.unit() - 0.5) * 20.0,
            k => [0.0, 0.75, 1.5, 2.25][k as usize % 4],
        };
        let factor = match random.below(8) {
            0 => [-0.25, 1.000001, f64::NAN, f64::INFINITY][random.below(4) as usize],
            1 => [-0.0, 0.1, 1.0][random.below(3) as usize],
            _ => random.unit(),
        };
        Self {
            angle,
            minimum_transitions: [0, 1, 2, 4, 8][random.below(5) as usize],
            minimum_amplitude: [0, 1, 2, 24, 100][random.below(5) as usize],
            blur_length: random.below(side as u64 + 3) as usize * 2 + (random.below(8) != 0) as usize,
            iterations: random.below(7) as usize,
            factor,
            border: random.below(4) as u8,
            border_value: random.below(256) as u8,
        }
    }
}
