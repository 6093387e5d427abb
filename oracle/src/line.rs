//! What the line filters write: the Rust's bytes where it has the border, else those of a plain restatement, from the
//! documents' words and apart from the proved code. Where the Rust has the border the restatement must give its bytes:
//! so all of it but the one line of Wrap is held to the Rust.

use crate::picture::Picture;
use crate::settings::{Border, Settings};
use qr_lab_image::Gray8ViewMut;
use qr_lab_imgproc::blur::RasterDirection4;
use qr_lab_imgproc::deblur::{
    directional_unsharp_line_into, van_cittert_line_into, DirectionalUnsharpConfig, LineBorderMode, VanCittertConfig,
};

/// The bytes of the destination behind an accepted call.
pub fn filtered(source: &Picture, destination: &Picture, settings: &Settings) -> Vec<u8> {
    let restated = restated(source, destination, settings);
    if let Some(border) = settings.border.theirs() {
        let theirs = theirs(source, destination, settings, border);
        assert!(theirs == restated, "the restatement differs from the Rust: {settings:?} of {source:?}");
    }
    restated
}

fn theirs(source: &Picture, destination: &Picture, settings: &Settings, border: LineBorderMode) -> Vec<u8> {
    let mut bytes = destination.data.clone();
    let Picture { width, height, stride, .. } = *destination;
    let view = Gray8ViewMut::new(&mut bytes, width, height, stride).expect("an accepted layout");
    let Settings { angle, length: blur_length, iterations, factor, .. } = *settings;
    let theta_radians = angle.radians();
    let done = if iterations == 0 {
        let config = DirectionalUnsharpConfig { theta_radians, blur_length, gain: factor, border };
        directional_unsharp_line_into(source.view(), view, &config, &mut Default::default())
    } else {
        let config = VanCittertConfig { theta_radians, blur_length, iterations, relaxation: factor, border };
        van_cittert_line_into(source.view(), view, &config, &mut Default::default())
    };
    done.expect("an accepted call");
    bytes
}

/// The last estimate cut to 0..255, and the bytes around the picture as they were.
fn restated(source: &Picture, destination: &Picture, settings: &Settings) -> Vec<u8> {
    let mut bytes = destination.data.clone();
    let Picture { width, stride, .. } = *destination;
    for (place, value) in estimate(source, settings).into_iter().enumerate() {
        bytes[place / width * stride + place % width] = value.clamp(0, 255) as u8;
    }
    bytes
}

/// The last estimate, row by row, in 64 bits.
pub fn estimate(source: &Picture, settings: &Settings) -> Vec<i64> {
    let mut out: Vec<i64> = source.pixels().into_iter().map(i64::from).collect();
    for places in lines(source.width, source.height, settings.angle.direction()) {
        let observed: Vec<i64> = places.iter().map(|&place| out[place]).collect();
        for (&place, value) in places.iter().zip(estimate_of_line(&observed, settings)) {
            out[place] = value;
        }
    }
    out
}

/// The lines of a direction, each as its pixels' places in the picture, counted row by row.
fn lines(width: usize, height: usize, direction: RasterDirection4) -> Vec<Vec<usize>> {
    let (w, h) = (width as isize, height as isize);
    let (dx, dy) = direction.step();
    let inside = |&(x, y): &(isize, isize)| (0..w).contains(&x) && (0..h).contains(&y);
    let line = |(x, y): (isize, isize)| {
        let pixels = (0..).map(|k| (x + k * dx, y + k * dy)).take_while(inside);
        pixels.map(|(x, y)| (y * w + x) as usize).collect()
    };
    let starts = (0..h).flat_map(|y| (0..w).map(move |x| (x, y))).filter(|(x, y)| !inside(&(x - dx, y - dy)));
    starts.map(line).collect()
}

/// Document 01, "Restoration and line unsharp"; the latter is one step.
fn estimate_of_line(observed: &[i64], settings: &Settings) -> Vec<i64> {
    let q = (settings.factor * 65_536.0).round() as i64;
    let (length, half) = (settings.length, (settings.length / 2) as i64);
    let mut estimate = observed.to_vec();
    for _ in 0..settings.iterations.max(1) {
        let beyond = observed.len() as i64 + half;
        let samples: Vec<i64> = (-half..beyond).map(|p| sample(&estimate, p, settings.border)).collect();
        for (p, window) in samples.windows(length).enumerate() {
            let mean = window.iter().sum::<i64>().div_euclid(length as i64);
            estimate[p] += (observed[p] - mean) * q / 65_536;
        }
    }
    estimate
}

/// The sample that place p of a line takes: document 01, "Mean along a line", and document 02, K2.
fn sample(line: &[i64], p: i64, border: Border) -> i64 {
    let n = line.len() as i64;
    let place = match border {
        Border::Replicate => p.clamp(0, n - 1),
        Border::Reflect if n == 1 => 0,
        Border::Reflect => {
            let r = p.rem_euclid(2 * n - 2);
            r.min(2 * n - 2 - r)
        }
        Border::Constant(value) if !(0..n).contains(&p) => return i64::from(value),
        Border::Constant(_) => p,
        Border::Wrap => p.rem_euclid(n),
    };
    line[place as usize]
}
