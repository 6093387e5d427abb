//! ns per pixel (and iteration, where there are some) of the proved library and of the Rust original, and their ratio.
//! What the original has not stands beside another: the sheet, per record, and reading of PGM headers, per byte, beside
//! the oracle's plain restatements, writing of PGM beside a copy of the rows, and restoration with Wrap beside our own
//! with Reflect (the rows `wrap`). Halvings stand beside the original's and beside a copy.
//! Each row is the least of several rounds in which the two take turns. Buffers are warm and not cleared between runs.
//! Time is that of the thread, so that of other work on the machine only what it does to the caches counts.

#[allow(dead_code)]
#[path = "../../oracle/src/degrees.rs"]
mod degrees;
#[allow(dead_code)]
#[path = "../../bindings/src/raw.rs"]
mod ffi;
#[allow(dead_code)]
#[path = "../../oracle/src/pgm.rs"]
mod pgm;
#[allow(dead_code)]
#[path = "../../oracle/src/random.rs"]
mod random;
#[allow(dead_code)]
#[path = "../../oracle/src/record.rs"]
mod record;
#[allow(dead_code)]
#[path = "../../oracle/src/settings.rs"]
mod settings;
#[path = "../../oracle/src/sheet.rs"]
mod sheet;

use ffi::*;
use qr_lab_image::{Gray8View, Gray8ViewMut};
use qr_lab_imgproc::deblur::{self, DirectionalUnsharpConfig, LineBorderMode, VanCittertConfig};
use qr_lab_imgproc::internal::box_downscale_half;
use qr_lab_imgproc::{blur, sharpen};
use random::Random;
use sheet::{MOST_RECORDS, NUMBERS};
use std::hint::black_box;
use std::thread::sleep;
use std::time::Duration;

const SIDE: usize = 1024;
const PIXELS: usize = SIDE * SIDE;
const ROUNDS: usize = 9;

/// A label: modules of 8 pixels, black or white, smeared along the rows over 9 pixels, with noise of so many levels.
fn label(random: &mut Random, levels: u64) -> Vec<u8> {
    let modules: Vec<i32> = (0..(SIDE / 8 + 1) * (SIDE / 8)).map(|_| 40 + 170 * random.below(2) as i32).collect();
    let sharp = |x: usize, y: usize| modules[y / 8 * (SIDE / 8 + 1) + x / 8];
    (0..PIXELS)
        .map(|place| {
            let (x, y) = (place % SIDE, place / SIDE);
            let sum: i32 = (0..9).map(|k| sharp(x.saturating_sub(k), y)).sum();
            (sum / 9 + random.below(levels) as i32) as u8
        })
        .collect()
}

fn noise(random: &mut Random) -> Vec<u8> {
    (0..PIXELS).map(|_| random.below(256) as u8).collect()
}

#[repr(C)]
struct Timespec {
    seconds: i64,
    nanoseconds: i64,
}

extern "C" {
    fn clock_gettime(clock: i32, time: *mut Timespec) -> i32;
}

const CLOCK_THREAD_CPUTIME_ID: i32 = 3;

/// How long this thread has run, in ns.
fn thread_time() -> f64 {
    let mut time = Timespec { seconds: 0, nanoseconds: 0 };
    unsafe { clock_gettime(CLOCK_THREAD_CPUTIME_ID, &mut time) };
    time.seconds as f64 * 1e9 + time.nanoseconds as f64
}

/// The time of one run, in ns.
fn timed(run: &mut dyn FnMut()) -> f64 {
    let start = thread_time();
    run();
    thread_time() - start
}

fn row(only: &str, name: &str, work: usize, ours: impl FnMut(), theirs: impl FnMut()) {
    row_of(ROUNDS, only, name, work, ours, theirs);
}

/// A row that is the least of so many rounds.
fn row_of(rounds: usize, only: &str, name: &str, work: usize, mut ours: impl FnMut(), mut theirs: impl FnMut()) {
    if !name.contains(only) {
        return;
    }
    let (mut mine, mut other) = (f64::INFINITY, f64::INFINITY);
    for _ in 0..rounds {
        mine = mine.min(timed(&mut ours));
        other = other.min(timed(&mut theirs));
    }
    let (mine, other) = (mine / work as f64, other / work as f64);
    println!("{name:<44} {mine:>8.2} {other:>8.2} {:>8.2}", other / mine);
}

fn main() {
    let only = std::env::args().nth(1).unwrap_or_default();
    let mut random = Random::new(1);
    let pictures = [("label", label(&mut random, 5)), ("noise", noise(&mut random))];
    let mut dst = vec![0u8; PIXELS];
    let mut other = vec![0u8; PIXELS];
    println!("{:<44} {:>8} {:>8} {:>8}", "ns a pixel (and iteration)", "ours", "other", "ratio");

    row(
        &only,
        "copy of the bytes",
        PIXELS,
        || dst.copy_from_slice(black_box(&pictures[0].1)),
        || other.copy_from_slice(black_box(&pictures[0].1)),
    );
    for (kind, data) in &pictures {
        let view = Gray8View::new(data, SIDE, SIDE, SIDE).unwrap();
        row(
            &only,
            &format!("direction, {kind}"),
            PIXELS,
            || unsafe {
                let (mut d, mut a, mut c, mut e) = (0, 0, 0, 0);
                smear_estimate_line_direction(data.as_ptr(), PIXELS, SIDE, SIDE, SIDE, &mut d, &mut a, &mut c, &mut e);
                black_box((d, a, c, e));
            },
            || {
                black_box(blur::estimate_line_direction(view));
            },
        );
    }
    let data = &pictures[0].1;
    let view = Gray8View::new(data, SIDE, SIDE, SIDE).unwrap();
    let mut scratch = vec![0u16; PIXELS];
    let mut workspace = Default::default();
    row(
        &only,
        "binomial",
        PIXELS,
        || unsafe {
            smear_fixed_binomial_unsharp(
                data.as_ptr(), PIXELS, SIDE, SIDE, SIDE, dst.as_mut_ptr(), PIXELS, SIDE, SIDE, SIDE,
                scratch.as_mut_ptr(), PIXELS,
            );
        },
        || {
            let view_mut = Gray8ViewMut::new(&mut other, SIDE, SIDE, SIDE).unwrap();
            sharpen::fixed_binomial_unsharp_into(view, view_mut, &mut workspace).unwrap();
        },
    );
    lengths(&only, &pictures);
    restorations(&only, data, &mut dst, &mut other);
    wraps(&only, data, &mut dst);
    whole_jobs(&only, data, &mut dst, &mut other);
    sheets(&only);
    pgm_headers(&only, data);
    pgm_writing(&only, data, &mut other);
    halvings(&only, data, &mut dst, &mut other);
}

const DIRECTIONS: [(&str, f64); 4] = [("Horizontal", 0.0), ("DownRight", 0.75), ("Vertical", 1.5), ("DownLeft", 2.25)];
const BORDERS: [(&str, LineBorderMode); 3] = [
    ("Replicate", LineBorderMode::Replicate),
    ("Reflect", LineBorderMode::Reflect),
    ("Constant", LineBorderMode::Constant(128)),
];

/// A restoration's length, iterations and relaxation.
const SETTINGS: [(usize, usize, f64); 4] = [(9, 3, 1.0), (31, 10, 1.0), (31, 10, 0.7), (255, 3, 1.0)];

/// The length of a smear, in each direction: of a label with and without noise, of noise, of a ramp, whose lines are
/// one run each, and of stripes, which give the most swings that a picture can have.
fn lengths(only: &str, pictures: &[(&str, Vec<u8>); 2]) {
    let clean = label(&mut Random::new(1), 1);
    let ramp: Vec<u8> = (0..PIXELS).map(|place| (place % SIDE / 4) as u8).collect();
    let stripes: Vec<u8> =
        (0..PIXELS).map(|place| if (place % SIDE + place / SIDE * 2) % 4 < 2 { 255 } else { 0 }).collect();
    let mut swings = vec![Swing { width: 0.0, swing: 0 }; PIXELS];
    let [(_, label), (_, noise)] = pictures;
    for (kind, data) in
        [("label", label), ("clean label", &clean), ("noise", noise), ("ramp", &ramp), ("stripes", &stripes)]
    {
        let view = Gray8View::new(data, SIDE, SIDE, SIDE).unwrap();
        for (direction, angle) in DIRECTIONS {
            row(
                only,
                &format!("length, {kind}, {direction}"),
                PIXELS,
                || unsafe {
                    let mut length = 0.0;
                    smear_estimate_line_length(
                        data.as_ptr(), PIXELS, SIDE, SIDE, SIDE, angle, 8, 24,
                        swings.as_mut_ptr(), PIXELS, &mut length,
                    );
                    black_box(length);
                },
                || {
                    black_box(blur::estimate_line_length(view, angle));
                },
            );
        }
    }
}

/// Restoration and line unsharp, in each direction and border.
fn restorations(only: &str, data: &[u8], dst: &mut [u8], other: &mut [u8]) {
    let view = Gray8View::new(data, SIDE, SIDE, SIDE).unwrap();
    let mut scratch = vec![0i32; 3 * SIDE];
    let mut workspace = Default::default();
    let mut used = 0;
    for (number, (border_name, border)) in BORDERS.into_iter().enumerate() {
        for (direction, angle) in DIRECTIONS {
            for (length, iterations, relaxation) in SETTINGS {
                let config =
                    VanCittertConfig { theta_radians: angle, blur_length: length, iterations, relaxation, border };
                row(
                    only,
                    &format!("restore {length} x{iterations} at {relaxation}, {direction}, {border_name}"),
                    PIXELS * iterations,
                    || unsafe {
                        smear_van_cittert_line(
                            data.as_ptr(), PIXELS, SIDE, SIDE, SIDE, dst.as_mut_ptr(), PIXELS, SIDE, SIDE, SIDE,
                            angle, length, iterations, relaxation, number as u8, 128,
                            scratch.as_mut_ptr(), scratch.len(), &mut used,
                        );
                    },
                    || {
                        let view_mut = Gray8ViewMut::new(other, SIDE, SIDE, SIDE).unwrap();
                        deblur::van_cittert_line_into(view, view_mut, &config, &mut workspace).unwrap();
                    },
                );
            }
            let config = DirectionalUnsharpConfig { theta_radians: angle, blur_length: 9, gain: 1.5, border };
            row(
                only,
                &format!("unsharp 9, {direction}, {border_name}"),
                PIXELS,
                || unsafe {
                    smear_directional_unsharp_line(
                        data.as_ptr(), PIXELS, SIDE, SIDE, SIDE, dst.as_mut_ptr(), PIXELS, SIDE, SIDE, SIDE,
                        angle, 9, 1.5, number as u8, 128, scratch.as_mut_ptr(), scratch.len(), &mut used,
                    );
                },
                || {
                    let view_mut = Gray8ViewMut::new(other, SIDE, SIDE, SIDE).unwrap();
                    deblur::directional_unsharp_line_into(view, view_mut, &config, &mut workspace).unwrap();
                },
            );
        }
    }
}

/// Restoration with Wrap beside our own with Reflect, in each direction; also of the picture in narrow or low strips,
/// and with the longest window, which goes round the longest line twice. Within 1.15 times is a ratio from 0.87.
/// Without the pauses, which the thread's time does not count, either of the two can be a quarter slower at the ends of
/// lines through all rounds, now the one and now the other.
fn wraps(only: &str, data: &[u8], dst: &mut [u8]) {
    let mut scratch = vec![0i32; 3 * SIDE];
    let (dst, scratch) = (dst.as_mut_ptr(), scratch.as_mut_ptr());
    let longest = (2 * SIDE + 1, 3, 1.0);
    let whole = SETTINGS.into_iter().chain([longest]).map(|settings| (SIDE, SIDE, settings));
    let strips = [(16, SIDE), (SIDE, 16)].map(|(width, height)| [SETTINGS[0], longest].map(|s| (width, height, s)));
    for (width, height, (length, iterations, relaxation)) in whole.chain(strips.concat()) {
        for (direction, angle) in DIRECTIONS {
            let restore = |border| {
                sleep(Duration::from_millis(5));
                for strip in 0..PIXELS / (width * height) {
                    let first = strip * if width < SIDE { width } else { height * SIDE };
                    let mut used = 0;
                    unsafe {
                        smear_van_cittert_line(
                            data.as_ptr().add(first), PIXELS - first, width, height, SIDE,
                            dst.add(first), PIXELS - first, width, height, SIDE,
                            angle, length, iterations, relaxation, border, 0, scratch, 3 * SIDE, &mut used,
                        );
                    }
                }
            };
            let name = format!("wrap {length} x{iterations} at {relaxation}, {direction}, {width} by {height}");
            row_of(2 * ROUNDS, only, &name, PIXELS * iterations, || restore(3), || restore(1));
        }
    }
}

/// The whole job, against the Rust's three calls in a row.
fn whole_jobs(only: &str, data: &[u8], dst: &mut [u8], other: &mut [u8]) {
    let view = Gray8View::new(data, SIDE, SIDE, SIDE).unwrap();
    let mut scratch = vec![0i32; 3 * SIDE];
    let mut swings = vec![Swing { width: 0.0, swing: 0 }; PIXELS];
    let mut workspace = Default::default();
    for iterations in [3, 10] {
        row(
            only,
            &format!("whole job x{iterations}, label"),
            PIXELS,
            || unsafe {
                let (mut direction, mut length, mut estimate) = (0, 0, 0.0);
                smear_restore(
                    data.as_ptr(), PIXELS, SIDE, SIDE, SIDE, dst.as_mut_ptr(), PIXELS, SIDE, SIDE, SIDE,
                    8, 24, 0, iterations, 1.0, 0, 0,
                    scratch.as_mut_ptr(), scratch.len(), swings.as_mut_ptr(), swings.len(),
                    &mut direction, &mut length, &mut estimate,
                );
                black_box((direction, length, estimate));
            },
            || {
                let theta_radians = blur::estimate_line_direction(view).theta_radians;
                let length = blur::estimate_line_length(view, theta_radians).unwrap();
                let blur_length = (length.ceil() as usize | 1).max(3);
                let config = VanCittertConfig {
                    theta_radians,
                    blur_length,
                    iterations,
                    relaxation: 1.0,
                    border: LineBorderMode::Replicate,
                };
                let view_mut = Gray8ViewMut::new(other, SIDE, SIDE, SIDE).unwrap();
                deblur::van_cittert_line_into(view, view_mut, &config, &mut workspace).unwrap();
            },
        );
    }
}

/// The sheet over the most records that it takes, of all filters and directions in no order.
fn sheets(only: &str) {
    let mut random = Random::new(1);
    let records: Vec<u8> = (0..MOST_RECORDS).flat_map(|_| record::listed(&mut random)).collect();
    row(
        only,
        "sheet, ns a record, beside a restatement",
        MOST_RECORDS,
        || unsafe {
            let (mut numbers, mut index) = ([0; NUMBERS], 0);
            smear_summarize(records.as_ptr(), records.len(), numbers.as_mut_ptr(), NUMBERS, &mut index);
            black_box(numbers);
        },
        || {
            black_box(sheet::sheet(black_box(&records))).unwrap();
        },
    );
}

/// PGM headers: of one pixel and of the largest picture, and long ones. What a row has of each byte is the same where
/// reading costs the header's length.
fn pgm_headers(only: &str, data: &[u8]) {
    let long = |start: &str, part: &str| format!("{start}{}", part.repeat(1_000_000));
    for (name, header, pixels) in [
        ("header of 11 bytes", "P5 1 1 255 ".into(), 1),
        ("header of 17 bytes", "P5\n1024\n1024\n255\n".into(), PIXELS),
        ("1,000,000 blanks", long("P5", " ") + "1 1 255 ", 1),
        ("comment of 1,000,000", long("P5#", "x") + "\n1 1 255 ", 1),
        ("1,000,000 comments", long("P5", "#\n") + "1 1 255 ", 1),
        ("1,000,000 zeros", long("P5 ", "0") + "1 1 255 ", 1),
        // a side of so many digits is refused
        ("1,000,000 nines", long("P5 ", "9") + " 1 255 ", 1),
    ] {
        let file = [header.as_bytes(), &data[..pixels]].concat();
        let times = PIXELS.div_ceil(header.len());
        row(
            only,
            &format!("pgm read, {name}, ns a byte"),
            times * header.len(),
            || {
                for _ in 0..times {
                    let (mut width, mut height, mut start) = (0, 0, 0);
                    unsafe { smear_read_pgm(file.as_ptr(), file.len(), &mut width, &mut height, &mut start) };
                    black_box((width, height, start));
                }
            },
            || {
                for _ in 0..times {
                    let _ = black_box(pgm::read(black_box(&file)));
                }
            },
        );
    }
}

/// Pictures as PGM beside a copy of their rows. Within twice that is a ratio from 0.5.
fn pgm_writing(only: &str, data: &[u8], copy: &mut [u8]) {
    let mut file = vec![0; 17 + PIXELS];
    for (width, height, stride) in [(64, 64, 64), (SIDE, SIDE, SIDE), (1000, 1000, SIDE)] {
        let times = PIXELS / (width * height);
        row(
            only,
            &format!("pgm write, {width} by {height}, stride {stride}"),
            times * width * height,
            || {
                for _ in 0..times {
                    let mut written = 0;
                    unsafe {
                        smear_write_pgm(
                            data.as_ptr(), PIXELS, width, height, stride, file.as_mut_ptr(), file.len(), &mut written,
                        );
                    }
                    black_box(written);
                }
            },
            || {
                for _ in 0..times {
                    let rows = black_box(data).chunks(stride);
                    for (to, from) in copy.chunks_exact_mut(width).take(height).zip(rows) {
                        to.copy_from_slice(&from[..width]);
                    }
                }
            },
        );
    }
}

/// The Rust's halvings, one after the other, of a square picture.
fn their_halvings(data: &[u8], side: usize, count: usize) -> Option<Vec<u8>> {
    let mut last = box_downscale_half(&Gray8View::new(data, side, side, side).ok()?)?;
    for _ in 1..count {
        last = box_downscale_half(&Gray8View::new(&last.0, last.1, last.2, last.1).ok()?)?;
    }
    Some(last.0)
}

/// A call that halves a square picture so often, beside the Rust's and beside a copy of the picture's bytes.
fn halving(only: &str, name: &str, data: &[u8], count: usize, copy: &mut [u8], mut ours: impl FnMut()) {
    let (side, times) = (data.len().isqrt(), PIXELS / data.len());
    let name = format!("{name}, {side} by {side}");
    let mut ours = || (0..times).for_each(|_| ours());
    row(only, &name, PIXELS, &mut ours, || {
        for _ in 0..times {
            black_box(their_halvings(black_box(data), side, count)).unwrap();
        }
    });
    row(only, &format!("{name}, beside a copy"), PIXELS, &mut ours, || {
        for _ in 0..times {
            copy[..data.len()].copy_from_slice(black_box(data));
        }
    });
}

/// Halvings, ns a pixel of the source: the single call, and once, twice and as often as can be. At least 1.5 times the
/// Rust's speed is a ratio from 1.5, within 4 times a copy one from 0.25. The smallest picture stays in the first
/// cache, where a copy is at its fastest.
fn halvings(only: &str, data: &[u8], dst: &mut [u8], copy: &mut [u8]) {
    let mut scratch = vec![0; PIXELS];
    let (dst, scratch) = (dst.as_mut_ptr(), scratch.as_mut_ptr());
    for side in [SIDE, 256, 64] {
        let (pixels, half) = (side * side, side / 2);
        let data = &data[..pixels];
        halving(only, "half", data, 1, copy, || unsafe {
            smear_box_downscale_half(data.as_ptr(), pixels, side, side, side, dst, PIXELS, half, half, half);
        });
        for count in [1, 2, side.ilog2() as usize] {
            let left = side >> count;
            halving(only, &format!("halve x{count}"), data, count, copy, || unsafe {
                smear_halve(
                    data.as_ptr(), pixels, side, side, side, dst, PIXELS, left, left, left, count, scratch, PIXELS,
                );
            });
        }
    }
}
