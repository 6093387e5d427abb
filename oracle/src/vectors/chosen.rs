//! Which cases the list has: chosen ones for every branch, and seeded ones beside them.

use super::{Call, Case, OLD};
use crate::degrees::{around, LAST};
use crate::halve::left;
use crate::picture::Picture;
use crate::random::Random;
use qr_lab_imgproc::deblur::LineBorderMode;

/// Angles along the four directions.
const ALONG: [f64; 4] = [0.0, 0.75, 1.5, 2.25];

/// A picture without padding.
fn tight(width: usize, data: &[u8]) -> Picture {
    Picture { data: data.to_vec(), width, height: data.len() / width, stride: width }
}

/// A picture whose lines of a direction each begin as `line` does.
fn lines_of(direction: usize, line: &[u8]) -> Picture {
    let n = line.len();
    let (width, height) = [(n, 3), (n, n), (3, n), (n, n)][direction];
    let place = |x: usize, y: usize| [x, x.min(y), y, y.min(n - 1 - x.min(n - 1))][direction];
    tight(width, &(0..width * height).map(|i| line[place(i % width, i / width)]).collect::<Vec<_>>())
}

/// The same pixels with noise between the rows and behind the last.
fn padded(random: &mut Random, p: &Picture, between: usize) -> Picture {
    let stride = p.width + between;
    let noise: Vec<u8> = (0..stride * p.height + 2).map(|_| random.below(256) as u8).collect();
    let pixel = |i: usize| p.data[i / stride * p.stride + i % stride];
    let data = (0..noise.len())
        .map(|i| if i / stride < p.height && i % stride < p.width { pixel(i) } else { noise[i] })
        .collect();
    Picture { data, stride, ..*p }
}

/// Layouts that are refused: a side is 0, the stride is below the width, a byte is missing.
fn refused_layouts(p: &Picture) -> [Picture; 4] {
    let last = p.data.len() - 1;
    [
        Picture { width: 0, ..p.clone() },
        Picture { height: 0, ..p.clone() },
        Picture { stride: p.width - 1, ..p.clone() },
        Picture { data: p.data[..last].to_vec(), ..*p },
    ]
}

/// Lines of every shape: ramps both ways, plateaus at their ends and on either level, crossings on a sample, between
/// two and in the first or last step, weak swings beside strong ones.
const LINES: [&[u8]; 23] = [
    &[0, 0, 0, 50, 100, 150, 200, 250, 250, 250],
    &[250, 250, 250, 200, 150, 100, 50, 0, 0, 0],
    &[0, 20, 20, 20, 80, 80, 80, 100],
    &[100, 80, 80, 80, 20, 20, 20, 0],
    &[0, 20, 20, 20, 60, 100],
    &[0, 50, 80, 80, 80, 100],
    &[0, 0, 100, 100],
    &[100, 0, 100],
    &[0, 100, 0, 100, 0, 100, 0, 100, 0],
    &[0, 10, 90, 100],
    &[0, 20, 80, 100],
    &[0, 19, 81, 100, 100],
    &[0, 60, 61, 62, 100, 99],
    &[0, 100, 200, 100, 0, 40, 90, 140],
    &[0, 200, 150, 50, 150, 151],
    &[0, 200, 101, 200, 99, 100],
    &[7, 7, 7, 7],
    &[7, 7, 30, 30, 7],
    &[7, 7, 31, 31, 7],
    &[10, 200, 190, 200, 190, 10],
    &[0, 255],
    &[0, 200, 150, 100, 200, 0],
    &[90, 60, 60, 20, 20, 140, 140, 255, 255, 3],
];

/// Few grey values, so that plateaus are common.
fn stepped(random: &mut Random, width: usize, height: usize) -> Picture {
    let levels = 2 + random.below(5);
    tight(width, &(0..width * height).map(|_| (random.below(levels) * 255 / (levels - 1)) as u8).collect::<Vec<_>>())
}

/// Black and white alone: restorations of it swing far below 0 and above 255.
fn saturated(random: &mut Random, width: usize, height: usize) -> Picture {
    tight(width, &(0..width * height).map(|_| 255 * random.below(2) as u8).collect::<Vec<_>>())
}

fn noise(random: &mut Random, width: usize, height: usize) -> Picture {
    tight(width, &(0..width * height).map(|_| random.below(256) as u8).collect::<Vec<_>>())
}

/// The one or the other, in turn.
fn either(random: &mut Random, turn: usize, width: usize, height: usize) -> Picture {
    if turn % 2 == 0 { stepped(random, width, height) } else { noise(random, width, height) }
}

/// Thin, small and square sizes.
const SIZES: [(usize, usize); 12] =
    [(1, 1), (1, 6), (6, 1), (2, 2), (3, 3), (5, 3), (3, 5), (4, 7), (7, 4), (8, 8), (2, 5), (5, 2)];

fn from_angle() -> Vec<Case> {
    let mut angles = vec![
        0.39, 0.40, -1.0, 3.0, 0.0, -0.0, 1e306, LAST, -LAST, f64::MIN_POSITIVE, f64::from_bits(1), -1e-300,
    ];
    // the boundaries of the snap, and a step to either side
    for k in [-15, -9, -7, -5, -3, -1, 1, 3, 5, 7, 8, 9, 15] {
        angles.extend(around(f64::from(k) * std::f64::consts::PI / 8.0, 1));
    }
    let none = Picture { data: Vec::new(), width: 0, height: 0, stride: 0 };
    angles.into_iter().map(|angle| Case { angle, ..Case::new(Call::FromAngle, none.clone()) }).collect()
}

fn direction(random: &mut Random) -> Vec<Case> {
    let mut pictures: Vec<_> = (0..4).map(|d| lines_of(d, LINES[0])).collect();
    pictures.extend(
        [
            [0, 0, 9, 0, 0, 9, 0, 0, 9],
            [0, 0, 0, 0, 0, 0, 9, 9, 9],
            [0, 0, 0, 0, 0, 9, 0, 9, 9],
            [0, 0, 0, 9, 0, 0, 9, 9, 0],
            [0, 0, 1, 0, 0, 1, 0, 0, 1],
            [7; 9],
        ]
        .map(|p| tight(3, &p)),
    );
    pictures.extend(SIZES.map(|(width, height)| noise(random, width, height)));
    pictures.extend(SIZES.map(|(width, height)| stepped(random, width, height)));
    let few: Vec<_> = pictures.iter().step_by(3).map(|p| padded(random, p, 2)).collect();
    pictures.extend(few);
    pictures.extend(refused_layouts(&noise(random, 4, 3)));
    pictures.into_iter().map(|p| Case::new(Call::Direction, p)).collect()
}

fn length(random: &mut Random) -> Vec<Case> {
    let mut out = Vec::new();
    let mut add = |source: Picture, angle, count, amplitude| {
        out.push(Case { angle, count, amplitude, ..Case::new(Call::Length, source) })
    };
    add(lines_of(0, LINES[0]), 0.0, 3, 24);
    add(lines_of(0, LINES[0]), 0.0, 4, 24);
    for line in LINES {
        let back: Vec<u8> = line.iter().rev().copied().collect();
        add(lines_of(0, line), 0.0, 1, 24);
        add(lines_of(0, &back), 0.0, 1, 24);
    }
    // swings of just half the strongest stay: with them there are twelve
    add(lines_of(0, &[0, 200, 150, 100, 200, 0]), 0.0, 12, 24);
    // a side below 3, although the lines along the other are long enough
    add(tight(2, &[0, 0, 90, 90, 200, 200]), 1.5, 1, 24);
    add(tight(3, &[0, 90, 200, 0, 90, 200]), 0.0, 1, 24);
    for (k, line) in LINES.iter().enumerate() {
        let d = 1 + k % 3;
        add(lines_of(d, line), ALONG[d], 1 + k % 2, 1);
    }
    // no threshold, the least swing reached and missed, more swings than there are, far angles
    for (angle, count, amplitude) in [
        (0.0, 0, 24),
        (0.0, 1, 0),
        (0.0, 1, 250),
        (0.0, 1, 251),
        (0.0, 65_535, 1),
        (LAST, 1, 24),
        (-LAST, 1, 24),
        (1e306, 1, 24),
        (-1.6, 1, 24),
    ] {
        add(lines_of(0, LINES[0]), angle, count, amplitude);
    }
    for (k, (width, height)) in
        SIZES.into_iter().chain([(12, 9), (9, 12), (16, 8), (11, 11), (9, 9), (10, 7), (7, 10), (6, 6)]).enumerate()
    {
        let (p, s) = (noise(random, width, height), stepped(random, width, height));
        add(padded(random, &p, k % 3), ALONG[k % 4], 1 + k % 4, 24);
        add(s.clone(), ALONG[(k + 1) % 4], 1, 1);
        add(s, ALONG[(k + 2) % 4], 8, 24);
    }
    for p in refused_layouts(&noise(random, 4, 3)) {
        add(p, 0.0, 1, 24);
    }
    out
}

/// Destinations that are refused: each layout, another width, another height.
fn refused_destinations(case: &Case) -> Vec<Case> {
    let (w, h) = (case.source.width, case.source.height);
    let other = |width: usize, height: usize| Picture { data: vec![OLD; width * height], width, height, stride: width };
    refused_layouts(&other(w, h))
        .into_iter()
        .chain([other(w + 1, h), other(w, h - 1)])
        .map(|destination| Case { destination, ..case.clone() })
        .collect()
}

/// A destination with other bytes between its rows than the source.
fn apart(case: Case, between: usize) -> Case {
    let (width, height, stride) = (case.source.width, case.source.height, case.source.width + between);
    Case { destination: Picture { data: vec![OLD; stride * height + 1], width, height, stride }, ..case }
}

/// What both line filters have: `limit` is the largest factor.
fn line_filter(random: &mut Random, call: Call, limit: f64) -> Vec<Case> {
    let mut out = Vec::new();
    let borders = [
        LineBorderMode::Replicate,
        LineBorderMode::Reflect,
        LineBorderMode::Constant(0),
        LineBorderMode::Constant(200),
    ];
    let factors = [limit, 0.5, 0.1, 1.0];
    for (k, angle) in ALONG.into_iter().enumerate() {
        for (j, border) in borders.into_iter().enumerate() {
            let (width, height) = [(5, 4), (4, 6), (7, 3), (3, 7)][(j + k) % 4];
            let source = noise(random, width, height);
            let base = Case { angle, border, factor: factors[(k + 3 * j) % 4], ..Case::new(call, source) };
            // a window inside the line, one that is longer than it, and the longest
            for length in [3, 5 + 2 * (j % 2), 2 * width.max(height) + 1] {
                out.push(Case { length, count: 1 + (j + length) % 4, ..base.clone() });
            }
        }
    }
    for (k, (width, height)) in SIZES.into_iter().enumerate() {
        let plain = either(random, k, width, height);
        let source = padded(random, &plain, k % 4);
        let base =
            Case { angle: ALONG[k % 4], border: borders[k % 3], count: 2, factor: limit, ..Case::new(call, source) };
        out.push(apart(base, k % 3));
    }
    let row = Case::new(call, tight(5, &[10, 10, 40, 10, 10]));
    for factor in
        [0.0, -0.0, 2f64.powi(-17), f64::from_bits(2f64.powi(-17).to_bits() - 1), f64::from_bits(1), limit, 1.0, 0.7]
    {
        out.push(Case { factor, ..row.clone() });
    }
    // where q is 1,639 the residual 40 counts, and where it is 1,638 it does not:
    // half of 1 / 65,536 is rounded away from zero
    let half = 1638.5f64 / 65_536.0;
    let lone = Case { border: LineBorderMode::Constant(0), ..Case::new(call, tight(1, &[60])) };
    out.extend([half, f64::from_bits(half.to_bits() - 1)].map(|factor| Case { factor, ..lone.clone() }));
    // at each limit, and beyond it
    out.push(Case { length: 11, ..row.clone() });
    out.extend([0, 1, 2, 4, 12, 13].map(|length| Case { length, ..row.clone() }));
    out.extend(
        [f64::NAN, f64::INFINITY, -0.5, -1e-9, f64::from_bits(limit.to_bits() + 1)]
            .map(|factor| Case { factor, ..row.clone() }),
    );
    let square = Case::new(call, noise(random, 4, 3));
    out.extend([LAST, -LAST, 1e306].map(|angle| Case { angle, ..square.clone() }));
    out.extend(refused_layouts(&square.source).map(|source| Case { source, ..square.clone() }));
    out.extend(refused_destinations(&square));
    out
}

fn restoration(random: &mut Random) -> Vec<Case> {
    let mut out = line_filter(random, Call::Restoration, 1.0);
    for (k, angle) in ALONG.into_iter().enumerate() {
        for (j, border) in
            [LineBorderMode::Replicate, LineBorderMode::Reflect, LineBorderMode::Constant(90)].into_iter().enumerate()
        {
            let source = saturated(random, 6 + k % 2, 5);
            out.push(Case {
                angle,
                border,
                length: 3 + 2 * j,
                count: 3 + 2 * k,
                ..Case::new(Call::Restoration, source)
            });
        }
    }
    let row = Case::new(Call::Restoration, tight(5, &[10, 10, 40, 10, 10]));
    out.extend([0, 2, 3, 22].map(|count| Case { count, ..row.clone() }));
    out
}

fn unsharp(random: &mut Random) -> Vec<Case> {
    let mut out = line_filter(random, Call::Unsharp, 8.0);
    out.push(Case { factor: 1.5, ..Case::new(Call::Unsharp, tight(5, &[10, 10, 40, 10, 10])) });
    out
}

fn binomial(random: &mut Random) -> Vec<Case> {
    let mut out = vec![
        Case::new(Call::Binomial, tight(5, &[10, 10, 40, 10, 10])),
        Case::new(Call::Binomial, tight(1, &[10, 10, 40, 10, 10])),
    ];
    for (k, (width, height)) in SIZES.into_iter().enumerate() {
        let plain = either(random, k, width, height);
        let source = padded(random, &plain, k % 4);
        out.push(apart(Case::new(Call::Binomial, source), k % 3));
        out.push(Case::new(Call::Binomial, either(random, k + 1, width, height)));
    }
    let square = Case::new(Call::Binomial, noise(random, 4, 3));
    out.extend(refused_layouts(&square.source).map(|source| Case { source, ..square.clone() }));
    out.extend(refused_destinations(&square));
    out
}

/// So many halvings into a destination that fits, with so many bytes between its rows and one behind, or, where none
/// fits, of one pixel. One halving is a case of the single call too.
fn halvings(source: &Picture, count: usize, between: usize) -> Vec<Case> {
    let (width, height) = left((source.width, source.height), count).unwrap_or((1, 1));
    let stride = width + between;
    let destination = Picture { data: vec![OLD; stride * (height - 1) + width + 1], width, height, stride };
    let case = |call| Case { destination: destination.clone(), count, ..Case::new(call, source.clone()) };
    let calls = if count == 1 { &[Call::Halve, Call::Half][..] } else { &[Call::Halve] };
    calls.iter().map(|&call| case(call)).collect()
}

fn halved(random: &mut Random) -> Vec<Case> {
    let mut out = Vec::new();
    let mut add = |source: &Picture, counts: &[usize], between| {
        out.extend(counts.iter().flat_map(|&count| halvings(source, count, between)))
    };
    // each halving rounds; an odd last column and row are left out; a side of 3 is halved once
    add(&tight(4, &[1, 2, 1, 1, 2, 2, 0, 0, 2, 1, 2, 2, 0, 0, 1, 1]), &[0, 1, 2, 3], 0);
    let odd = [0, 1, 255, 255, 9, 1, 1, 255, 254, 9, 10, 20, 30, 40, 9, 50, 60, 70, 80, 9, 9, 9, 9, 9, 9];
    add(&tight(5, &odd), &[0, 1, 2, 3], 1);
    add(&tight(3, &[0, 1, 9, 1, 0, 9, 9, 9, 9]), &[1, 2], 0);
    // every remainder of a sum by 4, at the ends of the range
    for four in [[0, 0, 0, 1], [0, 1, 0, 1], [1, 1, 1, 0], [254, 255, 255, 255], [255, 254, 254, 255], [255; 4]] {
        add(&tight(2, &four), &[1], 0);
    }
    for (k, (width, height)) in SIZES.into_iter().chain([(16, 16), (9, 15)]).enumerate() {
        let plain = either(random, k, width, height);
        let source = padded(random, &plain, k % 4);
        let too_many = (0..).find(|&count| left((width, height), count).is_none()).expect("no side is endless");
        add(&source, &(0..=too_many).collect::<Vec<_>>(), k % 3);
    }
    let small = noise(random, 4, 3);
    add(&small, &[10, 11, 65_535], 0);
    for source in refused_layouts(&small) {
        add(&source, &[1, 11], 0);
    }
    out
}

pub fn cases() -> Vec<Case> {
    let mut random = Random::new(9);
    let mut out = from_angle();
    for more in [direction, length, restoration, unsharp, binomial, halved] {
        out.extend(more(&mut random));
    }
    out
}
