// Call sites as a caller of qr-lab has them. This file is included twice. The lines before it differ: the `use` lines,
// what is made of a direction or a length that an angle might not have (`direction_of`, `length_of`), and where a
// half-size picture goes (`half_of`).
// Answers are texts, so that those of two crates can be compared.

use crate::settings::Settings;
use crate::picture::Picture;

fn view(p: &Picture) -> Gray8View<'_> {
    Gray8View::new(&p.data, p.width, p.height, p.stride).unwrap()
}

pub fn layout(p: &Picture) -> String {
    let view = Gray8View::new(&p.data, p.width, p.height, p.stride);
    let parts = view.map(|v| {
        let (x, y) = (v.width() - 1, v.height() - 1);
        (
            v.size().width,
            v.size().height,
            v.stride(),
            v.get(x, y),
            v.try_get(x, y),
            v.try_get(x + 1, y),
            v.row(y).to_vec(),
        )
    });
    let mut bytes = p.data.clone();
    let view = Gray8ViewMut::new(&mut bytes, p.width, p.height, p.stride);
    let written = view.map(|mut v| {
        let (x, y) = (v.width() - 1, v.height() - 1);
        v.set(x, y, 3);
        v.row_mut(0)[0] = 4;
        (v.get(x, y), v.row(0).to_vec(), v.as_view().get(0, 0))
    });
    format!("{parts:?} {written:?} {bytes:?}")
}

pub fn direction(p: &Picture) -> String {
    let estimate = blur::estimate_line_direction(view(p));
    format!("{:?} {:?}", estimate.raster_direction, estimate.raster_direction.step())
}

pub fn snapped(s: &Settings) -> String {
    let direction = direction_of(blur::RasterDirection4::from_angle(s.angle));
    format!("{direction:?} {:?}", direction.step())
}

pub fn lengths(p: &Picture, s: &Settings) -> String {
    let thresholds =
        blur::LineLengthConfig { minimum_transitions: s.minimum_transitions, minimum_amplitude: s.minimum_amplitude };
    let with = length_of(blur::estimate_line_length_with(view(p), s.angle, &thresholds));
    let usual = length_of(blur::estimate_line_length(view(p), s.angle));
    format!("{:?} {:?}", with.map(f64::to_bits), usual.map(f64::to_bits))
}

fn border(s: &Settings) -> deblur::LineBorderMode {
    match s.border {
        0 => deblur::LineBorderMode::Replicate,
        1 => deblur::LineBorderMode::Reflect,
        2 => deblur::LineBorderMode::Constant(s.border_value),
        other => panic!("the Rust has no border {other}"),
    }
}

/// A filter's answer, and the destination's bytes.
fn written(dst: &Picture, run: impl FnOnce(Gray8ViewMut<'_>) -> ImgProcResult<String>) -> String {
    let mut bytes = dst.data.clone();
    let answer = run(Gray8ViewMut::new(&mut bytes, dst.width, dst.height, dst.stride).unwrap());
    format!("{answer:?} {bytes:?}")
}

pub fn restored(p: &Picture, dst: &Picture, s: &Settings, workspace: &mut deblur::DeblurWorkspace) -> String {
    let config = deblur::VanCittertConfig {
        theta_radians: s.angle,
        blur_length: s.blur_length,
        iterations: s.iterations,
        relaxation: s.factor,
        border: border(s),
    };
    let answer =
        written(dst, |out| Ok(format!("{:?}", deblur::van_cittert_line_into(view(p), out, &config, workspace)?)));
    format!("{answer} {:?}", direction_of(config.raster_direction()))
}

pub fn unsharpened(p: &Picture, dst: &Picture, s: &Settings, workspace: &mut deblur::DeblurWorkspace) -> String {
    let config = deblur::DirectionalUnsharpConfig {
        theta_radians: s.angle,
        blur_length: s.blur_length,
        gain: 8.0 * s.factor,
        border: border(s),
    };
    written(dst, |out| Ok(format!("{:?}", deblur::directional_unsharp_line_into(view(p), out, &config, workspace)?)))
}

pub fn sharpened(p: &Picture, dst: &Picture, workspace: &mut sharpen::SharpenWorkspace) -> String {
    written(dst, |out| Ok(format!("{:?}", sharpen::fixed_binomial_unsharp_into(view(p), out, workspace)?)))
}

/// The half-size picture with its sides, or none of a picture that is too small.
pub fn halved(p: &Picture) -> String {
    format!("{:?}", half_of(view(p)))
}

/// The settings that stand on the types.
pub fn defaults() -> String {
    format!(
        "{:?} {:?} {:?}",
        blur::LineLengthConfig::default(),
        deblur::VanCittertConfig::default(),
        deblur::DirectionalUnsharpConfig::default(),
    )
}
