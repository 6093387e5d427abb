//! What the program prints, from the documents' words (document 01, "The 32-byte record", and document 02, K2 and K7)
//! and apart from the proved code; the pixels are the Rust's where it has the border, else a plain restatement's
//! (`line`).

use crate::angle::number;
use crate::direction::is_tie;
use crate::job::measure;
use crate::line::filtered;
use crate::picture::Picture;
use crate::record::{read_job, Task};
use crate::settings::Settings;
use qr_lab_image::Gray8ViewMut;
use qr_lab_imgproc::sharpen::fixed_binomial_unsharp_into;

/// The pixels of a tight picture, with direction, length and the estimate's bits as the result names them;
/// or a refusal.
fn answer(source: &Picture, task: Task) -> Result<(Vec<u8>, u8, usize, u64), u8> {
    Ok(match task {
        Task::Whole(settings) => {
            let smear = measure(source, &Default::default())?;
            let settings = Settings { angle: smear.angle, length: smear.blur_length, ..settings };
            let pixels = filtered(source, source, &settings);
            (pixels, number(smear.direction), smear.blur_length, smear.estimate.to_bits())
        }
        Task::Line(settings) => {
            let direction = number(settings.angle.direction());
            (filtered(source, source, &settings), direction, settings.length, 0)
        }
        Task::Binomial => {
            let mut pixels = vec![0; source.data.len()];
            let view = Gray8ViewMut::new(&mut pixels, source.width, source.height, source.width);
            fixed_binomial_unsharp_into(source.view(), view.expect("an accepted layout"), &mut Default::default())
                .expect("an accepted call");
            (pixels, 0, 0, 0)
        }
    })
}

/// The bytes that the program prints for the two files' bytes; nothing where a whole job's direction is a tie,
/// which the Rust decides otherwise.
pub fn printed(job: &[u8], picture: &[u8]) -> Option<Vec<u8>> {
    let Some((width, height, task)) = read_job(job) else {
        return Some(b"refused 13\n".to_vec());
    };
    if width * height > 4096 {
        return Some(b"too large\n".to_vec());
    }
    let Some(pixels) = picture.get(..width * height) else {
        return Some(b"refused 4\n".to_vec());
    };
    let source = Picture { data: pixels.to_vec(), width, height, stride: width };
    if matches!(task, Task::Whole(_)) && is_tie(&source) {
        return None;
    }
    Some(match answer(&source, task) {
        Err(number) => format!("refused {number}\n").into_bytes(),
        Ok((mut out, direction, length, estimate)) => {
            out.extend(job);
            let result = out.len() - 32;
            out[result + 4] = direction;
            out[result + 8..result + 10].copy_from_slice(&(length as u16).to_le_bytes());
            out[result + 24..].copy_from_slice(&estimate.to_le_bytes());
            out
        }
    })
}
