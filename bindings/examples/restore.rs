use smear::job::{restore, JobConfig, JobWorkspace};
use smear::{Gray8View, Gray8ViewMut};

const W: usize = 60;
const H: usize = 60;

fn main() -> Result<(), smear::ImgProcError> {
    // bars of 12 columns, smeared over 5
    let bar = |x: usize, y: usize| if (x / 12 + y / 2) % 2 == 0 { 0 } else { 250 };
    let smeared = |x: usize, y: usize| (0..5).map(|k| bar(x + k, y)).sum::<u32>() / 5;
    let picture: Vec<u8> = (0..W * H).map(|i| smeared(i % W, i / W) as u8).collect();

    let mut out = vec![0; W * H];
    let src = Gray8View::new(&picture, W, H, W)?;
    let dst = Gray8ViewMut::new(&mut out, W, H, W)?;
    let smear = restore(src, dst, &JobConfig::default(), &mut JobWorkspace::default())?;
    println!("{:?}, {} pixels", smear.direction, smear.blur_length);
    Ok(())
}
