//! Pictures as binary PGM, Netpbm's P5: one picture a file, of 8 bits a pixel.
//!
//! ```
//! use smear::{pgm, Gray8View, PgmError};
//!
//! fn main() -> Result<(), PgmError> {
//!     let row = Gray8View::new(&[10, 10, 40, 10, 10], 5, 1, 5)?;
//!     let mut file = vec![0; pgm::LONGEST_HEADER + row.width() * row.height()];
//!     let length = pgm::write(row, &mut file)?;
//!     file.truncate(length);
//!     assert_eq!(file, b"P5\n5\n1\n255\n\x0A\x0A\x28\x0A\x0A");
//!
//!     let picture = pgm::read(&file)?;
//!     assert_eq!((picture.size(), picture.row(0)), (row.size(), row.row(0)));
//!     Ok(())
//! }
//! ```

use crate::error::{LumaError, PgmError};
use crate::ffi;
use crate::view::Gray8View;

/// The most bytes that [`write`] puts before the pixels: those of a picture of 1,000 pixels or more a side.
pub const LONGEST_HEADER: usize = 17;

/// The error that goes with a refusal's number, 0 being none.
fn answer(refusal: u8) -> Result<(), PgmError> {
    Err(match refusal {
        0 => return Ok(()),
        1 => LumaError::EmptyDimensions.into(),
        2 => LumaError::DimensionsTooLarge.into(),
        5 => PgmError::OutputTooSmall,
        14 => PgmError::InvalidHeader,
        15 => PgmError::UnsupportedMaximum,
        16 => PgmError::PixelCountMismatch,
        _ => unreachable!("a view has an accepted layout: refusal {refusal}"),
    })
}

/// The picture in a file's bytes, which it borrows.
pub fn read(file: &[u8]) -> Result<Gray8View<'_>, PgmError> {
    let (refusal, (width, height, start)) = ffi::read_pgm(file);
    answer(refusal)?;
    Ok(Gray8View::new(&file[start..], width, height, width)?)
}

/// Writes the picture's file into the front of `out`, and answers its length: at most [`LONGEST_HEADER`] and a byte a
/// pixel. The bytes behind it stay, and where `out` is too short, all do.
pub fn write(src: Gray8View<'_>, out: &mut [u8]) -> Result<usize, PgmError> {
    let (refusal, written) = ffi::write_pgm(src, out);
    answer(refusal)?;
    Ok(written)
}
