//! The smear stage for Rust: measures the line smear of a grey picture and takes it out.
//! The work is done by the proved library `libsmear_c`; this crate gives its calls the names of qr-lab's `qr-lab-image`
//! and `qr-lab-imgproc`, and their signatures but where an angle may have no direction.
//!
//! A caller of qr-lab changes `use` lines:
//!
//! | qr-lab | here |
//! |---|---|
//! | `qr_lab_image::{Gray8View, Gray8ViewMut}` | `smear::{Gray8View, Gray8ViewMut}` |
//! | `qr_lab_imgproc::{blur, deblur, sharpen}` | `smear::{blur, deblur, sharpen}` |
//! | `qr_lab_imgproc::{ImgProcError, ImgProcResult}` | `smear::{ImgProcError, ImgProcResult}` |
//!
//! An angle has no direction where it or its value in degrees is not finite, which qr-lab takes for Horizontal. Callers
//! meet that in the answers: of [`blur::RasterDirection4::from_angle`] and
//! [`deblur::VanCittertConfig::raster_direction`] an `Option`, of [`blur::estimate_line_length`] and
//! [`blur::estimate_line_length_with`] a `Result`.
//!
//! [`resize::box_downscale_half`] writes into the caller's picture, where that of `qr_lab_imgproc::internal` answers a
//! `Vec`, and refuses what that has `None` for.
//!
//! Added are [`job::restore`], [`deblur::van_cittert_estimate_into`], the border [`deblur::LineBorderMode::Wrap`],
//! [`resize::halve`], [`summary::summarize`], [`pgm::read`] and [`pgm::write`]. Sides of more than 1,024 pixels, more
//! than 22 iterations and more than 10 halvings are refused.

#![deny(unsafe_code)]
#![warn(missing_docs)]

pub mod blur;
pub mod deblur;
mod error;
#[allow(unsafe_code)]
mod ffi;
pub mod job;
pub mod pgm;
#[allow(dead_code)] // all that the header declares
mod raw;
pub mod resize;
mod room;
pub mod sharpen;
pub mod summary;
mod view;

pub use error::{FaultyRecord, ImageError, ImgProcError, ImgProcResult, LumaError, PgmError};
pub use view::{Gray8View, Gray8ViewMut, Size};
