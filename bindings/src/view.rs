//! Pictures in borrowed bytes. A view that there is has an accepted layout.

use crate::error::LumaError;

/// Width and height in pixels.
#[derive(Clone, Copy, Debug, PartialEq, Eq, Hash)]
pub struct Size {
    /// Width in pixels.
    pub width: usize,
    /// Height in pixels.
    pub height: usize,
}

/// A picture to be read: pixel `(x, y)` is byte `y * stride + x`.
#[derive(Clone, Copy, Debug)]
pub struct Gray8View<'a> {
    data: &'a [u8],
    width: usize,
    height: usize,
    stride: usize,
}

/// A picture to be written.
#[derive(Debug)]
pub struct Gray8ViewMut<'a> {
    data: &'a mut [u8],
    width: usize,
    height: usize,
    stride: usize,
}

/// Refusals 1 to 4, first match wins.
fn validate_layout(len: usize, width: usize, height: usize, stride: usize) -> Result<(), LumaError> {
    if width == 0 || height == 0 {
        return Err(LumaError::EmptyDimensions);
    }
    if width > 1024 || height > 1024 {
        return Err(LumaError::DimensionsTooLarge);
    }
    if stride < width {
        return Err(LumaError::StrideTooSmall);
    }
    match stride.checked_mul(height - 1).and_then(|rows| rows.checked_add(width)) {
        Some(needed) if needed <= len => Ok(()),
        _ => Err(LumaError::BufferTooSmall),
    }
}

/// What both views say of their layout.
macro_rules! layout {
    () => {
        /// Width in pixels.
        pub const fn width(&self) -> usize {
            self.width
        }

        /// Height in pixels.
        pub const fn height(&self) -> usize {
            self.height
        }

        /// Bytes from one row to the next.
        pub const fn stride(&self) -> usize {
            self.stride
        }

        /// Width and height.
        pub const fn size(&self) -> Size {
            Size { width: self.width, height: self.height }
        }
    };
}

impl<'a> Gray8View<'a> {
    /// Borrow `data` as a picture. `stride` is the number of bytes from one row to the next:
    /// `width` where there is no padding.
    pub fn new(data: &'a [u8], width: usize, height: usize, stride: usize) -> Result<Self, LumaError> {
        validate_layout(data.len(), width, height, stride)?;
        Ok(Self { data, width, height, stride })
    }

    /// The pixel at `(x, y)`. Panics outside the picture.
    pub fn get(&self, x: usize, y: usize) -> u8 {
        self.row(y)[x]
    }

    /// The pixel at `(x, y)`, or `None` outside the picture.
    pub fn try_get(&self, x: usize, y: usize) -> Option<u8> {
        (x < self.width && y < self.height).then(|| self.get(x, y))
    }

    /// The pixels of a row. Panics outside the picture.
    pub fn row(&self, y: usize) -> &'a [u8] {
        assert!(y < self.height, "row {y} of {}", self.height);
        &self.data[y * self.stride..][..self.width]
    }

    layout!();

    /// The borrowed bytes, padding and surplus included.
    pub(crate) fn bytes(&self) -> &'a [u8] {
        self.data
    }
}

impl<'a> Gray8ViewMut<'a> {
    /// Borrow `data` as a picture to be written.
    pub fn new(data: &'a mut [u8], width: usize, height: usize, stride: usize) -> Result<Self, LumaError> {
        validate_layout(data.len(), width, height, stride)?;
        Ok(Self { data, width, height, stride })
    }

    /// The pixel at `(x, y)`. Panics outside the picture.
    pub fn get(&self, x: usize, y: usize) -> u8 {
        self.as_view().get(x, y)
    }

    /// Write the pixel at `(x, y)`. Panics outside the picture.
    pub fn set(&mut self, x: usize, y: usize, value: u8) {
        self.row_mut(y)[x] = value;
    }

    /// The pixels of a row. Panics outside the picture.
    pub fn row(&self, y: usize) -> &[u8] {
        self.as_view().row(y)
    }

    /// The pixels of a row, to be written. Panics outside the picture.
    pub fn row_mut(&mut self, y: usize) -> &mut [u8] {
        assert!(y < self.height, "row {y} of {}", self.height);
        &mut self.data[y * self.stride..][..self.width]
    }

    /// The picture, to be read.
    pub fn as_view(&self) -> Gray8View<'_> {
        Gray8View { data: self.data, width: self.width, height: self.height, stride: self.stride }
    }

    layout!();

    /// The borrowed bytes, padding and surplus included.
    pub(crate) fn bytes(&mut self) -> &mut [u8] {
        self.data
    }
}
