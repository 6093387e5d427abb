//! How much the crate allocates for a picture: a line filter three i32 for each pixel of the longest side (document 02,
//! K5), the whole job a record for each pixel besides, halvings a byte for each pixel (K8), a single one nothing; and
//! none of them anything for one that is no larger. A workspace that grows has no more than the larger picture needs.

use smear::deblur::{directional_unsharp_line_into, van_cittert_estimate_into, van_cittert_line_into, DeblurWorkspace};
use smear::job::{restore, JobWorkspace};
use smear::resize::{box_downscale_half, halve, halved_size, ResizeWorkspace};
use smear::{Gray8View, Gray8ViewMut, ImgProcError};
use std::alloc::{GlobalAlloc, Layout, System};
use std::cell::Cell;

thread_local!(static ALLOCATED: Cell<usize> = const { Cell::new(0) });

/// Counts the bytes that a thread asks for.
struct Counting;

unsafe impl GlobalAlloc for Counting {
    unsafe fn alloc(&self, layout: Layout) -> *mut u8 {
        ALLOCATED.set(ALLOCATED.get() + layout.size());
        System.alloc(layout)
    }

    unsafe fn dealloc(&self, place: *mut u8, layout: Layout) {
        System.dealloc(place, layout)
    }
}

#[global_allocator]
static COUNTING: Counting = Counting;

fn allocated(run: impl FnOnce()) -> usize {
    let before = ALLOCATED.get();
    run();
    ALLOCATED.get() - before
}

/// A record: an f64 and an i32, aligned.
const RECORD: usize = 16;
const SIZES: [(usize, usize); 5] = [(1024, 1024), (1024, 1), (1, 1024), (5, 3), (3, 5)];

/// Stripes of each size.
fn with_pictures(mut run: impl FnMut(usize, usize, &[u8])) {
    for (width, height) in SIZES {
        let pixels: Vec<u8> = (0..width * height).map(|i| if i % width / 2 % 2 == 0 { 0 } else { 250 }).collect();
        run(width, height, &pixels);
    }
}

#[test]
fn a_line_filter_keeps_three_parts_of_the_longest_line() {
    with_pictures(|width, height, pixels| {
        let src = Gray8View::new(pixels, width, height, width).unwrap();
        let (mut out, mut estimates) = (vec![0; pixels.len()], vec![0; pixels.len()]);
        let needed = 3 * 4 * width.max(height);

        let restored = allocated(|| {
            let dst = Gray8ViewMut::new(&mut out, width, height, width).unwrap();
            van_cittert_line_into(src, dst, &Default::default(), &mut DeblurWorkspace::default()).unwrap();
        });
        let sharpened = allocated(|| {
            let dst = Gray8ViewMut::new(&mut out, width, height, width).unwrap();
            directional_unsharp_line_into(src, dst, &Default::default(), &mut DeblurWorkspace::default()).unwrap();
        });
        assert_eq!((restored, sharpened), (needed, needed));

        let mut workspace = DeblurWorkspace::default();
        let mut estimated = || {
            allocated(|| {
                van_cittert_estimate_into(src, &mut estimates, &Default::default(), &mut workspace).unwrap();
            })
        };
        assert_eq!((estimated(), estimated()), (needed, 0));
    });
}

#[test]
fn the_whole_job_keeps_a_record_for_each_pixel_besides() {
    let mut kept = JobWorkspace::default();
    with_pictures(|width, height, pixels| {
        let src = Gray8View::new(pixels, width, height, width).unwrap();
        let mut out = vec![0; pixels.len()];
        let mut job = |workspace: &mut JobWorkspace| {
            let dst = Gray8ViewMut::new(&mut out, width, height, width).unwrap();
            allocated(|| {
                // whatever it answers
                let _ = restore(src, dst, &Default::default(), workspace);
            })
        };
        let needed = 3 * 4 * width.max(height) + RECORD * width * height;
        assert_eq!(job(&mut JobWorkspace::default()), needed);
        // the first picture is the largest
        assert_eq!(job(&mut kept), if (width, height) == SIZES[0] { needed } else { 0 });
    });
}

#[test]
fn a_workspace_grows_to_what_the_larger_picture_needs() {
    let (mut lines, mut job) = (DeblurWorkspace::default(), JobWorkspace::default());
    for (side, smaller) in [(1000, 0), (1000, 1000), (1024, 1000)] {
        let pixels = vec![7; side * side];
        let src = Gray8View::new(&pixels, side, side, side).unwrap();
        let mut out = vec![0; side * side];
        let restored = allocated(|| {
            let dst = Gray8ViewMut::new(&mut out, side, side, side).unwrap();
            van_cittert_line_into(src, dst, &Default::default(), &mut lines).unwrap();
        });
        let whole = allocated(|| {
            let dst = Gray8ViewMut::new(&mut out, side, side, side).unwrap();
            assert_eq!(restore(src, dst, &Default::default(), &mut job), Err(ImgProcError::NoLength));
        });
        let grows = usize::from(side > smaller);
        assert_eq!((restored, whole), (grows * 12 * side, grows * (12 * side + RECORD * side * side)));
    }
}

#[test]
fn halvings_keep_a_byte_for_each_pixel() {
    let mut kept = ResizeWorkspace::default();
    with_pictures(|width, height, pixels| {
        let src = Gray8View::new(pixels, width, height, width).unwrap();
        let mut out = vec![0; pixels.len()];
        for count in (0..=10).filter(|&count| halved_size(src.size(), count).is_some()) {
            let left = halved_size(src.size(), count).unwrap();
            let mut halved = |workspace: &mut ResizeWorkspace| {
                let dst = Gray8ViewMut::new(&mut out, left.width, left.height, left.width).unwrap();
                allocated(|| halve(src, dst, count, workspace).unwrap())
            };
            assert_eq!(halved(&mut ResizeWorkspace::default()), width * height);
            // the first picture is the largest
            assert_eq!(halved(&mut kept), if ((width, height), count) == (SIZES[0], 0) { width * height } else { 0 });
        }
        let Some(half) = halved_size(src.size(), 1) else { return };
        let dst = Gray8ViewMut::new(&mut out, half.width, half.height, half.width).unwrap();
        assert_eq!(allocated(|| box_downscale_half(src, dst).unwrap()), 0);
    });
}
