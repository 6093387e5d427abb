//! Room that a workspace keeps from call to call.

/// Just so many elements. No more are kept than the largest picture so far needed, where `resize` alone would double.
pub(crate) fn room<T: Copy + Default>(kept: &mut Vec<T>, len: usize) -> &mut [T] {
    kept.reserve_exact(len.saturating_sub(kept.len()));
    kept.resize(len, T::default());
    kept
}
