use std::alloc::{alloc_zeroed, Layout};

/// So many zeros, or nothing where there is no memory for them. The system makes a page of them when it is first written to, so that what a
/// call does not use of a large output costs nothing; zeros written one by one would have every page made.
pub(crate) fn zeros(length: usize) -> Option<Vec<u8>> {
    let layout = Layout::array::<u8>(length).ok()?;
    if length == 0 {
        return Some(Vec::new());
    }
    // SAFETY: the layout has a byte at least.
    let start = unsafe { alloc_zeroed(layout) };
    if start.is_null() {
        return None;
    }
    // SAFETY: the bytes were just got from the allocator that vectors use, so many as the vector is told, and all of them are 0.
    Some(unsafe { Vec::from_raw_parts(start, length, length) })
}

#[cfg(test)]
mod tests {
    use super::*;

    #[test]
    fn zeros_are_zeros_or_none() {
        assert_eq!(zeros(0), Some(vec![]));
        assert_eq!(zeros(5), Some(vec![0; 5]));
        assert_eq!((zeros(isize::MAX as usize), zeros(usize::MAX)), (None, None));
    }
}
