//! Stands in for the crate dasp_slice, as far as the nodes use it. Document 01: `add_in_place` is a plain +.

#[inline]
pub fn add_in_place(a: &mut [f32], b: &[f32]) {
    assert_eq!(a.len(), b.len());
    for (a, b) in a.iter_mut().zip(b) {
        *a += *b;
    }
}
