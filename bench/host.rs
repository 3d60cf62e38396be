//! The host call, over slices.

unsafe extern "C" {
    /// The rules of this call stand in `include/fairline.h`.
    fn fairline_list(trace: *const u8, trace_len: usize, out: *mut u8, out_len: usize) -> i64;
}

/// Writes the listing of a trace to the front of `out`, and answers its length, or the number that
/// the call was refused by.
pub fn list(trace: &[u8], out: &mut [u8]) -> Result<usize, u64> {
    // SAFETY: the pointers of the two slices are not null and are valid for their lengths. `out` is
    // borrowed by nobody else, so the two do not overlap.
    let answer = unsafe { fairline_list(trace.as_ptr(), trace.len(), out.as_mut_ptr(), out.len()) };
    usize::try_from(answer).map_err(|_| answer.unsigned_abs())
}
