//! The call of the library, behind the only unsafe code of this program.

unsafe extern "C" {
    fn fairline_list(trace: *const u8, trace_len: usize, out: *mut u8, out_len: usize) -> i64;
}

/// Hands the trace and the buffer to the library and gives its answer.
pub fn list(trace: &[u8], out: &mut [u8]) -> i64 {
    // Both pointers are good for the lengths beside them until the call is back, and the library keeps neither.
    unsafe { fairline_list(trace.as_ptr(), trace.len(), out.as_mut_ptr(), out.len()) }
}
