//! What no function may do with what it is lent, done on purpose, for a test of the guards. Of use with
//! guarded memory only: elsewhere anything may happen.

/// Reads the byte before the items.
pub fn read_before<T>(lent: &[T]) {
    // SAFETY: none; this is the fault.
    unsafe { lent.as_ptr().cast::<u8>().wrapping_sub(1).read_volatile() };
}

/// Reads the byte behind the items.
pub fn read_behind<T>(lent: &[T]) {
    // SAFETY: none; this is the fault.
    unsafe { lent.as_ptr_range().end.cast::<u8>().read_volatile() };
}

/// Changes the last byte of the items, if there is one.
pub fn write_last<T>(lent: &[T]) {
    if lent.is_empty() {
        return;
    }
    let last = lent.as_ptr_range().end.cast::<u8>().wrapping_sub(1).cast_mut();
    // SAFETY: none; this is the fault.
    unsafe { last.write_volatile(!last.read_volatile()) };
}
