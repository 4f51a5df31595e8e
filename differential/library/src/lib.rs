//! The proved library's C functions, as `include/uxt.h` of the repository declares them, and guarded memory
//! to lend to them.

pub mod fault;
pub mod guarded;

unsafe extern "C" {
    fn uxt_check(src: *const u8, src_len: usize) -> u64;

    fn uxt_reduce(src: *const u8, src_len: usize, out: *mut u8, out_len: usize) -> u64;

    fn uxt_list_effects(
        src: *const u8,
        src_len: usize,
        entries: *mut u64,
        entries_len: usize,
    ) -> u64;

    fn uxt_list_effects_given(
        src: *const u8,
        src_len: usize,
        yes: *const u32,
        yes_len: usize,
        entries: *mut u64,
        entries_len: usize,
    ) -> u64;

    fn uxt_derived(
        scopes: *const u8,
        scopes_len: usize,
        ancestors: *const u8,
        ancestors_len: usize,
    ) -> u64;
}

/// The refusal's number (0: none) times 2^32, plus a length or a count.
pub struct Packed(u64);

impl Packed {
    pub fn number(&self) -> u64 {
        self.0 >> 32
    }

    pub fn value(&self) -> u64 {
        self.0 & 0xffff_ffff
    }
}

/// The number that Reduce would refuse the file with, room apart; 0: none.
pub fn check(file: &[u8]) -> u64 {
    // SAFETY: the pointer comes with the length of its slice.
    unsafe { uxt_check(file.as_ptr(), file.len()) }
}

/// The value is the length of the file written; 0, if the tree is removable.
pub fn reduce(file: &[u8], out: &mut [u8]) -> Packed {
    // SAFETY: each pointer comes with the length of its slice, and the two do not overlap.
    Packed(unsafe { uxt_reduce(file.as_ptr(), file.len(), out.as_mut_ptr(), out.len()) })
}

/// The value is the count of the entries written.
pub fn list_effects(file: &[u8], entries: &mut [u64]) -> Packed {
    // SAFETY: each pointer comes with the length of its slice, and the two do not overlap.
    Packed(unsafe {
        uxt_list_effects(file.as_ptr(), file.len(), entries.as_mut_ptr(), entries.len())
    })
}

/// The same where the places in `yes` count as yes.
pub fn list_effects_given(file: &[u8], yes: &[u32], entries: &mut [u64]) -> Packed {
    let (src, list, out) = (file.as_ptr(), yes.as_ptr(), entries.as_mut_ptr());
    // SAFETY: each pointer comes with the length of its slice, and no two overlap.
    Packed(unsafe { uxt_list_effects_given(src, file.len(), list, yes.len(), out, entries.len()) })
}

/// 0 for no, 1 for yes, or the refusal's number.
pub fn derived(scopes: &[u8], ancestors: &[u8]) -> u64 {
    // SAFETY: each pointer comes with the length of its slice.
    unsafe { uxt_derived(scopes.as_ptr(), scopes.len(), ancestors.as_ptr(), ancestors.len()) }
}
