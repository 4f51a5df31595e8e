//! "Called functions under tree-shake-only" (02, N5): the calls that are pure by document 01 and stay whole
//! now, read off a file's bytes. The files are well formed.

use port::kind;

use crate::file;

/// Bits of the settings.
const ANNOTATIONS: u8 = 1;
const TREE_SHAKE_ONLY: u8 = 2;
/// Bits of a call's facts.
const ANNOTATED: u8 = 32;
const LISTED: u8 = 64;

/// "The calls with tree-shake-only on, a callee of kind 3 or 4, and either annotated with annotations on
/// or listed."
pub fn calls(file: &[u8]) -> Vec<usize> {
    let settings = file[5];
    let counts = if settings & ANNOTATIONS == 0 { LISTED } else { ANNOTATED | LISTED };
    let is_one = |&i: &usize| {
        let record = file::record(file, i);
        record[0] == kind::CALL
            && record[1] & counts != 0
            && matches!(file::record(file, i + 1)[0], kind::FUNCTION | kind::ARROW)
    };
    if settings & TREE_SHAKE_ONLY == 0 {
        return Vec::new();
    }
    (0..file::count(file)).filter(is_one).collect()
}

/// Makes each of them neither annotated nor listed: by document 01 it is impure then, and stays.
pub fn take_back(file: &mut [u8]) {
    for call in calls(file) {
        file::record_mut(file, call)[1] &= !(ANNOTATED | LISTED);
    }
}
