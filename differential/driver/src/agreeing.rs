//! The copy of a file in whose stead the published Rust is asked, where it would read the file's facts
//! otherwise than document 02 does. In the copy "no" is recorded on each of the six that can never be a
//! symbol (N9), and no call that tree-shake-only keeps before purity is annotated or listed (N5).

use crate::called;
use crate::never_symbol;

/// Records what makes the file its copy.
pub fn record(file: &mut [u8]) {
    never_symbol::record_no(file);
    called::take_back(file);
}

pub fn copy(file: &[u8]) -> Vec<u8> {
    let mut copy = file.to_vec();
    record(&mut copy);
    copy
}

/// The same of an answer, which is empty if the tree is removable.
pub fn answer(answer: &[u8]) -> Vec<u8> {
    if answer.is_empty() { Vec::new() } else { copy(answer) }
}
