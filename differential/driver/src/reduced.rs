//! Reduce's answers to tree files in a line each, as `tools/stack.c` of the repository prints them.

use crate::file;
use crate::side::Side;

/// Enough for any file that Reduce takes: 8 + 20 × (2 × 2,000 − 1).
pub const OUT: usize = 79_988;

/// For each file of the input, which stands behind its length in two bytes: the number of the
/// refusal, the length of the answer and the hash of its bytes.
pub fn text(side: &dyn Side, input: &[u8]) -> String {
    let mut text = String::new();
    let mut out = vec![0; OUT];
    for file in file::framed(input) {
        let reduction = side.reduce(file, &mut out);
        let hash = hash(&out[..reduction.length]);
        text += &format!("{} {} {hash:016x}\n", reduction.number, reduction.length);
    }
    text
}

/// FNV-1a, 64 bits.
fn hash(bytes: &[u8]) -> u64 {
    bytes.iter().fold(0xcbf2_9ce4_8422_2325, |hash, &byte| {
        (hash ^ u64::from(byte)).wrapping_mul(0x0000_0100_0000_01b3)
    })
}
