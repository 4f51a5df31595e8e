//! The effects of tree files, as the program `listings` prints them.

use crate::file;
use crate::side::Side;

/// Enough for any file that List effects takes: twice the 3,999 records.
pub const ENTRIES: usize = 7_998;

/// For each file of the input, which stands behind its length in two bytes: `count` and the number
/// of its effects, then a line for each, place/kind/coercion; or `refused` and the number.
pub fn text(side: &dyn Side, input: &[u8]) -> String {
    let mut text = String::new();
    let mut entries = vec![0; ENTRIES];
    for file in file::framed(input) {
        let listing = side.list_effects(file, &mut entries);
        if listing.number != 0 {
            text += &format!("refused {}\n", listing.number);
            continue;
        }
        text += &format!("count {}\n", listing.count);
        for &entry in &entries[..listing.count] {
            text += &(column(entry) + "\n");
        }
    }
    text
}

/// "An effect is place × 512 + kind × 2 + 1 if a coercion."
pub fn column(entry: u64) -> String {
    format!("{}/{}/{}", entry / 512, entry / 2 % 256, entry % 2)
}
