//! Files with logicals, which List effects takes and Reduce refuses.

use port::{kind, sub};

use crate::file::{self, HEADER, WIDTH_2};
use crate::never_symbol;
use crate::random::Random;

/// A copy in which binaries have become logicals, which take the same children.
pub fn with_logicals(random: &mut Random, file: &[u8]) -> Vec<u8> {
    let mut file = file.to_vec();
    let share = random.pick(&[64, 160, 256]);
    for i in 0..file::count(&file) {
        let record = file::record_mut(&mut file, i);
        if record[0] == kind::BINARY && random.chance(share) {
            record[0] = kind::LOGICAL;
            record[2] = random.pick(&[sub::AND, sub::OR]);
        }
    }
    // A logical counts by its string fact, where the addition that it was did not.
    never_symbol::take_back_yes(&mut file);
    file
}

/// Whether any record is one.
pub fn has_logicals(file: &[u8]) -> bool {
    (0..file::count(file)).any(|i| file::record(file, i)[0] == kind::LOGICAL)
}

/// A copy in which each logical has become a conditional with a leaf that has no effect as its other
/// arm: `a && b` is `a ? b : 1`, and `a || b` is `a ? 1 : b`. Under every list both have the same
/// effects, but for the kind in the coercion of such a node.
pub fn as_conditionals(file: &[u8]) -> Vec<u8> {
    let mut copy = file[..HEADER].to_vec();
    let end = write(file, 0, &mut copy);
    assert_eq!(end, file::count(file), "records are left over");
    let records = (copy.len() - HEADER) / file::width(file);
    copy[6..HEADER].copy_from_slice(&(records as u16).to_le_bytes());
    copy
}

/// The entry for the conditional that a logical has become.
pub fn as_conditional(entry: u64) -> u64 {
    let coerced = |kind: u8| u64::from(kind) * 2 + 1;
    let (place, node) = (entry / 512, entry % 512);
    let node = if node == coerced(kind::LOGICAL) { coerced(kind::CONDITIONAL) } else { node };
    place * 512 + node
}

/// In version 1 without its end.
const LEAF: [u8; WIDTH_2] =
    [kind::OTHER_LEAF, 0, 0, 0, 0, 0, 1, 0, 0, 0, 0, 0, 0, 0, 0, 0, 0, 0, 0, 0];

/// Writes the node of record `i`; answers with the record behind it.
fn write(file: &[u8], i: usize, copy: &mut Vec<u8>) -> usize {
    let record = file::record(file, i);
    let leaf = &LEAF[..record.len()];
    let (operator, children) = (record[2], u16::from_le_bytes([record[4], record[5]]));
    let logical = record[0] == kind::LOGICAL;
    let at = copy.len();
    copy.extend(record);
    let mut next = i + 1;
    for child in 0..children {
        if logical && operator == sub::OR && child == 1 {
            copy.extend(leaf);
        }
        next = write(file, next, copy);
    }
    if logical {
        if operator == sub::AND {
            copy.extend(leaf);
        }
        [copy[at], copy[at + 2], copy[at + 4]] = [kind::CONDITIONAL, 0, 3];
    }
    let size = (copy.len() - at) / record.len();
    copy[at + 6..at + 8].copy_from_slice(&(size as u16).to_le_bytes());
    next
}
