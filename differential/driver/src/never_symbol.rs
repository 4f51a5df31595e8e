//! "What can never be a symbol" (02, N9), read off a file's bytes from the last record to the first, where
//! the port goes from the first to the last. The files are well formed.

use port::{kind, sub};

use crate::file;

/// The six.
#[derive(Clone, Copy, Debug, PartialEq, Eq)]
pub enum Never {
    Void,
    Not,
    Typeof,
    Comparison,
    Template,
    /// With a string part.
    Addition,
}

const UNKNOWN: u8 = 0;
const NO: u8 = 1;
const YES: u8 = 2;

/// For each record which of the six it is. "An addition on the left is a string if its left or its right
/// is; any other side by its string fact."
pub fn six(file: &[u8]) -> Vec<Option<Never>> {
    let count = file::count(file);
    let (mut six, mut is_string) = (vec![None; count], vec![false; count]);
    let string_fact = |i: usize| file::record(file, i)[1] >> 3 & 3 == YES;
    for i in (0..count).rev() {
        let (kind, sub) = (file::record(file, i)[0], file::record(file, i)[2]);
        if (kind, sub) == (kind::BINARY, sub::ADDITION) {
            is_string[i] = is_string[i + 1] || string_fact(file::after(file, i + 1));
            six[i] = is_string[i].then_some(Never::Addition);
        } else {
            is_string[i] = string_fact(i);
            six[i] = by_head(kind, sub);
        }
    }
    six
}

/// Of the five that kind and sub tell.
pub fn by_head(kind: u8, sub: u8) -> Option<Never> {
    match (kind, sub) {
        (kind::UNARY, sub::VOID) => Some(Never::Void),
        (kind::UNARY, sub::NOT) => Some(Never::Not),
        (kind::UNARY, sub::TYPEOF) => Some(Never::Typeof),
        (kind::BINARY, sub::COMPARISON) => Some(Never::Comparison),
        (kind::TEMPLATE, _) => Some(Never::Template),
        _ => None,
    }
}

fn symbol(file: &[u8], i: usize) -> u8 {
    file::record(file, i)[1] >> 1 & 3
}

/// Records this symbol fact on those of the six that have another, if `of` that one.
fn record(file: &mut [u8], new: u8, of: impl Fn(u8) -> bool) {
    for (i, never) in six(file).into_iter().enumerate() {
        if never.is_some() && of(symbol(file, i)) {
            let facts = &mut file::record_mut(file, i)[1];
            *facts = *facts & !6 | new << 1;
        }
    }
}

/// Records "no" on each of the six.
pub fn record_no(file: &mut [u8]) {
    record(file, NO, |_| true);
}

/// Takes back each "yes" on one of the six, which would be refused.
pub fn take_back_yes(file: &mut [u8]) {
    record(file, UNKNOWN, |symbol| symbol == YES);
}

/// Records "yes" in a record, and no string fact that would need "no".
pub fn record_yes(record: &mut [u8]) {
    let not_string = record[1] & 8;
    record[1] = record[1] & !30 | YES << 1 | not_string;
}

/// The additions with a string part that record "yes".
pub fn bad_additions(file: &[u8]) -> usize {
    let six = six(file).into_iter().enumerate();
    six.filter(|&(i, never)| never == Some(Never::Addition) && symbol(file, i) == YES).count()
}
