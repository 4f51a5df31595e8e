//! What is left of tree files, as the program `reductions` prints it.

use crate::file::{self, HEADER};
use crate::side::{Reduction, Side};

/// For each case of the input, in the input's order: `refused` and the number, `removable`, or `kept`
/// and the length, then the answer's bytes in hexadecimal, a line for the header and one for each
/// record; and behind any of them `tail`, how many lent bytes stand behind the answer, and how many
/// of these have changed. A case that is cut short ends the input.
pub fn text(side: &dyn Side, mut input: &[u8]) -> String {
    let mut text = String::new();
    while let Some((case, rest)) = split(input) {
        input = rest;
        let mut out = vec![case.fill; case.lent];
        let reduction = side.reduce(case.file, &mut out);
        text += &answer(reduction, &out);
        let tail = &out[reduction.length..];
        let changed = tail.iter().filter(|&&byte| byte != case.fill).count();
        text += &format!("tail {} {changed}\n", tail.len());
    }
    text
}

fn answer(reduction: Reduction, out: &[u8]) -> String {
    let Reduction { number, length } = reduction;
    if number != 0 {
        return format!("refused {number}\n");
    }
    if length == 0 {
        return "removable\n".to_string();
    }
    let (header, records) = out[..length].split_at(HEADER);
    let mut text = format!("kept {length}\n") + &line(header);
    for record in records.chunks(file::width(header)) {
        text += &line(record);
    }
    text
}

fn line(bytes: &[u8]) -> String {
    bytes.iter().map(|byte| format!("{byte:02x}")).collect::<String>() + "\n"
}

struct Case<'a> {
    lent: usize,
    /// What each lent byte holds before.
    fill: u8,
    file: &'a [u8],
}

/// The first case of the input, and what comes after it: the file's length and how many bytes are
/// lent in two bytes each, the fill, and the file.
fn split(input: &[u8]) -> Option<(Case<'_>, &[u8])> {
    let (&[a, b, c, d, fill], rest) = input.split_first_chunk::<5>()?;
    let (file, rest) = rest.split_at_checked(u16::from_le_bytes([a, b]).into())?;
    Some((Case { lent: u16::from_le_bytes([c, d]).into(), fill, file }, rest))
}
