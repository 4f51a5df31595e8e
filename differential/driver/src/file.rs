//! A tree file's bytes, read without the port.

pub const HEADER: usize = 8;
/// How many bytes a record of version 1 has, and one of version 2: "the last four the end" (02, N6).
pub const WIDTH_1: usize = 16;
pub const WIDTH_2: usize = 20;

/// How many bytes a record of a file has, whose header begins like this one. Any bytes will do.
pub fn width(file: &[u8]) -> usize {
    if file.get(3) == Some(&2) { WIDTH_2 } else { WIDTH_1 }
}

/// The record count that the header gives.
pub fn count(file: &[u8]) -> usize {
    u16::from_le_bytes([file[6], file[7]]).into()
}

/// The bytes of record `i`.
pub fn record(file: &[u8], i: usize) -> &[u8] {
    let width = width(file);
    &file[HEADER + width * i..][..width]
}

pub fn record_mut(file: &mut [u8], i: usize) -> &mut [u8] {
    let width = width(file);
    &mut file[HEADER + width * i..][..width]
}

/// The number that stands in a record from this byte on.
pub fn number(record: &[u8], at: usize) -> u32 {
    u32::from_le_bytes([record[at], record[at + 1], record[at + 2], record[at + 3]])
}

fn size(file: &[u8], i: usize) -> usize {
    u16::from_le_bytes([record(file, i)[6], record(file, i)[7]]).into()
}

/// The record after `i` and all that is under it.
pub fn after(file: &[u8], i: usize) -> usize {
    i + size(file, i)
}

/// The file has as many bytes as its header's version and record count call for.
pub fn is_whole(file: &[u8]) -> bool {
    file.len() >= HEADER && file.len() == HEADER + width(file) * count(file)
}

/// The files of an input, each of which stands behind its length in two bytes. One that is cut
/// short ends the input.
pub fn framed(mut input: &[u8]) -> impl Iterator<Item = &[u8]> {
    std::iter::from_fn(move || {
        let (length, rest) = input.split_first_chunk::<2>()?;
        let (file, rest) = rest.split_at_checked(u16::from_le_bytes(*length).into())?;
        input = rest;
        Some(file)
    })
}

/// The least output length for Reduce: "8 + 16 × (2 × N − 1)", and 20 for 16 in version 2.
pub fn output_room(file: &[u8]) -> usize {
    room(width(file), count(file))
}

/// The same of so many records of this width.
pub const fn room(width: usize, records: usize) -> usize {
    HEADER + width * (2 * records - 1)
}

/// The parent of each record of a well-formed file, and its depth; the root has no parent.
pub fn parents_and_depths(file: &[u8]) -> Vec<(Option<usize>, usize)> {
    let mut above: Vec<usize> = Vec::new();
    let mut result = Vec::with_capacity(count(file));
    for i in 0..count(file) {
        while above.last().is_some_and(|&node| node + size(file, node) <= i) {
            above.pop();
        }
        result.push((above.last().copied(), above.len() + 1));
        above.push(i);
    }
    result
}

/// How deep the tree is; "root 1".
pub fn depth(file: &[u8]) -> usize {
    parents_and_depths(file).into_iter().map(|(_, depth)| depth).max().unwrap_or(0)
}

/// The tree as text, a line for each record.
pub fn show(file: &[u8]) -> String {
    let mut text = format!("version {}, settings {}, {} records\n", file[3], file[5], count(file));
    for (i, (_, depth)) in parents_and_depths(file).into_iter().enumerate() {
        let r = record(file, i);
        let (kind, facts, sub, count) = (r[0], r[1], r[2], u16::from_le_bytes([r[4], r[5]]));
        let end = if r.len() == WIDTH_2 { format!("..{}", number(r, 16)) } else { String::new() };
        text += &"  ".repeat(depth);
        text += &format!("kind {kind} facts {facts} sub {sub} children {count}");
        text += &format!(" text {} place {}{end}\n", number(r, 8), number(r, 12));
    }
    text
}
