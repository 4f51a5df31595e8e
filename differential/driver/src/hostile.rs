//! Files that no exporter writes: trees changed by chance, and bytes that never were a tree. No number is
//! known to be due of them.

use std::array;

use crate::file::{self, HEADER, WIDTH_1, WIDTH_2};
use crate::random::Random;

/// A file made of this tree or of nothing.
pub fn file(random: &mut Random, tree: &[u8]) -> Vec<u8> {
    match random.below(7) {
        0 => flipped(random, tree.to_vec()),
        1 => cut(random, tree),
        2 => extended(random, tree.to_vec()),
        3 => spliced(random, tree.to_vec()),
        4 => bytes(random, 400),
        5 => headed(random, |random, _| array::from_fn(|_| random.draw() as u8)),
        _ => headed(random, plausible),
    }
}

/// So many bytes at most, each drawn by itself. Now and then as many as the longest files have.
fn bytes(random: &mut Random, most: usize) -> Vec<u8> {
    let most = if random.chance(1) { 80_000 } else { most };
    let length = random.between(0, most);
    (0..length).map(|_| random.draw() as u8).collect()
}

/// Scopes and ancestors: any bytes, or such as are taken.
pub fn lists(random: &mut Random) -> [Vec<u8>; 2] {
    let most = random.pick(&[4, 40, 40, 9_000]);
    [8, 5].map(|taken| {
        let bound = random.pick(&[taken, 256]);
        (0..random.between(0, most)).map(|_| random.below(bound) as u8).collect()
    })
}

/// All lengths from 0 to that of two records, of a few beginnings of each version.
pub fn beginnings(random: &mut Random) -> Vec<Vec<u8>> {
    /// Up to the start, which is 1.
    const LEAF: [u8; WIDTH_1] = [2, 1, 0, 0, 0, 0, 1, 0, 0, 0, 0, 0, 1, 0, 0, 0];
    const VOID: [u8; WIDTH_1] = [14, 1, 1, 0, 1, 0, 2, 0, 0, 0, 0, 0, 1, 0, 0, 0];
    const LONGEST: usize = HEADER + 2 * WIDTH_2;
    let header =
        |version: u8, settings: u8, count: u8| [b'U', b'X', b'T', version, 0, settings, count, 0];
    let narrow = |header: [u8; HEADER], first: [u8; WIDTH_1]| [&header[..], &first, &LEAF].concat();
    let wide = |header: [u8; HEADER], first: [u8; WIDTH_1], ends: [u8; 2]| {
        let end = |end: u8| [end, 0, 0, 0];
        [&header[..], &first, &end(ends[0]), &LEAF, &end(ends[1])].concat()
    };
    let whole = [
        narrow(header(1, 0, 1), LEAF),
        narrow(header(1, 7, 2), VOID),
        narrow(header(1, 0, 2), LEAF),
        narrow(header(1, 0, 0), LEAF),
        narrow(header(1, 8, 1), LEAF),
        narrow(header(2, 0, 2), VOID),
        wide(header(2, 0, 1), LEAF, [1, 1]),
        wide(header(2, 7, 2), VOID, [2, 1]),
        wide(header(2, 0, 2), VOID, [1, 0]),
        wide(header(1, 0, 2), VOID, [1, 1]),
        wide(header(3, 0, 1), LEAF, [1, 1]),
        vec![0; LONGEST],
        vec![255; LONGEST],
        (0..LONGEST).map(|_| random.draw() as u8).collect(),
    ];
    whole.iter().flat_map(|file| (0..=file.len()).map(|length| file[..length].to_vec())).collect()
}

// Trees, changed.

/// Some bits flipped, or some bytes drawn again.
fn flipped(random: &mut Random, mut file: Vec<u8>) -> Vec<u8> {
    let bits = random.chance(128);
    for _ in 0..random.between(1, 8) {
        let at = random.below(file.len());
        file[at] = if bits { file[at] ^ 1 << random.below(8) } else { random.draw() as u8 };
    }
    file
}

fn cut(random: &mut Random, file: &[u8]) -> Vec<u8> {
    let left = random.below(file.len());
    recounted(random, file[..left].to_vec())
}

fn extended(random: &mut Random, mut file: Vec<u8>) -> Vec<u8> {
    let more = random.between(1, 3 * WIDTH_2);
    file.extend((0..more).map(|_| random.draw() as u8));
    recounted(random, file)
}

/// Some records put in the place of others.
fn spliced(random: &mut Random, mut file: Vec<u8>) -> Vec<u8> {
    let (count, width) = (file::count(&file), file::width(&file));
    let moved = random.between(1, count.min(8));
    let [from, to] = [0; 2].map(|_| HEADER + width * random.between(0, count - moved));
    file.copy_within(from..from + width * moved, to);
    file
}

/// Half of them with whole records and a count that is right, so that what stands in the records is
/// looked at, too.
fn recounted(random: &mut Random, mut file: Vec<u8>) -> Vec<u8> {
    if file.len() >= HEADER && random.chance(128) {
        let width = file::width(&file);
        let count = (file.len() - HEADER) / width;
        file.truncate(HEADER + width * count);
        file[6..HEADER].copy_from_slice(&(count as u16).to_le_bytes());
    }
    file
}

// Never a tree.

/// A right header, and records that are drawn; those of version 1 have no end.
fn headed(random: &mut Random, record: impl Fn(&mut Random, usize) -> [u8; WIDTH_2]) -> Vec<u8> {
    let most = if random.chance(4) { 4_100 } else { 24 };
    let count = random.between(1, most);
    let mut file = b"UXT".to_vec();
    file.extend([random.between(1, 2) as u8, 0, random.below(8) as u8]);
    file.extend((count as u16).to_le_bytes());
    let width = file::width(&file);
    for _ in 0..count {
        file.extend(&record(random, count)[..width]);
    }
    file
}

/// A record of which each field could be right: with no children or few, and any size.
fn plausible(random: &mut Random, records: usize) -> [u8; WIDTH_2] {
    let kind = random.between(1, 22) as u8;
    let (facts, sub) = match kind {
        1 => (18, 0),
        2 => (random.pick(&[0, 18]), 0),
        // Symbol yes is for additions without a string part.
        15 => (random.pick(&[0, 0, 4]), random.between(1, 3) as u8),
        14 | 18..=20 => (0, random.between(1, 3) as u8),
        _ => (0, 0),
    };
    let children = random.below(4) as u8;
    let size = random.between(1, records) as u16;
    let [low, high] = random.pick(&[1, 2, size, size, u16::MAX]).to_le_bytes();
    let mut record = [0; WIDTH_2];
    record[..8].copy_from_slice(&[kind, facts, sub, 0, children, 0, low, high]);
    record[8..16].copy_from_slice(&random.draw().to_le_bytes());
    // Behind the start, or anywhere.
    let any = random.draw() as u32;
    let end = random.pick(&[u32::MAX, u32::MAX, u32::MAX, any]);
    record[16..].copy_from_slice(&end.to_le_bytes());
    record
}
