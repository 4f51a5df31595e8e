//! "Places with both ends" (02, N6): files of version 1 with ends added, and of version 2 without them.

use crate::file::{self, HEADER, WIDTH_1, WIDTH_2};
use crate::random::Random;

/// A copy of a file of version 1 in version 2: each record gets an end, its start or what lies behind it.
pub fn added(random: &mut Random, file: &[u8]) -> Vec<u8> {
    let most = random.pick(&[1, 4, 40, u32::MAX as usize]);
    let mut copy = headed(file, 2);
    for record in file[HEADER..].chunks(WIDTH_1) {
        let length = random.between(0, most) as u32;
        copy.extend(record);
        copy.extend(file::number(record, 12).saturating_add(length).to_le_bytes());
    }
    copy
}

/// A copy in version 1 of a file or of an answer, which is empty if the tree is removable.
pub fn dropped(file: &[u8]) -> Vec<u8> {
    if file.is_empty() || file::width(file) == WIDTH_1 {
        return file.to_vec();
    }
    let mut copy = headed(file, 1);
    file[HEADER..].chunks(WIDTH_2).for_each(|record| copy.extend(&record[..WIDTH_1]));
    copy
}

fn headed(file: &[u8], version: u8) -> Vec<u8> {
    let mut header = file[..HEADER].to_vec();
    header[3] = version;
    header
}

/// Each start and end of this answer, if of version 2, is that of one node of this file.
pub fn are_of(answer: &[u8], file: &[u8]) -> bool {
    if file::width(answer) == WIDTH_1 {
        return true;
    }
    let spans = |file: &[u8]| -> Vec<[u8; 8]> {
        let span = |record: &[u8]| *record.last_chunk().expect("start and end");
        file[HEADER..].chunks(WIDTH_2).map(span).collect()
    };
    let mut of_file = spans(file);
    of_file.sort_unstable();
    spans(answer).iter().all(|span| of_file.binary_search(span).is_ok())
}

/// Puts a record's end before its start, which is made 1 if nothing lies before it.
pub fn put_before(random: &mut Random, record: &mut [u8]) {
    let start = file::number(record, 12).max(1);
    let any = random.below(start as usize) as u32;
    let end = random.pick(&[start - 1, start - 1, 0, any]);
    record[12..16].copy_from_slice(&start.to_le_bytes());
    record[16..].copy_from_slice(&end.to_le_bytes());
}
