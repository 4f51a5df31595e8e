//! What sizes.c does, from Rust: prints how many bytes, records and effects the tree file of standard input has, and how many
//! are left.

use std::io::{self, Read};

// As include/uxt.h declares them.
#[link(name = "uxt", kind = "static")]
unsafe extern "C" {
    fn uxt_reduce(src: *const u8, src_len: usize, out: *mut u8, out_len: usize) -> u64;
    fn uxt_list_effects(src: *const u8, src_len: usize, entries: *mut u64, entries_len: usize) -> u64;
}

/// The number of the refusal, or the length of what was written to out: 0 if the tree is removable.
fn reduce(src: &[u8], out: &mut [u8]) -> Result<usize, u64> {
    // Each pointer stands with the length of its own slice, and the two cannot overlap.
    let answer = unsafe { uxt_reduce(src.as_ptr(), src.len(), out.as_mut_ptr(), out.len()) };
    if answer >> 32 == 0 { Ok(answer as usize) } else { Err(answer >> 32) }
}

fn list_effects(src: &[u8], entries: &mut [u64]) -> Result<usize, u64> {
    let answer = unsafe { uxt_list_effects(src.as_ptr(), src.len(), entries.as_mut_ptr(), entries.len()) };
    if answer >> 32 == 0 { Ok(answer as usize) } else { Err(answer >> 32) }
}

fn size(tree: &[u8]) -> Result<String, u64> {
    let records = u16::from_le_bytes([tree[6], tree[7]]);
    let effects = list_effects(tree, &mut vec![0; 2 * usize::from(records)])?;
    Ok(format!("{} bytes, {records} records, {effects} effects", tree.len()))
}

fn sizes(file: &[u8]) -> Result<String, u64> {
    let mut left = vec![0; 79988]; // UXT_MOST_OUT
    let length = reduce(file, &mut left)?;
    let after = if length == 0 { "removable".to_string() } else { size(&left[..length])? };
    Ok(format!("before: {}\nafter: {after}", size(file)?))
}

fn main() -> io::Result<()> {
    let mut file = Vec::new();
    io::stdin().take(40009).read_to_end(&mut file)?; // UXT_MOST_SRC and one byte more
    match sizes(&file) {
        Ok(text) => println!("{text}"),
        Err(number) => println!("refused {number}"),
    }
    Ok(())
}
