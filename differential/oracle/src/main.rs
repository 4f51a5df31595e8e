//! The published handlers, compiled unchanged over a stand-in syntax tree.
//!
//! Reads requests from standard input until it ends, and answers each on standard output once it
//! has been read whole. All numbers are little-endian.
//!
//! - `R`, a 32-bit count, then that many tree files, each behind its 32-bit length: for each, the
//!   32-bit length of the reduced file and the file; length 0 if the tree is removable.
//! - `T`, a 32-bit number of files that make a group, then count and files as for `R`: for each
//!   group three 64-bit numbers, the nanoseconds that it took to read its files into trees, that the
//!   handlers took on the trees, and that it took to write the answers.
//! - `D`, a 32-bit count, then that many pairs of lists, scopes and ancestors, each behind its
//!   length in a byte: for each pair a byte, 1 for yes and 0 for no.
//!
//! Files are those that Reduce takes, and lists those that the Derived question takes; anything else
//! ends the run.

mod context;
mod decode;
mod derived;
mod encode;
mod peephole;

// What the published files name in their own crate.
pub use context::TraverseCtx;

pub enum CompressOptionsUnused {
    Keep,
    KeepAssign,
}

pub mod generated {
    pub mod ancestor {
        pub use crate::derived::Ancestor;
    }
}

pub mod symbol_value {
    use oxc_ast::left_out;

    #[derive(Clone, Copy, PartialEq, Eq)]
    pub enum FreshValueKind {
        None,
        Object,
        Array,
        Function,
        Class,
    }

    pub struct SymbolValue {
        pub kind: FreshValueKind,
        pub references: References,
    }

    pub struct References;

    impl References {
        pub fn has_reads(&self) -> bool {
            left_out("has_reads")
        }

        pub fn has_only_member_write_target_reads(&self) -> bool {
            left_out("has_only_member_write_target_reads")
        }
    }
}

use oxc_ast::ast::Expression;
use peephole::PeepholeOptimizations;
use std::hint::black_box;
use std::io::{self, BufReader, Read, Write};
use std::time::{Duration, Instant};

fn main() -> io::Result<()> {
    let mut input = BufReader::new(io::stdin().lock());
    let mut output = io::stdout().lock();
    let mut operation = [0];
    while input.read(&mut operation)? == 1 {
        let answers = match operation[0] {
            b'R' => reductions(&files(&mut input)?),
            b'T' => times(number(&mut input)?, &files(&mut input)?),
            b'D' => derived_answers(&mut input)?,
            other => panic!("no operation {other}"),
        };
        output.write_all(&answers)?;
        output.flush()?;
    }
    Ok(())
}

fn files(input: &mut impl Read) -> io::Result<Vec<Vec<u8>>> {
    let count = number(input)?;
    (0..count)
        .map(|_| {
            let length = number(input)?;
            bytes(input, length)
        })
        .collect()
}

fn reductions(files: &[Vec<u8>]) -> Vec<u8> {
    let mut answers = Vec::new();
    for file in files {
        let (mut tree, mut ctx) = decode::tree(file);
        let removable = PeepholeOptimizations::remove_unused_expression(&mut tree, &mut ctx);
        let answer = answer(file, &tree, removable);
        answers.extend((answer.len() as u32).to_le_bytes());
        answers.extend(answer);
    }
    answers
}

/// The reduced file; empty if the tree is removable.
fn answer(file: &[u8], tree: &Expression, removable: bool) -> Vec<u8> {
    if removable { Vec::new() } else { encode::file(file, tree) }
}

/// Goes through the files, so many at a time.
fn times(group: u32, files: &[Vec<u8>]) -> Vec<u8> {
    let times = files.chunks(group as usize).flat_map(steps);
    times.flat_map(|time| (time.as_nanos() as u64).to_le_bytes()).collect()
}

/// What each step takes on all files. Trees and answers are dropped outside of the times, but what
/// the handlers themselves drop is in theirs.
fn steps(files: &[Vec<u8>]) -> [Duration; 3] {
    let start = Instant::now();
    let mut trees: Vec<_> = files.iter().map(|file| decode::tree(file)).collect();
    let read = Instant::now();
    let removable: Vec<bool> = trees
        .iter_mut()
        .map(|(tree, ctx)| PeepholeOptimizations::remove_unused_expression(tree, ctx))
        .collect();
    let reduced = Instant::now();
    let kept = files.iter().zip(&trees).zip(removable);
    let answers: Vec<_> =
        kept.map(|((file, (tree, _)), removable)| answer(file, tree, removable)).collect();
    let written = Instant::now();
    black_box(answers);
    [read - start, reduced - read, written - reduced]
}

fn derived_answers(input: &mut impl Read) -> io::Result<Vec<u8>> {
    let mut answers = Vec::new();
    for _ in 0..number(input)? {
        let scopes = list(input)?;
        let ancestors = list(input)?;
        answers.push(derived::answer(&scopes, &ancestors).into());
    }
    Ok(answers)
}

fn number(input: &mut impl Read) -> io::Result<u32> {
    let mut number = [0; 4];
    input.read_exact(&mut number)?;
    Ok(u32::from_le_bytes(number))
}

fn list(input: &mut impl Read) -> io::Result<Vec<u8>> {
    let mut length = [0];
    input.read_exact(&mut length)?;
    bytes(input, length[0].into())
}

fn bytes(input: &mut impl Read, length: u32) -> io::Result<Vec<u8>> {
    let mut bytes = vec![0; length as usize];
    input.read_exact(&mut bytes)?;
    Ok(bytes)
}
