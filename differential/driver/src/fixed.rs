//! The fixed list: a sample of the oracle's answers, to be replayed with no Rust at hand.
//!
//! Bytes 0–3 `UXTL`, 4–7 the number of cases; then for each case the length of a tree file in 4
//! bytes, the file, the length of the oracle's answer in 4 bytes (0: removable) and the answer.
//! Numbers are little-endian.

use crate::agreeing;
use crate::called_rows;
use crate::conditional_rows;
use crate::end_hits;
use crate::ends;
use crate::ends_rows;
use crate::hits::{self, HITS, Hit, Hits};
use crate::never_symbol_rows;
use crate::oracle::Oracle;
use crate::random::Random;
use crate::rows;
use crate::trees;
use port::Limits;
use std::io;
use std::ops::Range;

/// The list of the repository.
pub const LIST: &[u8] = include_bytes!("../../fixed/answers.bin");

const MARK: &[u8; 4] = b"UXTL";
/// Each outcome is met by so many cases at least.
const CASES_EACH: u64 = 4;
/// A case has at most so many records, so that the list stays small.
const ROOM: usize = 16;

pub struct Case {
    pub file: Vec<u8>,
    /// Empty: removable.
    pub answer: Vec<u8>,
}

/// Rows A to L, the corners, then seeded trees until every handler's every outcome is met often
/// enough; then the rows of conditionals and seeded trees with conditionals: all of facts that the oracle
/// reads as document 02 does, so that the answers are the oracle's. Then the rows of what can never be a
/// symbol, and of called functions, whose answers are written by hand. All these are of version 1; the
/// rest is of version 2.
pub fn make(oracle: &mut Oracle, seed: u64) -> io::Result<Vec<Case>> {
    let mut rows: Vec<Vec<u8>> = rows::rows().iter().map(|(_, tree, _)| tree.file()).collect();
    rows.extend(rows::corners().iter().map(|(_, tree, _)| tree.file()));
    let of_conditionals = conditional_rows::rows().into_iter().map(|(_, tree, _)| tree.file());
    let of_conditionals: Vec<Vec<u8>> = of_conditionals.collect();
    let mut files = rows.clone();
    files.extend(Sample::OF_01.files(seed));
    files.extend(of_conditionals.clone());
    files.extend(Sample::OF_CONDITIONALS.files(seed));
    let mut cases = answered(oracle, files)?;
    cases.extend(by_hand(oracle)?);
    let mut random = Random::new(seed);
    let rows = rows.iter().chain(&of_conditionals);
    let mut files: Vec<Vec<u8>> = rows.map(|file| ends::added(&mut random, file)).collect();
    files.extend(Sample::OF_ENDS.files(seed));
    cases.extend(answered(oracle, files)?);
    Ok(cases)
}

/// The oracle's answers to these files, whose facts are made those that it reads as document 02 does.
fn answered(oracle: &mut Oracle, mut files: Vec<Vec<u8>>) -> io::Result<Vec<Case>> {
    files.iter_mut().for_each(|file| agreeing::record(file));
    let answers = oracle.reduce(&files)?;
    Ok(files.into_iter().zip(answers).map(|(file, answer)| Case { file, answer }).collect())
}

/// The rows with answers written by hand: the oracle's to the copies, but for the recorded bits themselves.
fn by_hand(oracle: &mut Oracle) -> io::Result<Vec<Case>> {
    let never_symbols = never_symbol_rows::rows().into_iter().map(|(_, tree, answer)| Case {
        file: tree.file(),
        answer: answer.map_or_else(Vec::new, |answer| answer.file()),
    });
    let called = called_rows::rows().into_iter().map(|row| Case {
        file: row.tree.file_under(row.settings),
        answer: row.left.file_under(row.settings),
    });
    let with_ends = ends_rows::rows().into_iter().map(|(_, tree, answer)| Case {
        file: tree.file_with_ends(),
        answer: answer.file_with_ends(),
    });
    let cases: Vec<Case> = never_symbols.chain(called).chain(with_ends).collect();
    let copies: Vec<Vec<u8>> = cases.iter().map(|case| agreeing::copy(&case.file)).collect();
    let theirs = oracle.reduce(&copies)?;
    let same = |(case, theirs): (&Case, &Vec<u8>)| {
        agreeing::answer(&case.answer) == agreeing::answer(theirs)
    };
    match cases.iter().zip(&theirs).position(|both| !same(both)) {
        Some(row) => Err(io::Error::other(format!("the oracle answers otherwise to row {row}"))),
        None => Ok(cases),
    }
}

/// Seeded trees of these compounds until each of these outcomes is met.
struct Sample {
    compounds: &'static [u8],
    outcomes: Range<usize>,
    with_ends: bool,
}

impl Sample {
    const OF_01: Sample =
        Sample { compounds: trees::WITHOUT_CONDITIONALS, outcomes: hits::OF_01, with_ends: false };
    const OF_CONDITIONALS: Sample =
        Sample { compounds: trees::COMPOUNDS, outcomes: hits::OF_CONDITIONALS, with_ends: false };
    const OF_ENDS: Sample =
        Sample { compounds: trees::COMPOUNDS, outcomes: hits::OF_ENDS, with_ends: true };

    fn files(self, seed: u64) -> Vec<Vec<u8>> {
        let mut random = Random::new(seed);
        let mut met = Hits::default();
        let mut files = Vec::new();
        let outcomes = &HITS[self.outcomes.clone()];
        while outcomes.iter().any(|&(hit, _)| met.count(hit) < CASES_EACH) {
            let file = self.file(&mut random);
            let hits = self.hits(&file);
            let wanted = |&(hit, _): &(Hit, _)| hits.count(hit) > 0 && met.count(hit) < CASES_EACH;
            if outcomes.iter().any(wanted) {
                met.add(&hits);
                files.push(file);
            }
        }
        files
    }

    fn file(&self, random: &mut Random) -> Vec<u8> {
        let room = random.between(1, ROOM);
        let mut file = trees::small_file(random, self.compounds, room);
        agreeing::record(&mut file);
        if random.chance(128) {
            trees::make_premise_true(&mut file, &[vec![]]);
        }
        if self.with_ends { ends::added(random, &file) } else { file }
    }

    fn hits(&self, file: &[u8]) -> Hits {
        let tree = port::check(file, Limits::REDUCE).expect("an accepted file");
        let marks = tree.outcomes();
        if self.with_ends { end_hits::of_tree(tree, &marks) } else { hits::of_tree(tree, &marks) }
    }
}

pub fn encode(cases: &[Case]) -> Vec<u8> {
    let mut bytes = MARK.to_vec();
    bytes.extend((cases.len() as u32).to_le_bytes());
    for case in cases {
        for part in [&case.file, &case.answer] {
            bytes.extend((part.len() as u32).to_le_bytes());
            bytes.extend(part);
        }
    }
    bytes
}

/// The cases of a list; none if the bytes are no list.
pub fn decode(bytes: &[u8]) -> Option<Vec<Case>> {
    let (mark, mut rest) = bytes.split_first_chunk::<4>()?;
    if mark != MARK {
        return None;
    }
    let count = number(&mut rest)?;
    let mut cases = Vec::new();
    for _ in 0..count {
        cases.push(Case { file: part(&mut rest)?, answer: part(&mut rest)? });
    }
    rest.is_empty().then_some(cases)
}

fn number(rest: &mut &[u8]) -> Option<usize> {
    let (number, after) = rest.split_first_chunk::<4>()?;
    *rest = after;
    Some(u32::from_le_bytes(*number) as usize)
}

fn part(rest: &mut &[u8]) -> Option<Vec<u8>> {
    let length = number(rest)?;
    let (part, after) = rest.split_at_checked(length)?;
    *rest = after;
    Some(part.to_vec())
}
