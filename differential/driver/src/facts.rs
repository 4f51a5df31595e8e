//! Every kind from 0 to 255 with every facts byte, in a tree that is good otherwise. Which of them are good
//! goes by the formula of the allowed facts (02, N3), where the port has a table.

use port::{element, kind, sub};

use crate::compare::{Comparator, Difference};
use crate::conditionals::{self, Head, Shape};
use crate::damage::Damaged;
use crate::ends;
use crate::file;
use crate::random::Random;

/// How many there are, each a file of version 1 and one of version 2.
pub const FILES: u64 = 256 * 256;

/// All of them. Answers with how many had to be refused for their kind or facts.
pub fn go(comparator: &mut Comparator) -> Result<u64, Difference> {
    let mut refused = 0;
    for number in 0..FILES {
        refused += u64::from(one(comparator, number)?);
    }
    Ok(refused)
}

/// The files of this number, a kind times 256 and facts. Answers whether they had to be refused for them.
pub fn one(comparator: &mut Comparator, number: u64) -> Result<bool, Difference> {
    let (kind, facts) = ((number / 256) as u8, (number % 256) as u8);
    let (file, due) = (with_node(kind, facts), due(kind, facts));
    let with_ends = ends::added(&mut Random::new(number), &file);
    for file in [file, with_ends] {
        held(comparator, &file, due)
            .map_err(|seen| format!("kind {kind}, facts {facts}:\n{}{seen}", file::show(&file)))?;
    }
    Ok(due == (5, 5))
}

/// Reduce and List effects must answer by these numbers, 0 where they take the file.
fn held(comparator: &mut Comparator, file: &[u8], due: (u8, u8)) -> Result<(), Difference> {
    match due {
        (0, 0) => comparator.accepted(file, 0, &[]),
        (6, 0) => comparator.listed(file, &[]),
        (reduce, list) => comparator.refused(&Damaged::whole(file.to_vec(), reduce, list), &[]),
    }
}

fn due(kind: u8, facts: u8) -> (u8, u8) {
    match kind {
        _ if !is_kind(kind) || !are_facts_good(kind, facts) => (5, 5),
        kind::LOGICAL => (6, 0),
        kind::ASSIGNMENT => (6, 6),
        _ => (0, 0),
    }
}

fn is_kind(kind: u8) -> bool {
    (kind::STRING_LITERAL..=kind::ASSIGNMENT).contains(&kind)
}

/// The line that docs/FORMAT.md prints.
fn allowed_facts(kind: u8) -> u8 {
    match kind {
        8 | 11 | 19 => 0,
        9 => 1,
        16 => 255,
        17 => 127,
        _ => 31,
    }
}

/// Symbol and string unknown, no or yes; "string yes needs symbol no".
const PAIRS: [u8; 7] = [0, 2, 4, 8, 10, 12, 18];

/// Those that are symbols.
const SYMBOLS: [u8; 2] = [4, 12];

fn are_facts_good(kind: u8, facts: u8) -> bool {
    let pairs = facts & 30;
    match kind {
        kind::STRING_LITERAL => facts == 18,
        kind::TEMPLATE if SYMBOLS.contains(&pairs) => false,
        _ => facts & !allowed_facts(kind) == 0 && PAIRS.contains(&pairs),
    }
}

/// A file in which a node of this kind and these facts stands where its kind may, over as many children
/// as it must have. No unary or binary here is one of those that can never be a symbol.
fn with_node(kind: u8, facts: u8) -> Vec<u8> {
    let (above, sub, children) = match kind {
        kind::ELISION => (Some(kind::ARRAY), 0, 0),
        kind::SPREAD => (Some(kind::ARRAY), 0, 1),
        kind::PROPERTY => (Some(kind::OBJECT), 0, 1),
        kind::ELEMENT => (Some(kind::CLASS), element::METHOD, 0),
        kind::UNARY => (None, sub::OTHER_UNARY, 1),
        kind::BINARY => (None, sub::OTHER_BINARY, 2),
        kind::LOGICAL => (None, sub::AND, 2),
        kind::CALL | kind::NEW => (None, 0, 1),
        kind::CONDITIONAL => (None, 0, 3),
        _ => (None, 0, 0),
    };
    let (mut shape, mut heads): (Shape, Vec<Head>) = (vec![], vec![]);
    if let Some(parent) = above {
        shape.push((1, children + 2));
        heads.push([parent, 1, 0]);
    }
    shape.push((children, children + 1));
    heads.push([kind, facts, sub]);
    for _ in 0..children {
        shape.push((0, 1));
        heads.push([kind::IDENTIFIER, 1, 0]);
    }
    conditionals::assembled(0, &shape, &heads)
}
