//! Small trees under every list over up to five places: all trees of up to four records over a thin set
//! of heads, all conditionals and logicals in each other up to seven records, and seeded ones.

use port::{Limits, element, kind, sub};

use crate::compare::{Comparator, Difference};
use crate::ends;
use crate::file;
use crate::logicals;
use crate::random::Random;
use crate::trees;
use crate::yes;

/// Lists are over so many places at most.
const PLACES: usize = 5;

/// A record's kind, facts and sub.
pub type Head = [u8; 3];

/// How much is gone through.
#[derive(Clone, Copy)]
pub struct Extent {
    /// The settings under which all trees of up to four records are gone through.
    pub settings: &'static [u8],
    /// How many seeded trees.
    pub seeded: u64,
}

impl Extent {
    /// For a run of seconds.
    pub const BRIEF: Extent = Extent { settings: &[0], seeded: 5_000 };
}

pub const ALL_SETTINGS: &[u8] = &[0, 1, 2, 3, 4, 5, 6, 7];

/// What was gone through.
#[derive(Clone, Copy, Debug, Default)]
pub struct Tally {
    /// Trees that Reduce takes, and those that only List effects takes.
    pub reduced: u64,
    pub listed: u64,
    /// Lists that they were listed under.
    pub lists: u64,
}

/// All of it.
pub fn go(comparator: &mut Comparator, extent: Extent, seed: u64) -> Result<Tally, Difference> {
    let mut tally = Tally::default();
    for &settings in extent.settings {
        for shape in shapes() {
            let heads: Vec<Vec<Head>> = shape.iter().map(|&(count, _)| heads(count)).collect();
            each(&heads, &mut |heads| tree(comparator, &mut tally, settings, &shape, heads))?;
        }
    }
    for shape in chosen_shapes() {
        let heads: Vec<Vec<Head>> = shape.iter().map(|&(count, _)| chosen_heads(count)).collect();
        each(&heads, &mut |heads| tree(comparator, &mut tally, 0, &shape, heads))?;
    }
    seeded(comparator, &mut tally, extent.seeded, seed)?;
    Ok(tally)
}

/// A tree's shape: for each record how many children it has, and how many records are in its subtree.
pub type Shape = Vec<(usize, usize)>;

/// All shapes of up to four records.
fn shapes() -> Vec<Shape> {
    (1..=4).flat_map(|records| forests(1, records)).collect()
}

/// So many trees beside each other, of so many records altogether: each has its first tree's root first.
pub fn forests(trees: usize, records: usize) -> Vec<Shape> {
    if trees == 0 {
        return if records == 0 { vec![vec![]] } else { vec![] };
    }
    let mut all = Vec::new();
    for size in 1..=records {
        for count in 0..size {
            for under in forests(count, size - 1) {
                for rest in forests(trees - 1, records - size) {
                    all.push([&[(count, size)][..], &under, &rest].concat());
                }
            }
        }
    }
    all
}

/// Shapes in which a record has no child, two or three: one conditional or two, or one with a logical.
fn chosen_shapes() -> Vec<Shape> {
    let of_conditionals =
        |shape: &Shape| shape.iter().all(|&(count, _)| matches!(count, 0 | 2 | 3));
    let has_conditional = |shape: &Shape| shape.iter().any(|&(count, _)| count == 3);
    let all = (4..=7).flat_map(|records| forests(1, records));
    all.filter(|shape| of_conditionals(shape) && has_conditional(shape)).collect()
}

/// The heads of records with so many children: a thin set. The check tells which may stand where.
fn heads(children: usize) -> Vec<Head> {
    let lists = [[7, 1, 0], [10, 1, 0], [12, 2, 0], [13, 0, 0], [13, 1, 0]];
    let calls = [[16, 0, 0], [16, 1, 0], [16, 64, 0], [17, 0, 0], [17, 65, 0]];
    let mut heads = lists.to_vec();
    match children {
        0 => {
            heads.extend([[1, 18, 0], [2, 0, 0], [2, 1, 0], [4, 2, 0], [5, 2, 0], [6, 0, 0]]);
            heads.extend([[8, 0, 0], [18, 0, 0], [19, 0, NONEMPTY]]);
        }
        1 => {
            heads.extend([[9, 0, 0], [9, 1, 0], [11, 0, 0], [18, 0, 0], [18, 0, 2]]);
            heads.extend([[14, 0, sub::NOT], [14, 1, sub::NOT], [14, 1, sub::TYPEOF]]);
            heads.extend([[14, 0, sub::OTHER_UNARY], [14, 1, sub::OTHER_UNARY]]);
            heads.extend([[19, 0, STATIC_VALUE], [19, 0, COMPUTED]]);
            heads.extend(calls);
        }
        2 => {
            heads.extend([[11, 0, 1], [18, 0, 0], [18, 0, 2], [20, 0, 0], [20, 1, 1], [20, 0, 2]]);
            heads.extend([[15, 1, 1], [15, 0, 2], [15, 1, 2], [15, 0, 3], [15, 1, 3]]);
            heads.extend(calls);
        }
        _ => {
            heads.extend([[21, 0, 0], [21, 1, 0], [21, 19, 0], [18, 0, 2]]);
            heads.extend(calls);
        }
    }
    heads
}

const NONEMPTY: u8 = element::STATIC_BLOCK | element::BLOCK_NONEMPTY;
const STATIC_VALUE: u8 = element::PROPERTY | element::STATIC | element::VALUE;
const COMPUTED: u8 = element::PROPERTY | element::COMPUTED_KEY;

/// Conditionals and logicals, over leaves that stay and such that go.
fn chosen_heads(children: usize) -> Vec<Head> {
    match children {
        0 => vec![[2, 0, 0], [2, 1, 0]],
        2 => vec![[20, 1, 1], [20, 1, 2]],
        _ => vec![[21, 0, 0], [21, 1, 0]],
    }
}

/// Every choice of a head for each record.
pub fn each(
    heads: &[Vec<Head>],
    visit: &mut impl FnMut(&[Head]) -> Result<(), Difference>,
) -> Result<(), Difference> {
    let mut at = vec![0; heads.len()];
    loop {
        let chosen: Vec<Head> = heads.iter().zip(&at).map(|(heads, &i)| heads[i]).collect();
        visit(&chosen)?;
        let Some(next) = (0..at.len()).rev().find(|&i| at[i] + 1 < heads[i].len()) else {
            return Ok(());
        };
        at[next] += 1;
        at[next + 1..].fill(0);
    }
}

/// The tree of this shape and these heads, if the listing takes it: with a place of its own for each
/// record, and with the places that it would have in a source, where a node may start with its first
/// child.
fn tree(
    comparator: &mut Comparator,
    tally: &mut Tally,
    settings: u8,
    shape: &Shape,
    heads: &[Head],
) -> Result<(), Difference> {
    let file = assembled(settings, shape, heads);
    if port::check(&file, Limits::LIST_EFFECTS).is_err() {
        return Ok(());
    }
    under_every_list(comparator, tally, &file)?;
    if yes::tests(&file).is_empty() {
        return Ok(());
    }
    under_every_list(comparator, tally, &with_source_places(file))
}

pub fn assembled(settings: u8, shape: &Shape, heads: &[Head]) -> Vec<u8> {
    let mut file = b"UXT\x01\x00".to_vec();
    file.push(settings);
    file.extend((shape.len() as u16).to_le_bytes());
    for (i, (&(count, size), &head)) in shape.iter().zip(heads).enumerate() {
        file.extend(head);
        file.extend([0, count as u8, 0, size as u8, 0, 0, 0, 0, 0, i as u8 + 1, 0, 0, 0]);
    }
    file
}

/// From the last record on, so that first children within each other have one place.
fn with_source_places(mut file: Vec<u8>) -> Vec<u8> {
    for i in (0..file::count(&file) - 1).rev() {
        let starts_with_child =
            matches!(file::record(&file, i)[0], kind::BINARY..=kind::CALL | kind::LOGICAL..);
        if starts_with_child && file::record(&file, i)[4] > 0 {
            let place = file::record(&file, i + 1)[12];
            file::record_mut(&mut file, i)[12] = place;
        }
    }
    file
}

/// The sides must answer alike, and as promised, under every list over up to five places of the file.
fn under_every_list(
    comparator: &mut Comparator,
    tally: &mut Tally,
    file: &[u8],
) -> Result<(), Difference> {
    let tests = yes::tests(file).len();
    let lists = yes::subsets(&yes::places(file, if tests == 0 { 1 } else { PLACES }));
    tally.lists += lists.len() as u64;
    let held = if logicals::has_logicals(file) {
        tally.listed += 1;
        comparator.listed(file, &lists)
    } else {
        tally.reduced += 1;
        comparator.accepted(file, 0, &lists)
    };
    held.map_err(|seen| format!("{}{seen}", file::show(file)))
}

/// Seeded trees of up to 24 records and five test places, half of them in version 2, and copies of them
/// with logicals. Every other one is made premise-true under each of its lists.
fn seeded(
    comparator: &mut Comparator,
    tally: &mut Tally,
    count: u64,
    seed: u64,
) -> Result<(), Difference> {
    for i in 0..count {
        let mut random = Random::new(seed ^ i.wrapping_mul(0xd134_2543_de82_ef95));
        let room = random.between(4, 24);
        let mut file = trees::conditional_file(&mut random, room);
        if i / 2 % 2 == 1 {
            file = ends::added(&mut random, &file);
        }
        let logicals = logicals::with_logicals(&mut random, &file);
        if i.is_multiple_of(2) {
            let lists = yes::subsets(&yes::places(&file, PLACES));
            trees::make_premise_true(&mut file, &lists);
        }
        under_every_list(comparator, tally, &file)?;
        if logicals::has_logicals(&logicals) {
            under_every_list(comparator, tally, &logicals)?;
        }
    }
    Ok(())
}
