//! What a run goes through.

use port::Limits;

use crate::called_rows;
use crate::compare::{Comparator, Difference, NUMBERS, Tally};
use crate::conditional_rows;
use crate::damage::{self, Damaged};
use crate::derived;
use crate::ends;
use crate::ends_rows;
use crate::file;
use crate::fixed::Case;
use crate::hits::LEAST;
use crate::logicals;
use crate::never_symbol_rows;
use crate::oracle::Oracle;
use crate::random::Random;
use crate::rows;
use crate::trees;
use crate::yes;

/// A tree, with what else is drawn for it.
pub struct Drawn {
    /// Of version 1 or 2.
    pub file: Vec<u8>,
    /// The same tree in the other version.
    pub other: Vec<u8>,
    /// Lists of places that count as yes; the first is empty.
    pub lists: Vec<Vec<u32>>,
    /// For what is drawn next.
    pub random: Random,
}

/// The tree of number `i` under this seed: every other one is made premise-true under all its lists, and
/// of these and of the others every other one is of version 2.
pub fn tree(seed: u64, i: u64) -> Drawn {
    let mut random = Random::new(seed ^ i.wrapping_mul(0xd134_2543_de82_ef95));
    let file = trees::file(&mut random);
    let mut with_ends = ends::added(&mut random, &file);
    let mut lists = vec![vec![]];
    lists.extend(yes::lists(&mut random, &with_ends));
    if i.is_multiple_of(2) {
        trees::make_premise_true(&mut with_ends, &lists);
    }
    let without = ends::dropped(&with_ends);
    let (file, other) = if i / 2 % 2 == 1 { (with_ends, without) } else { (without, with_ends) };
    Drawn { file, other, lists, random }
}

/// What every file that Reduce takes has room in; now and then as much is lent.
const MOST_OUT: usize = file::room(file::WIDTH_2, Limits::REDUCE.records);

/// Holds the sides to each other on the tree of number `i` in both versions, on a copy with logicals where
/// it has binaries, and on a damaged copy of one of the two.
pub fn case(comparator: &mut Comparator, seed: u64, i: u64) -> Result<(), Difference> {
    let Drawn { file, other, lists, mut random } = tree(seed, i);
    let named = |file: &[u8], difference: Difference| {
        format!("seed {seed}, tree {i}:\n{}{difference}", file::show(file))
    };
    let little = random.pick(&[0, 0, 1, 7, 40]);
    let more_room = if i % 255 == 254 { MOST_OUT - file::output_room(&file) } else { little };
    comparator.accepted(&file, more_room, &lists).map_err(|seen| named(&file, seen))?;
    comparator.both_versions(&file, &other, &lists).map_err(|seen| named(&other, seen))?;
    let logicals = logicals::with_logicals(&mut random, &file);
    let lists = yes::lists(&mut random, &logicals);
    if logicals::has_logicals(&logicals) {
        comparator.listed(&logicals, &lists).map_err(|seen| named(&logicals, seen))?;
    }
    let whole = if random.chance(64) { &logicals } else { &file };
    let damaged = damage::damaged(&mut random, whole);
    comparator
        .refused(&damaged, &lists[0])
        .map_err(|difference| format!("seed {seed}, damaged copy {i}: {difference}"))
}

pub fn cases(comparator: &mut Comparator, seed: u64, count: u64) -> Result<(), Difference> {
    (0..count).try_for_each(|i| case(comparator, seed, i))
}

/// Rows A to L, corners, and the effects that document 01 prints for `[1, a(), ...b]`.
pub fn rows(comparator: &mut Comparator) -> Result<(), Difference> {
    for (row, tree, answer) in rows::rows() {
        let expected = answer.map_or_else(Vec::new, |answer| answer.file());
        comparator.answers(&tree.file(), &expected).map_err(|seen| format!("row {row}: {seen}"))?;
    }
    for (corner, tree, answer) in rows::corners() {
        let held = comparator.answers(&tree.file(), &answer.file());
        held.map_err(|seen| format!("{corner}: {seen}"))?;
    }
    let (tree, answer, effects) = rows::example();
    comparator.answers(&tree.file(), &answer.file())?;
    comparator.effects(&tree.file(), &[], &effects)?;
    comparator.effects(&answer.file(), &[], &effects)
}

/// Rows of document 02, N1: what is left of conditionals, and what is listed under which list.
pub fn conditional_rows(comparator: &mut Comparator) -> Result<(), Difference> {
    for (row, tree, answer) in conditional_rows::rows() {
        let (file, expected) = (tree.file(), answer.map_or_else(Vec::new, |answer| answer.file()));
        let named = |seen: Difference| format!("{row}: {seen}");
        comparator.answers(&file, &expected).map_err(named)?;
        comparator.accepted(&file, 0, &yes::subsets(&yes::places(&file, 5))).map_err(named)?;
    }
    for (row, tree, yes, effects) in conditional_rows::effects() {
        let held = comparator.effects(&tree.file(), &yes, &effects);
        held.map_err(|seen| format!("{row}: {seen}"))?;
    }
    for (row, tree, reduce, list) in conditional_rows::refused() {
        let held = comparator.refused(&Damaged::whole(tree.file(), reduce, list), &[1]);
        held.map_err(|seen| format!("{row}: {seen}"))?;
    }
    let mut random = Random::new(1);
    let file = trees::conditional_file(&mut random, 200);
    let many = [(); 2].map(|()| yes::many(&mut random, &file));
    comparator.accepted(&file, 0, &many)
}

/// Rows of document 02, N9: what is left and listed where one of the six is of unknown symbol, and what is
/// refused where one is said to be a symbol.
pub fn never_symbol_rows(comparator: &mut Comparator) -> Result<(), Difference> {
    for (row, tree, answer) in never_symbol_rows::rows() {
        let expected = answer.map_or_else(Vec::new, |answer| answer.file());
        comparator.answers(&tree.file(), &expected).map_err(|seen| format!("{row}: {seen}"))?;
    }
    for (row, tree, effects) in never_symbol_rows::effects() {
        let held = comparator.effects(&tree.file(), &[], &effects);
        held.map_err(|seen| format!("{row}: {seen}"))?;
    }
    for (row, file, reduce, list) in never_symbol_rows::refused() {
        let held = comparator.refused(&Damaged::whole(file, reduce, list), &[1]);
        held.map_err(|seen| format!("{row}: {seen}"))?;
    }
    Ok(())
}

/// Rows of document 02, N5: what is left and listed of calls of functions and arrows.
pub fn called_rows(comparator: &mut Comparator) -> Result<(), Difference> {
    for row in called_rows::rows() {
        let file = row.tree.file_under(row.settings);
        let named = |seen: Difference| format!("{}: {seen}", row.words);
        comparator.answers(&file, &row.left.file_under(row.settings)).map_err(named)?;
        comparator.effects(&file, &[], &row.effects).map_err(named)?;
    }
    Ok(())
}

/// Rows of document 02, N6: the ends of what is left, what is listed, and what is refused before what.
pub fn ends_rows(comparator: &mut Comparator) -> Result<(), Difference> {
    for (row, tree, answer) in ends_rows::rows() {
        let file = tree.file_with_ends();
        let named = |seen: Difference| format!("{row}: {seen}");
        comparator.answers(&file, &answer.file_with_ends()).map_err(named)?;
        comparator.both_versions(&file, &tree.file(), &[vec![]]).map_err(named)?;
    }
    for (row, tree, yes, effects) in ends_rows::effects() {
        let held = comparator.effects(&tree.file_with_ends(), &yes, &effects);
        held.map_err(|seen| format!("{row}: {seen}"))?;
    }
    for (row, damaged) in ends_rows::refused() {
        comparator.refused(&damaged, &[1]).map_err(|seen| format!("{row}: {seen}"))?;
    }
    Ok(())
}

/// The oracle's answers, as listed.
pub fn fixed_list(comparator: &mut Comparator, cases: &[Case]) -> Result<(), Difference> {
    for (i, case) in cases.iter().enumerate() {
        comparator.answers(&case.file, &case.answer).map_err(|seen| format!("case {i}: {seen}"))?;
    }
    Ok(())
}

/// "Edges: N 2,000 taken, 2,001 refused 4; depth 64 taken, 65 refused 8; N = 1 needs 24 bytes, 23
/// is 9." The listing's limits are 3,999 and 65. In version 2 all is so, but that N = 1 needs 28 bytes.
pub fn edges(comparator: &mut Comparator) -> Result<(), Difference> {
    edges_of(comparator, |_, file| file)?;
    edges_of(comparator, |random, file| ends::added(random, &file))
}

/// The edges of files of version 1 as `made` makes others of them.
fn edges_of(
    comparator: &mut Comparator,
    made: impl Fn(&mut Random, Vec<u8>) -> Vec<u8>,
) -> Result<(), Difference> {
    let mut random = Random::new(1);
    let wide = |random: &mut Random, records: usize| {
        let file = trees::wide_file(random, records);
        made(random, file)
    };
    let deep = |random: &mut Random, depth: usize| {
        let file = trees::deep_file(random, depth);
        made(random, file)
    };
    for records in [1, 2, Limits::REDUCE.records] {
        let file = wide(&mut random, records);
        comparator.accepted(&file, 0, &[vec![0]])?;
        let (output_room, entry_room) = (file::output_room(&file), 2 * records);
        let short = Damaged::lent(file.clone(), output_room - 1, entry_room, 9, 0);
        comparator.refused(&short, &[])?;
        let short = Damaged::lent(file, output_room, entry_room - 1, 0, 10);
        comparator.refused(&short, &[])?;
    }
    let deepest = deep(&mut random, Limits::REDUCE.depth);
    let lists = yes::lists(&mut random, &deepest);
    comparator.accepted(&deepest, 0, &lists)?;
    for (records, list) in [(2_001, 0), (3_999, 0), (4_000, 4)] {
        let file = wide(&mut random, records);
        comparator.refused(&Damaged::whole(file, 4, list), &[])?;
    }
    for (depth, list) in [(65, 0), (66, 8)] {
        let file = deep(&mut random, depth);
        let yes = yes::list(&mut random, &file);
        comparator.refused(&Damaged::whole(file, 8, list), &yes)?;
    }
    Ok(())
}

/// The Derived question over its whole set, and with refused bytes. Answers with the number of
/// questions of the whole set.
pub fn derived_questions(comparator: &mut Comparator, seed: u64) -> Result<u64, Difference> {
    let questions = derived::all(comparator)?;
    let mut random = Random::new(seed);
    (0..4 * LEAST).try_for_each(|_| derived::refused(comparator, &mut random))?;
    Ok(questions)
}

/// What only left-out handlers call is unreachable: an oracle that comes to such a kind must fail,
/// and name its handler.
pub fn left_out_kinds(comparator: &mut Comparator, oracle: &str) -> Result<(), Difference> {
    for (kind, handler) in [(20, "logical"), (22, "assignment")] {
        let mut file = trees::deep_file(&mut Random::new(1), 1);
        file::record_mut(&mut file, 0)[..3].copy_from_slice(&[kind, 1, 0]);
        let said = Oracle::failure(oracle, &file).map_err(|error| error.to_string())?;
        comparator
            .hold(said.contains(handler), || format!("kind {kind}: the oracle says {said}"))?;
    }
    Ok(())
}

/// A run that met anything less than 1,000 times shows too little.
pub fn met_enough(tally: &Tally) -> Result<(), Difference> {
    let rare = |what: &str, count: u64| format!("met {count} times only: {what}");
    if let Some((words, count)) = tally.hits.under(LEAST).next() {
        return Err(rare(words, count));
    }
    for number in NUMBERS {
        let count = tally.refused[usize::from(number)];
        if count < LEAST {
            return Err(rare(&format!("refusal {number}"), count));
        }
    }
    let others = [
        ("trees whose facts do not agree", tally.left_out),
        ("trees with a call that tree-shake-only keeps before purity", tally.left_out_calls),
        ("trees whose facts agree", tally.trees - tally.left_out),
        ("premise true", tally.premise_true),
        ("premise not true", tally.premise_false),
        ("premise true under a list", tally.premise_true_given),
        ("premise not true under a list", tally.premise_false_given),
        ("files with logicals", tally.listed),
        ("removable", tally.removable),
        ("kept", tally.kept),
    ];
    match others.into_iter().find(|&(_, count)| count < LEAST) {
        Some((what, count)) => Err(rare(what, count)),
        None => Ok(()),
    }
}
