//! Whole, damaged and random inputs through the library, in guarded memory and held to the port.

use std::iter;

use port::Limits;

use crate::compare::{Comparator, Difference, NUMBERS};
use crate::damage;
use crate::derived;
use crate::ends;
use crate::faulty;
use crate::file;
use crate::guarded::{self, Tally};
use crate::hostile;
use crate::library::Library;
use crate::logicals;
use crate::random::Random;
use crate::run::{self, Drawn};
use crate::trees;
use crate::yes;

/// Shows that the guards hold, then goes through all short files and so many others of this seed.
pub fn run(files: u64, seed: u64) -> Result<String, Difference> {
    let (ended, different) = faulty::all_are_found()?;
    println!("deliberate faults: {ended} ended by a guard, {different} found to differ");
    let (short, tally) = guarded::held(&Library, |comparator| {
        let short = beginnings(comparator, seed)? + many_places(comparator, seed)?;
        cases(comparator, seed, files)?;
        Ok(short)
    })?;
    met_all(&tally)?;
    let (accepted, refused) =
        (tally.numbers[0], NUMBERS.map(|number| tally.numbers[usize::from(number)]));
    Ok(format!(
        "seed {seed}: {} files, {} calls, {accepted} accepted, refused by number 1 to 12 and 17 \
         {refused:?}, {} bytes lent, 0 different\n",
        short + files,
        tally.calls,
        tally.bytes
    ))
}

/// A fault on a few files: it must not come to the end.
pub fn run_faulty(fault: usize) -> Result<String, Difference> {
    let faults = faulty::faults();
    let faulty = faults.get(fault).ok_or(format!("there is no fault {fault}"))?;
    guarded::held(faulty, |comparator| cases(comparator, 1, 16))?;
    Ok(format!("not found: {faulty:?}\n"))
}

/// A run without one of the refusals shows too little.
fn met_all(tally: &Tally) -> Result<(), Difference> {
    let mut numbers = iter::once(0).chain(NUMBERS);
    match numbers.find(|&number| tally.numbers[usize::from(number)] == 0) {
        Some(number) => Err(format!("no answer had the number {number}")),
        None => Ok(()),
    }
}

/// Every short file, with room of every sort. Answers with how many files there are.
fn beginnings(comparator: &mut Comparator, seed: u64) -> Result<u64, Difference> {
    // One record needs 24 bytes, or 28 of version 2, and 2 entries, two need 56, or 68, and 4; the last
    // two fill a page.
    let rooms = [
        (0, 0),
        (23, 1),
        (24, 2),
        (25, 3),
        (27, 2),
        (28, 2),
        (55, 3),
        (56, 4),
        (67, 4),
        (68, 4),
        (4_096, 512),
    ];
    let mut random = Random::new(seed);
    let files = hostile::beginnings(&mut random);
    for file in &files {
        for (output, entries) in rooms {
            let held = comparator.alike(file, output, entries, &yes::list(&mut random, file));
            held.map_err(|difference| format!("seed {seed}, {file:?}: {difference}"))?;
        }
    }
    Ok(files.len() as u64)
}

/// A file under a list of 10,000 places, with enough lent and with too little. Answers with 1.
fn many_places(comparator: &mut Comparator, seed: u64) -> Result<u64, Difference> {
    let mut random = Random::new(seed);
    let file = trees::conditional_file(&mut random, 400);
    let file = ends::added(&mut random, &file);
    let (output, entries) = (file::output_room(&file), 2 * file::count(&file));
    let yes = yes::many(&mut random, &file);
    comparator.alike(&file, output, entries, &yes)?;
    comparator.alike(&file, output, entries - 1, &yes)?;
    Ok(1)
}

fn cases(comparator: &mut Comparator, seed: u64, count: u64) -> Result<(), Difference> {
    (0..count).try_for_each(|i| {
        case(comparator, seed, i)
            .map_err(|difference| format!("seed {seed}, file {i}: {difference}"))
    })
}

/// The file of number `i` under this seed, and a Derived question.
fn case(comparator: &mut Comparator, seed: u64, i: u64) -> Result<(), Difference> {
    let Drawn { file: tree, mut random, .. } = run::tree(seed, i);
    let tree = if random.chance(64) { logicals::with_logicals(&mut random, &tree) } else { tree };
    match random.below(4) {
        0 => alike(comparator, &mut random, &tree)?,
        1 => {
            let damaged = damage::damaged(&mut random, &tree);
            comparator.refused(&damaged, &yes::list(&mut random, &tree))?;
        }
        _ => {
            let file = hostile::file(&mut random, &tree);
            alike(comparator, &mut random, &file)?;
        }
    }
    match random.below(3) {
        0 => derived::any(comparator, &mut random),
        1 => derived::refused(comparator, &mut random),
        _ => {
            let [scopes, ancestors] = hostile::lists(&mut random);
            comparator.derived(&scopes, &ancestors).map(|_| ())
        }
    }
}

/// The port's answer decides.
fn alike(comparator: &mut Comparator, random: &mut Random, file: &[u8]) -> Result<(), Difference> {
    let records = if file.len() < file::HEADER { 1 } else { file::count(file) };
    let records = records.clamp(1, Limits::LIST_EFFECTS.records);
    let output = room(random, file::room(file::width(file), records));
    let entries = room(random, 2 * records);
    comparator.alike(file, output, entries, &yes::list(random, file))
}

/// Nothing, too little, just enough, or more than is needed.
fn room(random: &mut Random, need: usize) -> usize {
    match random.below(8) {
        0 => 0,
        1 => need - 1,
        2 => random.below(need),
        3..6 => need,
        6 => need + random.between(1, 40),
        _ => need + random.below(8_192),
    }
}
