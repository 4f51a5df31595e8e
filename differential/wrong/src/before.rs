//! The port beside what it was before called functions under tree-shake-only (02, N5).

use driver::compare::Difference;
use driver::oracle::Oracle;
use driver::run::{self, Drawn};
use driver::side::{Port, Side};
use driver::{called, file, logicals, never_symbol};
use port::Limits;

use crate::{Trees, reduced};

/// In how many trees what is left, the effects and the premise have changed.
#[derive(Default)]
struct Tally {
    left: u64,
    effects: u64,
    premise: u64,
    any: u64,
}

/// A tree that holds no such call and differs is a failure; so is a run in which no tree differs. What is
/// left of those that hold one is held to the oracle, if there is one: by the published Rust purity wins.
pub fn run(before: &dyn Side, trees: Trees, oracle: Option<Oracle>) -> Result<(), Difference> {
    let mut tally = Tally::default();
    let mut with_call = Vec::new();
    for i in 0..trees.count {
        let drawn = run::tree(trees.seed, i);
        let has_call = !called::calls(&drawn.file).is_empty();
        if has_call {
            with_call.push(drawn.file.clone());
        }
        let changed = Changed::of(before, drawn);
        if changed.any() && !has_call {
            return Err(format!("tree {i} has changed, and holds no such call"));
        }
        tally.add(&changed);
    }
    let Tally { left, effects, premise, any } = tally;
    let calls = with_call.len() as u64;
    println!("seed {}: {} trees, {calls} with such a call", trees.seed, trees.count);
    println!("  {any} of these have changed: {left} in what is left of them, {effects} in their");
    println!("  effects, {premise} in the premise; of the {} others none", trees.count - calls);
    if let Some(oracle) = oracle {
        held_to(before, oracle, with_call)?;
        println!("  before, all {calls} were answered as the oracle does");
    }
    if any == 0 { Err("no tree has changed".to_string()) } else { Ok(()) }
}

/// The oracle goes by recorded symbols alone, so "no" is recorded on the six that can be none.
fn held_to(
    before: &dyn Side,
    mut oracle: Oracle,
    mut files: Vec<Vec<u8>>,
) -> Result<(), Difference> {
    files.iter_mut().for_each(|file| never_symbol::record_no(file));
    for some in files.chunks(256) {
        let theirs = oracle.reduce(some).map_err(|error| error.to_string())?;
        for (file, theirs) in some.iter().zip(theirs) {
            if reduced(before, file) != theirs {
                return Err(format!("the oracle answers otherwise to:\n{}", file::show(file)));
            }
        }
    }
    oracle.stop().map_err(|error| error.to_string())
}

impl Tally {
    fn add(&mut self, changed: &Changed) {
        self.left += u64::from(changed.left);
        self.effects += u64::from(changed.effects);
        self.premise += u64::from(changed.premise);
        self.any += u64::from(changed.any());
    }
}

struct Changed {
    left: bool,
    effects: bool,
    premise: bool,
}

impl Changed {
    fn of(before: &dyn Side, drawn: Drawn) -> Changed {
        let Drawn { file, lists, mut random, .. } = drawn;
        let logicals = logicals::with_logicals(&mut random, &file);
        let files = [&file, &logicals];
        let listed = |yes: &Vec<u32>| {
            files.iter().any(|file| effects(&Port, file, yes) != effects(before, file, yes))
        };
        let tree = port::check(&file, Limits::REDUCE).expect("an accepted file");
        let marks = tree.outcomes();
        let premise =
            |yes: &Vec<u32>| before.premise(&file, yes) != Some(tree.premise(&marks, yes));
        Changed {
            left: reduced(&Port, &file) != reduced(before, &file),
            effects: lists.iter().any(listed),
            premise: lists.iter().any(premise),
        }
    }

    fn any(&self) -> bool {
        self.left || self.effects || self.premise
    }
}

/// The side's list of a file that List effects takes.
fn effects(side: &dyn Side, file: &[u8], yes: &[u32]) -> Vec<u64> {
    let mut entries = vec![0; 2 * file::count(file)];
    let listing = side.list_effects_given(file, yes, &mut entries);
    entries.truncate(listing.count);
    entries
}
