//! The benchmark: what a record takes of each side, beside each other in one table.

use std::io;

use crate::file;
use crate::oracle::Oracle;
use crate::side::Side;
use crate::speed::{self, ROUNDS};

/// The sizes of the files, in records. Reduce takes 2,000 at most.
const SIZES: [usize; 4] = [10, 200, 2_000, 3_999];
const MOST_REDUCED: usize = 2_000;
/// Those of the files with conditionals, which the others do not have.
const CHOOSING: usize = 200;
/// The additions of a chain: one, and as many as go into the depth.
const CHAINS: [usize; 2] = [1, 61];

/// A line for each operation and size, `v2` of the same trees in version 2, `?:` of files with conditionals,
/// `t` and `r` of chains of so many additions in templates and on the right of strings: nanoseconds a record of the port, of each other
/// side, of the oracle if there is one, and of a copy of the file's bytes, which is the least that any
/// could take; and behind each of these the ratio to the port. Medians, as `driver speed` takes them.
pub fn table(
    sides: &[&dyn Side],
    mut oracle: Option<&mut Oracle>,
    seed: u64,
) -> io::Result<String> {
    let (mut reduced, mut listed, mut checked) = (String::new(), String::new(), String::new());
    let has_oracle = oracle.is_some();
    for (records, version) in SIZES.into_iter().flat_map(|records| [(records, 1), (records, 2)]) {
        let [reduce, list, check] = names(version);
        let files = speed::in_version(version, speed::files(records, seed), seed);
        let line = liner(&files, has_oracle);
        let drawn = speed::measure(sides, &files);
        checked += &line(check, drawn.iter().map(|measured| measured.check).collect(), None);
        if records <= MOST_REDUCED {
            let files = speed::in_version(version, speed::walked_files(records, seed), seed);
            let (times, stages) = speed::reduce(sides, oracle.as_deref_mut(), &files)?;
            reduced += &line(reduce, times, stages.map(|stages| stages.all));
        }
        listed += &line(list, drawn.iter().map(|measured| measured.list).collect(), None);
    }
    let files = speed::choosing_files(CHOOSING, seed);
    let line = liner(&files, has_oracle);
    let (times, stages) = speed::reduce(sides, oracle, &files)?;
    reduced += &line("Reduce, ?:", times, stages.map(|stages| stages.all));
    listed += &line("List, ?:", speed::list(sides, &files), None);
    for (name, right) in [("t", false), ("r", true)] {
        for additions in CHAINS {
            let files = speed::chains_files(MOST_REDUCED, additions, right, seed);
            let line = liner(&files, has_oracle);
            let (times, _) = speed::reduce(sides, None, &files)?;
            reduced += &line(&format!("Reduce, {name} {additions}"), times, None);
            listed += &line(&format!("List, {name} {additions}"), speed::list(sides, &files), None);
        }
    }
    Ok(head(sides, has_oracle, seed) + &reduced + &listed + &checked)
}

/// What the lines of a version begin with.
fn names(version: u8) -> [&'static str; 3] {
    match version {
        1 => ["Reduce", "List effects", "check"],
        _ => ["Reduce, v2", "List, v2", "check, v2"],
    }
}

/// A line for the times of an operation on these files, with the oracle's, if there is one, and those
/// of a copy.
fn liner(
    files: &[Vec<u8>],
    has_oracle: bool,
) -> impl Fn(&str, Vec<Option<f64>>, Option<f64>) -> String {
    let (records, copy) = (file::count(&files[0]), speed::copy(files));
    move |operation, mut times, oracle| {
        times.extend(has_oracle.then_some(oracle));
        times.push(Some(copy));
        line(operation, records, &times)
    }
}

fn head(sides: &[&dyn Side], has_oracle: bool, seed: u64) -> String {
    let mut names: Vec<&str> = sides.iter().map(|side| side.name()).collect();
    names.extend(has_oracle.then_some("oracle"));
    names.push("copy");
    let names: String = names.into_iter().map(cell).collect();
    format!(
        "seed {seed}; nanoseconds a record, and behind them the ratio to the port's; of each group of\n\
         files the median of {ROUNDS} rounds; Reduce takes {MOST_REDUCED} records at most; -: not offered\n\
         {:12} {:>8}{names}\n",
        "", "records"
    )
}

/// The first time is the port's.
fn line(operation: &str, records: usize, times: &[Option<f64>]) -> String {
    let shown = |time: &Option<f64>| match (time, times[0]) {
        (Some(time), Some(port)) => cell(&format!("{time:.1} {:>5.2}", time / port)),
        _ => cell("-"),
    };
    let cells: String = times.iter().map(shown).collect();
    format!("{operation:12} {records:>8}{cells}\n")
}

fn cell(text: &str) -> String {
    format!("{text:>15}")
}
