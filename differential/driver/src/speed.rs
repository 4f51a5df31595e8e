//! What the sides take, on the same bytes and in turns: the port is the baseline.

use std::hint::black_box;
use std::io;
use std::time::Instant;

use port::Limits;

use crate::ends;
use crate::file;
use crate::hits;
use crate::oracle::Oracle;
use crate::random::Random;
use crate::side::Side;
use crate::trees;

/// How often each group of files is gone through.
pub const ROUNDS: usize = 41;

/// Nanoseconds a record of one side; none, if the side does not offer it or refuses the files.
pub struct Measured {
    pub check: Option<f64>,
    pub reduce: Option<f64>,
    pub list: Option<f64>,
}

/// Nanoseconds a record of the oracle: to read the file into its tree, by the published handlers,
/// to write the answer, and all three.
pub struct OracleMeasured {
    pub read: f64,
    pub handlers: f64,
    pub write: f64,
    pub all: f64,
}

/// How many files of so many records are measured.
fn count(records: usize) -> usize {
    (40_000 / records).max(20)
}

/// Seeded files that have each so many records.
pub fn files(records: usize, seed: u64) -> Vec<Vec<u8>> {
    let mut random = Random::new(seed);
    (0..count(records)).map(|_| trees::wide_file(&mut random, records)).collect()
}

/// The same, but so that Reduce comes to most records: little is kept or dropped unseen, with a node
/// above it.
pub fn walked_files(records: usize, seed: u64) -> Vec<Vec<u8>> {
    let mut random = Random::new(seed);
    (0..count(records)).map(|_| trees::walked_file(&mut random, records)).collect()
}

/// The same, with conditionals among their nodes.
pub fn choosing_files(records: usize, seed: u64) -> Vec<Vec<u8>> {
    let mut random = Random::new(seed);
    (0..count(records)).map(|_| trees::choosing_file(&mut random, records)).collect()
}

/// Files of chains of so many additions of unknown symbol, in templates or on the right of strings.
pub fn chains_files(records: usize, additions: usize, right: bool, seed: u64) -> Vec<Vec<u8>> {
    let mut random = Random::new(seed);
    (0..count(records))
        .map(|_| trees::chains_file(&mut random, records, additions, right))
        .collect()
}

/// The same trees in this version.
pub fn in_version(version: u8, files: Vec<Vec<u8>>, seed: u64) -> Vec<Vec<u8>> {
    if version == 1 {
        return files;
    }
    let mut random = Random::new(seed);
    files.iter().map(|file| ends::added(&mut random, file)).collect()
}

/// Of the records of all files, the share of expressions that Reduce comes to, and the records of
/// the answers by those of the files.
pub fn walked(files: &[Vec<u8>], side: &dyn Side) -> (f64, f64) {
    let (mut records, mut reached, mut written) = (0, 0, 0);
    for file in files {
        let tree = port::check(file, Limits::REDUCE).expect("an accepted file");
        let mut out = vec![0; file::output_room(file)];
        records += file::count(file);
        reached += hits::reached(tree, &tree.outcomes()).len();
        written += side.reduce(file, &mut out).length / file::width(file);
    }
    (reached as f64 / records as f64, written as f64 / records as f64)
}

/// What the check, Reduce and List effects take on the files, side by side.
pub fn measure(sides: &[&dyn Side], files: &[Vec<u8>]) -> Vec<Measured> {
    let limits = if file::count(&files[0]) <= Limits::REDUCE.records {
        Limits::REDUCE
    } else {
        Limits::LIST_EFFECTS
    };
    let check = in_turns(sides, files, |side, file| black_box(side.check(file, limits)).is_some());
    let (reduce, _) = reduce(sides, None, files).expect("no oracle is asked");
    let list = list(sides, files);
    let both = check.into_iter().zip(reduce).zip(list);
    both.map(|((check, reduce), list)| Measured { check, reduce, list }).collect()
}

/// What List effects takes of each side, in turns, where no place counts as yes.
pub fn list(sides: &[&dyn Side], files: &[Vec<u8>]) -> Vec<Option<f64>> {
    let mut entries = vec![0; 2 * file::count(&files[0])];
    in_turns(sides, files, |side, file| {
        black_box(side.list_effects(file, &mut entries)).number == 0
    })
}

/// What it takes to copy the files, and nothing else.
pub fn copy(files: &[Vec<u8>]) -> f64 {
    let mut out = vec![0; files[0].len()];
    let mut times = vec![Times::default()];
    for _ in 0..ROUNDS {
        for (at, group) in groups(files).enumerate() {
            touch(group);
            let start = Instant::now();
            for file in group {
                black_box(&mut out).copy_from_slice(file);
            }
            times[0].push(at, start.elapsed().as_nanos() as f64);
        }
    }
    times.remove(0).a_record(files).unwrap_or_default()
}

/// What Reduce takes of each side and of the oracle, if there is one, in turns.
pub fn reduce(
    sides: &[&dyn Side],
    mut oracle: Option<&mut Oracle>,
    files: &[Vec<u8>],
) -> io::Result<(Vec<Option<f64>>, Option<OracleMeasured>)> {
    let mut out = vec![0; file::output_room(&files[0])];
    let mut times = vec![Times::default(); sides.len()];
    let mut stages = vec![Times::default(); 4];
    for turn in 0..ROUNDS {
        round(turn, sides, files, &mut times, &mut |side, file| {
            black_box(side.reduce(file, &mut out)).number == 0
        });
        if let Some(oracle) = &mut oracle {
            oracle_round(oracle, files, &mut stages)?;
        }
    }
    let stages: Vec<f64> = stages.into_iter().filter_map(|stage| stage.a_record(files)).collect();
    let oracle = match stages[..] {
        [read, handlers, write, all] => Some(OracleMeasured { read, handlers, write, all }),
        _ => None,
    };
    Ok((times.into_iter().map(|times| times.a_record(files)).collect(), oracle))
}

/// What the calls take of each side, in turns; none if `call` says of a file that it was not done.
fn in_turns(
    sides: &[&dyn Side],
    files: &[Vec<u8>],
    mut call: impl FnMut(&dyn Side, &[u8]) -> bool,
) -> Vec<Option<f64>> {
    let mut times = vec![Times::default(); sides.len()];
    (0..ROUNDS).for_each(|turn| round(turn, sides, files, &mut times, &mut call));
    times.into_iter().map(|times| times.a_record(files)).collect()
}

/// Each side goes through each group of files once, another side first at every turn. So a file
/// comes again only after all the others, when the processor has forgotten how its branches went.
fn round(
    turn: usize,
    sides: &[&dyn Side],
    files: &[Vec<u8>],
    times: &mut [Times],
    call: &mut impl FnMut(&dyn Side, &[u8]) -> bool,
) {
    for (at, group) in groups(files).enumerate() {
        for step in 0..sides.len() {
            let side = (turn + step) % sides.len();
            touch(group);
            let start = Instant::now();
            let done = group.iter().all(|file| call(sides[side], file));
            let time = start.elapsed().as_nanos() as f64;
            if done {
                times[side].push(at, time);
            }
        }
    }
}

/// Reads the files, so that they are as near at hand for the first side as for the last.
fn touch(files: &[Vec<u8>]) {
    black_box(files.iter().flatten().fold(0_u8, |sum, &byte| sum.wrapping_add(byte)));
}

/// The oracle goes through all groups of files once, by its own clock.
fn oracle_round(oracle: &mut Oracle, files: &[Vec<u8>], stages: &mut [Times]) -> io::Result<()> {
    let each = group_size(files);
    for (at, [read, handlers, write]) in oracle.time(files, each)?.into_iter().enumerate() {
        let all = read + handlers + write;
        stages.iter_mut().zip([read, handlers, write, all]).for_each(|(s, time)| s.push(at, time));
    }
    Ok(())
}

/// The files of a group have so many records, or it is one file: few, so that an interruption falls
/// into few of the times, and many enough that reading the clock does not count.
const GROUP: usize = 2_000;

fn group_size(files: &[Vec<u8>]) -> usize {
    (GROUP / file::count(&files[0])).max(1)
}

fn groups(files: &[Vec<u8>]) -> impl Iterator<Item = &[Vec<u8>]> {
    files.chunks(group_size(files))
}

/// For each group the times of all rounds, in nanoseconds.
#[derive(Clone, Default)]
struct Times(Vec<Vec<f64>>);

impl Times {
    fn push(&mut self, group: usize, time: f64) {
        self.0.resize(self.0.len().max(group + 1), Vec::new());
        self.0[group].push(time);
    }

    /// The medians of all groups, by the records of all files; none, if there was no round.
    fn a_record(self, files: &[Vec<u8>]) -> Option<f64> {
        let records = files.iter().map(|file| file::count(file)).sum::<usize>() as f64;
        let measured = !self.0.is_empty();
        measured.then(|| self.0.into_iter().map(median).sum::<f64>() / records)
    }
}

fn median(mut times: Vec<f64>) -> f64 {
    times.sort_by(f64::total_cmp);
    times[times.len() / 2]
}
