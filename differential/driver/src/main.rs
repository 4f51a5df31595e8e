//! The driver's commands; `driver help` lists them.

use driver::bench;
use driver::compare::{Comparator, NUMBERS, Tally};
use driver::conditionals::{self, Extent};
use driver::damaged;
use driver::facts;
use driver::file;
use driver::fixed;
use driver::hits::HITS;
#[cfg(feature = "library")]
use driver::library::Library;
use driver::listings;
use driver::oracle::Oracle;
use driver::programs::{self, Programs};
use driver::reduced;
use driver::reductions;
use driver::run;
use driver::side::{Port, Side};
use driver::speed;
use driver::sums;
#[cfg(feature = "library")]
use driver::under_damage;
use std::io::{self, BufWriter, Read, Write};
use std::path::Path;
use std::process::ExitCode;
use std::time::Duration;
use std::{env, fs};

const HELP: &str = "\
driver brief                              rows, edges, fixed list, seeded trees, Derived: seconds
driver run [--trees N] [--seed S] [--oracle PATH] [--hits]
                                          the same with more trees, and against the oracle
driver conditionals [--trees N] [--seed S] [--oracle PATH]
                                          every list of places that count as yes, over up to five
                                          places: all trees of up to four records over a thin set of
                                          facts, and so many seeded ones
driver replay FILE                        the fixed list in FILE
driver fixed --oracle PATH [--seed S] FILE
                                          makes the fixed list
driver listings                           the effects of the files on standard input, as the
                                          program listings prints them
driver reductions                         what is left of them, as the program reductions prints it
driver reduced                            a line for each of the files on standard input: the
                                          port's number, length and hash of what Reduce writes
driver programs [--limit SECONDS] FOLDER  runs FOLDER/columns and FOLDER/reduce on each of them, and
                                          compares what is printed with the port's answers; a run
                                          that takes longer than SECONDS, or 10, is ended
driver damaged [--files N] [--seed S]     writes damaged files, each behind its length in two bytes,
                                          the port's number in one, how many faults were put into
                                          it in one, and the damaged record or 65535 in two
driver damage [--files N] [--seed S]      damaged and random files through the library, between pages
                                          that it may not touch
driver speed [--seed S] [--oracle PATH]   nanoseconds a record
driver bench [--seed S] [--oracle PATH]   the same as one table, with ratios";

const BRIEF_TREES: u64 = 200_000;

/// What stands on the command line.
struct Arguments {
    trees: u64,
    files: u64,
    seed: u64,
    oracle: Option<String>,
    hits: bool,
    /// Seconds that a run of a program may take.
    limit: u64,
    /// Only a fault that the guards must find: `damage` starts itself so.
    fault: Option<usize>,
    file: Option<String>,
}

fn main() -> ExitCode {
    let mut words = env::args().skip(1);
    let command = words.next().unwrap_or_default();
    let result = arguments(words).and_then(|arguments| match command.as_str() {
        "brief" => run(&Arguments { trees: BRIEF_TREES, seed: 1, ..arguments }),
        "run" => run(&arguments),
        "conditionals" => run_conditionals(&arguments),
        "replay" => replay(&arguments),
        "fixed" => make_fixed_list(&arguments),
        "listings" => Ok(listings::text(&Port, &input()?)),
        "reduced" => Ok(reduced::text(&Port, &input()?)),
        "reductions" => Ok(reductions::text(&Port, &input()?)),
        "programs" => run_programs(&arguments),
        "damaged" => write_damaged(&arguments),
        "damage" => damage(arguments.files, arguments.seed, arguments.fault),
        "speed" => measure(&arguments),
        "bench" => benchmark(&arguments),
        _ => Err(HELP.to_string()),
    });
    match result {
        Ok(lines) => {
            print!("{lines}");
            ExitCode::SUCCESS
        }
        Err(difference) => {
            println!("{difference}\ndifferential: failed");
            ExitCode::FAILURE
        }
    }
}

fn arguments(mut words: impl Iterator<Item = String>) -> Result<Arguments, String> {
    let mut arguments = Arguments {
        trees: 1_000_000,
        files: 100_000,
        seed: 1,
        oracle: None,
        hits: false,
        limit: 10,
        fault: None,
        file: None,
    };
    while let Some(word) = words.next() {
        let mut value = || words.next().ok_or(format!("{word} needs a value"));
        let number = |text: String| text.parse().map_err(|_| format!("no number: {text}"));
        match word.as_str() {
            "--trees" => arguments.trees = number(value()?)?,
            "--files" => arguments.files = number(value()?)?,
            "--seed" => arguments.seed = number(value()?)?,
            "--oracle" => arguments.oracle = Some(value()?),
            "--hits" => arguments.hits = true,
            "--limit" => arguments.limit = number(value()?)?,
            "--fault" => arguments.fault = Some(number(value()?)? as usize),
            _ => arguments.file = Some(word),
        }
    }
    Ok(arguments)
}

/// The sides that are held to each other. Another joins here.
#[cfg(not(feature = "library"))]
const SIDES: &[&dyn Side] = &[&Port];
#[cfg(feature = "library")]
const SIDES: &[&dyn Side] = &[&Port, &Library];

fn start_oracle(arguments: &Arguments) -> Result<Option<Oracle>, String> {
    let start = |path: &String| Oracle::start(path).map_err(|error| format!("{path}: {error}"));
    arguments.oracle.as_ref().map(start).transpose()
}

fn run(arguments: &Arguments) -> Result<String, String> {
    let mut comparator = Comparator::new(SIDES, start_oracle(arguments)?);
    if let Some(oracle) = &arguments.oracle {
        run::left_out_kinds(&mut comparator, oracle)?;
    }
    run::rows(&mut comparator)?;
    run::conditional_rows(&mut comparator)?;
    run::never_symbol_rows(&mut comparator)?;
    run::called_rows(&mut comparator)?;
    run::ends_rows(&mut comparator)?;
    let sums = sums::go(&mut comparator)?;
    let facts = facts::go(&mut comparator)?;
    run::edges(&mut comparator)?;
    let list = fixed::decode(fixed::LIST).ok_or("the fixed list cannot be read")?;
    run::fixed_list(&mut comparator, &list)?;
    run::cases(&mut comparator, arguments.seed, arguments.trees)?;
    let questions = run::derived_questions(&mut comparator, arguments.seed)?;
    let small = conditionals::go(&mut comparator, Extent::BRIEF, arguments.seed)?;
    let tally = comparator.finish()?;
    report(&tally, arguments, list.len(), questions);
    println!("  {}", every_list(small));
    println!("  {} files of additions in each other, {} of them refused", sums.0 + sums.1, sums.1);
    println!("  {} files of every kind with every facts byte, {facts} refused by 5;", facts::FILES);
    println!("    as many of version 2");
    run::met_enough(&tally)?;
    Ok(passed(&tally))
}

/// Small trees under every list.
fn run_conditionals(arguments: &Arguments) -> Result<String, String> {
    let mut comparator = Comparator::new(SIDES, start_oracle(arguments)?);
    run::conditional_rows(&mut comparator)?;
    let extent = Extent { settings: conditionals::ALL_SETTINGS, seeded: arguments.trees };
    let small = conditionals::go(&mut comparator, extent, arguments.seed)?;
    let tally = comparator.finish()?;
    println!("seed {}: {}", arguments.seed, every_list(small));
    let (holds, fails) = (tally.premise_true_given, tally.premise_false_given);
    println!("  of the lists of trees that Reduce takes, {holds} premise-true, {fails} not");
    report_sides(&tally);
    if arguments.oracle.is_some() {
        println!("  {}", held_to_oracle(&tally));
    }
    println!("  {}", left_out(&tally));
    Ok(passed(&tally))
}

/// The copies are those whose facts the oracle reads as document 02 does.
fn held_to_oracle(tally: &Tally) -> String {
    let Tally { left_out: copies, oracle_trees: all, oracle_ends: ends, .. } = *tally;
    format!(
        "oracle: {} trees as they are, and {copies} copies, 0 different; {ends} of all with both ends",
        all - copies
    )
}

fn left_out(tally: &Tally) -> String {
    let (all, calls) = (tally.left_out, tally.left_out_calls);
    format!(
        "{all} trees left out for their copies: {} for unknown symbols alone, {calls} with a call that \
         tree-shake-only keeps before purity",
        all - calls
    )
}

fn every_list(small: conditionals::Tally) -> String {
    let conditionals::Tally { reduced, listed, lists } = small;
    format!("{reduced} small trees and {listed} with logicals, under {lists} lists, all of each")
}

fn passed(tally: &Tally) -> String {
    format!("differential: {} checks passed\n", tally.checks)
}

fn report(tally: &Tally, arguments: &Arguments, listed: usize, questions: u64) {
    println!(
        "seed {}: {} trees, {listed} of them from the fixed list, and {} damaged files",
        arguments.seed, tally.trees, tally.damaged
    );
    println!("  {} removable, {} kept", tally.removable, tally.kept);
    println!("  {} premise-true, {} not", tally.premise_true, tally.premise_false);
    let (holds, fails) = (tally.premise_true_given, tally.premise_false_given);
    println!("  under lists of places that count as yes, {holds} premise-true, {fails} not");
    println!("  {} files with logicals, for List effects", tally.listed);
    println!("  {} trees in both versions", tally.both_versions);
    println!("  {}", left_out(tally));
    match arguments.oracle {
        Some(_) => {
            println!("  {}", held_to_oracle(tally));
            println!("    and {questions} Derived questions, 0 different");
        }
        None => println!("  {questions} Derived questions, no oracle"),
    }
    report_sides(tally);
    let (reduce, list) = (tally.refused_reductions, tally.refused_lists);
    println!("  of the damaged files, {reduce} refused by Reduce, {list} by List effects");
    let refused = NUMBERS.map(|number| tally.refused[usize::from(number)]);
    let all: u64 = refused.iter().sum();
    println!("  {all} refusals by number 1 to 12 and 17: {refused:?}");
    let rarest = HITS.iter().min_by_key(|&&(hit, _)| tally.hits.count(hit));
    if let Some(&(hit, words)) = rarest {
        let count = tally.hits.count(hit);
        println!("  {} outcomes met, the rarest {count} times ({words})", HITS.len());
    }
    if arguments.hits {
        for &(hit, words) in HITS {
            println!("  {:>10} {words}", tally.hits.count(hit));
        }
    }
}

fn report_sides(tally: &Tally) {
    for side in &SIDES[1..] {
        println!("  held to the port: {}", side.name());
        println!("    {} reductions, {} bytes, 0 different", tally.reductions, tally.bytes);
        println!("    {} lists, {} entries, 0 different", tally.lists, tally.entries);
    }
}

fn replay(arguments: &Arguments) -> Result<String, String> {
    let path = arguments.file.as_ref().ok_or("which file?")?;
    let bytes = fs::read(path).map_err(|error| format!("{path}: {error}"))?;
    let cases = fixed::decode(&bytes).ok_or(format!("{path} is no fixed list"))?;
    let mut comparator = Comparator::new(SIDES, None);
    run::fixed_list(&mut comparator, &cases)?;
    println!("{} cases", cases.len());
    Ok(passed(&comparator.tally))
}

fn make_fixed_list(arguments: &Arguments) -> Result<String, String> {
    let path = arguments.file.as_ref().ok_or("which file?")?;
    let mut oracle = start_oracle(arguments)?.ok_or("the list is made of the oracle's answers")?;
    let cases = fixed::make(&mut oracle, arguments.seed).map_err(|error| error.to_string())?;
    oracle.stop().map_err(|error| error.to_string())?;
    let bytes = fixed::encode(&cases);
    fs::write(path, &bytes).map_err(|error| format!("{path}: {error}"))?;
    Ok(format!("{} cases, {} bytes\n", cases.len(), bytes.len()))
}

fn run_programs(arguments: &Arguments) -> Result<String, String> {
    let folder = arguments.file.as_ref().ok_or("which folder?")?;
    let limit = Duration::from_secs(arguments.limit);
    programs::held(&Port, &Programs { folder: Path::new(folder), limit }, &input()?)
}

fn input() -> Result<Vec<u8>, String> {
    let mut input = Vec::new();
    io::stdin().read_to_end(&mut input).map_err(|error| error.to_string())?;
    Ok(input)
}

fn write_damaged(arguments: &Arguments) -> Result<String, String> {
    let mut out = BufWriter::new(io::stdout().lock());
    damaged::write(&mut out, arguments.files, arguments.seed)
        .and_then(|()| out.flush())
        .map_err(|error| error.to_string())?;
    Ok(String::new())
}

#[cfg(feature = "library")]
fn damage(files: u64, seed: u64, fault: Option<usize>) -> Result<String, String> {
    match fault {
        Some(fault) => under_damage::run_faulty(fault),
        None => under_damage::run(files, seed),
    }
}

#[cfg(not(feature = "library"))]
fn damage(_: u64, _: u64, _: Option<usize>) -> Result<String, String> {
    Err("damage is for the proved library: build the driver with --features library".to_string())
}

fn measure(arguments: &Arguments) -> Result<String, String> {
    println!(
        "seed {}, nanoseconds a record, of each group of files the median of {} rounds",
        arguments.seed,
        speed::ROUNDS
    );
    let mut oracle = start_oracle(arguments)?;
    for version in [1, 2] {
        println!("version {version}: Reduce, on trees to most of whose records it comes");
        for records in [10, 40, 200, 260, 2_000] {
            let files = speed::walked_files(records, arguments.seed);
            let files = speed::in_version(version, files, arguments.seed);
            measure_reduce(&files, oracle.as_mut()).map_err(|e| e.to_string())?;
        }
        println!("version {version}: on trees as they are drawn");
        for records in [10, 200, 2_000, 3_999] {
            let files = speed::files(records, arguments.seed);
            measure_as_drawn(&speed::in_version(version, files, arguments.seed));
        }
    }
    if let Some(oracle) = oracle {
        oracle.stop().map_err(|error| error.to_string())?;
    }
    Ok("differential: measured\n".to_string())
}

fn benchmark(arguments: &Arguments) -> Result<String, String> {
    let mut oracle = start_oracle(arguments)?;
    let table = bench::table(SIDES, oracle.as_mut(), arguments.seed).map_err(|e| e.to_string())?;
    if let Some(oracle) = oracle {
        oracle.stop().map_err(|error| error.to_string())?;
    }
    Ok(table)
}

fn measure_reduce(files: &[Vec<u8>], oracle: Option<&mut Oracle>) -> io::Result<()> {
    let (reached, written) = speed::walked(files, &Port);
    println!(
        "  {} files of {} records: {:.0} % reached, {:.0} % as many written",
        files.len(),
        file::count(&files[0]),
        100.0 * reached,
        100.0 * written
    );
    if reached < 0.5 {
        return Err(io::Error::other("most records are not reached"));
    }
    let (times, oracle) = speed::reduce(SIDES, oracle, files)?;
    for (side, time) in SIDES.iter().zip(times) {
        println!("    {:8} Reduce {:>5}", side.name(), shown(time));
    }
    if let Some(speed::OracleMeasured { read, handlers, write, all }) = oracle {
        print!("    oracle   Reduce {all:>5.1}: handlers {handlers:.1}, ");
        println!("the file read into a tree {read:.1}, the answer written {write:.1}");
    }
    Ok(())
}

fn measure_as_drawn(files: &[Vec<u8>]) {
    println!("  {} files of {} records", files.len(), file::count(&files[0]));
    for (side, measured) in SIDES.iter().zip(speed::measure(SIDES, files)) {
        let [check, reduce, list] = [measured.check, measured.reduce, measured.list].map(shown);
        let name = side.name();
        println!("    {name:8} Reduce {reduce:>5}  List effects {list:>5}  check {check:>5}");
    }
}

fn shown(time: Option<f64>) -> String {
    time.map_or("-".to_string(), |time| format!("{time:.1}"))
}
