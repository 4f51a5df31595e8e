//! The programs `columns` and `reduce`, run on tree files and held to what the port answers.

use std::path::Path;
use std::time::Duration;

use crate::compare::Difference;
use crate::file::{self, WIDTH_2};
use crate::listings;
use crate::process;
use crate::reduced;
use crate::side::Side;

/// How much `columns` reads of its input: one byte more than the longest file that it takes.
const READ_BY_COLUMNS: usize = 32_009;
/// The same of `reduce`, which takes all that Reduce takes.
const READ_BY_REDUCE: usize = 40_009;

/// Where the programs are, and how long one run of one may take.
pub struct Programs<'a> {
    pub folder: &'a Path,
    pub limit: Duration,
}

/// Runs both programs on each file of the input, which stands behind its length in two bytes.
/// Answers with how many files there were, and how many of each outcome.
pub fn held(side: &dyn Side, programs: &Programs, input: &[u8]) -> Result<String, Difference> {
    let files: Vec<&[u8]> = file::framed(input).collect();
    if files.is_empty() || files.iter().map(|file| 2 + file.len()).sum::<usize>() != input.len() {
        return Err("standard input is no list of files".to_string());
    }
    let mut tally = Tally::default();
    for (i, file) in files.iter().enumerate() {
        let answer = Answer::of(side, file);
        let alike = answer.is_printed(programs, file);
        alike.map_err(|what| {
            format!("file {} of {}, {} bytes: {what}", i + 1, files.len(), file.len())
        })?;
        tally.count(&answer);
    }
    Ok(tally.text())
}

/// What a side answers to a file, and so what the programs must print.
struct Answer {
    number: u8,
    left: Vec<u8>,
    columns: String,
}

impl Answer {
    fn of(side: &dyn Side, file: &[u8]) -> Answer {
        let read = |most: usize| &file[..file.len().min(most)];
        let (number, left) = left_of(side, read(READ_BY_REDUCE));
        Answer { number, left, columns: columns(side, read(READ_BY_COLUMNS)) }
    }

    /// Both programs, given the whole file, print this answer.
    fn is_printed(&self, programs: &Programs, file: &[u8]) -> Result<(), Difference> {
        programs.print("columns", file, self.columns.as_bytes(), b"")?;
        let refusal = if self.number == 0 { String::new() } else { refused(self.number) };
        programs.print("reduce", file, &self.left, refusal.as_bytes())
    }
}

/// The number of the refusal, and what is left.
fn left_of(side: &dyn Side, file: &[u8]) -> (u8, Vec<u8>) {
    let mut left = vec![0; reduced::OUT];
    let reduction = side.reduce(file, &mut left);
    left.truncate(reduction.length);
    (reduction.number, left)
}

/// What `columns` prints. The count that it takes is tested with Reduce's, so before the records are.
fn columns(side: &dyn Side, file: &[u8]) -> String {
    match left_of(side, file) {
        (number @ 1..=3, _) => refused(number),
        _ if has_too_many(file) => refused(4),
        (0, left) => table(side, file, &left),
        (number, _) => refused(number),
    }
}

/// "The two-column ... programs take 1,500 records of version 2 and refuse more as a wrong count"
/// (02, N6).
fn has_too_many(file: &[u8]) -> bool {
    file::width(file) == WIDTH_2 && file::count(file) > 1_500
}

/// "Columns are place/kind/coercion, `-` where the shorter list has ended; last, N and result
/// records (0 if removable)." Nothing is left of a tree that is removable.
fn table(side: &dyn Side, file: &[u8], left: &[u8]) -> String {
    let before = effects(side, file);
    let after = if left.is_empty() { Vec::new() } else { effects(side, left) };
    let cell = |list: &[String], i: usize| list.get(i).map_or("-".to_string(), String::clone);
    let mut text = "before after\n".to_string();
    for i in 0..before.len().max(after.len()) {
        text += &format!("{} {}\n", cell(&before, i), cell(&after, i));
    }
    let records = if left.is_empty() { 0 } else { file::count(left) };
    text + &format!("records {} {records}\n", file::count(file))
}

/// List effects takes all that Reduce takes or leaves.
fn effects(side: &dyn Side, file: &[u8]) -> Vec<String> {
    let mut entries = vec![0; listings::ENTRIES];
    let listing = side.list_effects(file, &mut entries);
    entries[..listing.count].iter().map(|&entry| listings::column(entry)).collect()
}

fn refused(number: u8) -> String {
    format!("refused {number}\n")
}

impl Programs<'_> {
    /// The program prints this on standard output and on standard error, and ends with status 0.
    fn print(&self, name: &str, input: &[u8], out: &[u8], err: &[u8]) -> Result<(), Difference> {
        let program = self.folder.join(name);
        let name = program.display();
        let output = process::run(&program, input, self.limit);
        let output = output.map_err(|error| format!("{name}: {error}"))?;
        if !output.status.success() {
            return Err(format!("{name}: {}", output.status));
        }
        same(&output.stdout, out).map_err(|what| format!("{name}, standard output: {what}"))?;
        same(&output.stderr, err).map_err(|what| format!("{name}, standard error: {what}"))
    }
}

fn same(printed: &[u8], due: &[u8]) -> Result<(), Difference> {
    if printed == due {
        return Ok(());
    }
    let at = printed.iter().zip(due).take_while(|(a, b)| a == b).count();
    let part = |bytes: &[u8]| bytes[at..].iter().take(32).copied().collect::<Vec<u8>>();
    let (printed_part, due_part) = (part(printed), part(due));
    Err(format!(
        "{} bytes, due {}; from byte {at} on \"{}\", due \"{}\"",
        printed.len(),
        due.len(),
        printed_part.escape_ascii(),
        due_part.escape_ascii()
    ))
}

#[derive(Default)]
struct Tally {
    kept: u64,
    removable: u64,
    /// By numbers 1 to 8 and 17: enough is lent for any file.
    refused: [u64; 9],
    /// Taken by `reduce`, and of too many records for `columns`.
    by_columns: u64,
}

const NUMBERS: [u8; 9] = [1, 2, 3, 4, 5, 6, 7, 8, 17];

impl Tally {
    fn count(&mut self, answer: &Answer) {
        match NUMBERS.iter().position(|&number| number == answer.number) {
            Some(at) => self.refused[at] += 1,
            None if answer.left.is_empty() => self.removable += 1,
            None => self.kept += 1,
        }
        self.by_columns += u64::from(answer.number == 0 && answer.columns == refused(4));
    }

    fn text(&self) -> String {
        let Tally { kept, removable, refused, by_columns } = self;
        let files = kept + removable + refused.iter().sum::<u64>();
        let mut text = format!("files {files}\nkept {kept}\nremovable {removable}\n");
        for (number, count) in NUMBERS.iter().zip(refused) {
            text += &format!("refused with {number}: {count}\n");
        }
        text + &format!("refused with 4 by columns alone: {by_columns}\n")
    }
}
