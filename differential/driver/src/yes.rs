//! Lists of places that count as yes: "the listing is lent the places that count as yes, any list,
//! other test places being no" (02, N1).

use port::kind;

use crate::file;
use crate::random::Random;

/// More places than any listing is lent by chance.
pub const MANY: usize = 10_000;

/// The places of a file's nodes, of which a list is made.
struct Places {
    /// The starts of the tests of conditionals and logicals, in the order of the records.
    tests: Vec<u32>,
    /// All starts, then the ends, if there are any: no test counts as yes by its end.
    all: Vec<u32>,
}

impl Places {
    /// Of any bytes: a record that could have children is taken for one that has them.
    fn of(file: &[u8]) -> Places {
        let records = file.get(file::HEADER..).unwrap_or_default().chunks_exact(file::width(file));
        let starts = records.clone().map(|r| file::number(r, 12));
        let has_test = |r: &[u8]| matches!(r[0], kind::LOGICAL | kind::CONDITIONAL);
        let tests = records.clone().zip(starts.clone().skip(1));
        let tests = tests.filter(|(r, _)| has_test(r)).map(|(_, start)| start);
        let ends = records.filter(|r| r.len() == file::WIDTH_2).map(|r| file::number(r, 16));
        Places { tests: tests.collect(), all: starts.clone().chain(ends).collect() }
    }
}

/// The places of the tests of a file's conditionals and logicals, each once, in rising order.
pub fn tests(file: &[u8]) -> Vec<u32> {
    let mut tests = Places::of(file).tests;
    tests.sort_unstable();
    tests.dedup();
    tests
}

/// At most `most` places of a file, each once, those of tests first, ends last.
pub fn places(file: &[u8], most: usize) -> Vec<u32> {
    let Places { tests, all } = Places::of(file);
    let mut places = Vec::new();
    for place in tests.into_iter().chain(all) {
        if places.len() < most && !places.contains(&place) {
            places.push(place);
        }
    }
    places
}

/// Every list that has each of the places once or not at all, in their order; the empty one first.
pub fn subsets(places: &[u32]) -> Vec<Vec<u32>> {
    let chosen = |set: usize| {
        let members = places.iter().enumerate().filter(move |(i, _)| set >> i & 1 != 0);
        members.map(|(_, &place)| place).collect()
    };
    (0..1 << places.len()).map(chosen).collect()
}

/// The lists that a tree is listed under, besides the empty one: one where it has no test.
pub fn lists(random: &mut Random, file: &[u8]) -> Vec<Vec<u32>> {
    let places = Places::of(file);
    let count = if places.tests.is_empty() { 1 } else { 3 };
    (0..count).map(|_| drawn(random, &places)).collect()
}

/// One list for any bytes; now and then a long one.
pub fn list(random: &mut Random, file: &[u8]) -> Vec<u32> {
    if random.chance(1) {
        return many(random, file);
    }
    drawn(random, &Places::of(file))
}

/// A list of `MANY` places, those of the tests among them.
pub fn many(random: &mut Random, file: &[u8]) -> Vec<u32> {
    let mut list = Places::of(file).tests;
    list.truncate(MANY / 2);
    list.resize_with(MANY, || random.draw() as u32);
    shuffle(random, &mut list);
    list
}

/// Some of the tests' places, some of others, some that need not occur, some of them again, in any
/// order.
fn drawn(random: &mut Random, places: &Places) -> Vec<u32> {
    let share = random.pick(&[0, 64, 128, 192, 256]);
    let mut list = places.tests.clone();
    list.retain(|_| random.chance(share));
    for _ in 0..random.pick(&[0, 0, 1, 3]) {
        list.extend((!places.all.is_empty()).then(|| random.pick(&places.all)));
    }
    for _ in 0..random.pick(&[0, 0, 1, 4]) {
        list.push(random.draw() as u32);
    }
    for _ in 0..random.pick(&[0, 0, 1, 2]) {
        list.extend((!list.is_empty()).then(|| random.pick(&list)));
    }
    shuffle(random, &mut list);
    list
}

fn shuffle(random: &mut Random, list: &mut [u32]) {
    for i in (1..list.len()).rev() {
        list.swap(i, random.below(i + 1));
    }
}
