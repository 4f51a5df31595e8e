//! Damaged copies of accepted files, each with the number that must refuse it.

use port::{Limits, element, kind, sub};

use crate::ends;
use crate::file::{self, WIDTH_1, WIDTH_2};
use crate::hits::Hit;
use crate::logicals;
use crate::never_symbol::{self, Never};
use crate::random::Random;
use crate::trees;

/// A file, what is lent, and the tests that Reduce and List effects must refuse it by.
pub struct Damaged {
    pub file: Vec<u8>,
    pub output_room: usize,
    pub entry_room: usize,
    reduce: Test,
    list: Test,
    /// How many faults are in the file itself: what is lent is none of it.
    pub faults: u8,
    /// The record that was damaged last, so for the earlier test; the next damage falls on another.
    pub touched: Option<usize>,
    /// Which of the six says that it is a symbol.
    never: Option<Never>,
    /// The record whose end lies before its start.
    span: Option<usize>,
    /// What there is to count of a damaged header.
    header: Option<Hit>,
}

/// A test of the file or of what is lent, in the order in which they are made. 5 is made twice, "for
/// the addition just after the tree's shape is tested" (02, N9), and 17 "after the tree's shape ... and
/// before its depth" (N6).
#[derive(Clone, Copy, Debug, PartialEq, Eq, PartialOrd, Ord)]
pub enum Test {
    Of(u8),
    /// 5 for additions.
    Addition,
    /// 17.
    Span,
    After(u8),
    Passed,
}

impl Test {
    /// 17 is there twice, since it has the most tests to stand between.
    const ALL: [Test; 13] = [
        Test::Of(1),
        Test::Of(2),
        Test::Of(3),
        Test::Of(4),
        Test::Of(5),
        Test::Of(6),
        Test::Of(7),
        Test::Addition,
        Test::Span,
        Test::Span,
        Test::After(8),
        Test::After(9),
        Test::After(10),
    ];

    /// The tests between which 17 stands.
    const BESIDE_SPAN: [Test; 7] = [
        Test::Of(5),
        Test::Of(6),
        Test::Of(7),
        Test::Addition,
        Test::After(8),
        Test::After(9),
        Test::After(10),
    ];

    /// The test of this number, of records for 5; 0: all passed.
    fn numbered(number: u8) -> Test {
        match number {
            0 => Test::Passed,
            1..8 => Test::Of(number),
            17 => Test::Span,
            _ => Test::After(number),
        }
    }

    /// The number that it refuses with.
    fn number(self) -> u8 {
        match self {
            Test::Of(number) | Test::After(number) => number,
            Test::Addition => 5,
            Test::Span => 17,
            Test::Passed => 0,
        }
    }
}

/// One damage or two; of two, the earlier test must win, wherever in the file they stand. The file has the
/// version of the good one, or version 2 for 17.
pub fn damaged(random: &mut Random, good: &[u8]) -> Damaged {
    let mut tests = vec![random.pick(&Test::ALL)];
    if random.chance(96) {
        tests.push(random.pick(&Test::ALL));
    }
    if tests == [Test::Addition] && random.chance(160) {
        tests.push(random.pick(&[Test::Of(6), Test::Of(7), Test::After(8)]));
    }
    if tests == [Test::Span] && random.chance(128) {
        tests.push(random.pick(&Test::BESIDE_SPAN));
    }
    // The later test first: a damaged header hides no damage to a record from us.
    tests.sort_unstable_by(|a, b| b.cmp(a));
    tests.dedup();
    let additions = tests.contains(&Test::Addition);
    let with_ends = tests.contains(&Test::Span) || file::width(good) == WIDTH_2;
    let case = match tests.contains(&Test::After(8)) {
        true if additions || random.chance(32) => long_chain(random),
        true => too_deep(random),
        false if additions && random.chance(128) => chain(random),
        false => Damaged::of(good.to_vec()),
    };
    let mut case = case.with_ends_if(random, with_ends);
    if tests == [Test::Of(4)] && random.chance(8) {
        return too_many(random).with_ends_if(random, with_ends);
    }
    for test in tests {
        case.damage(random, test);
    }
    case.test_additions();
    case
}

/// A left chain of additions with a string in it.
fn chain(random: &mut Random) -> Damaged {
    let additions = random.between(1, Limits::REDUCE.depth - 1);
    let string = random.between(1, additions);
    Damaged::of(trees::chain_file(random, additions, &[string]))
}

/// The same, too deep: now and then as long as any file can be.
fn long_chain(random: &mut Random) -> Damaged {
    let (reduce, list) = (Limits::REDUCE, Limits::LIST_EFFECTS);
    let most = if random.chance(8) { list.records / 2 } else { list.depth + 3 };
    let additions = random.between(reduce.depth, most);
    let string = random.between(1, additions);
    let file = trees::chain_file(random, additions, &[string]);
    let number = if file::count(&file) > reduce.records { 4 } else { 8 };
    Damaged::whole(file, number, if additions >= list.depth { 8 } else { 0 })
}

/// "Depth 64 taken, 65 refused 8"; the listing takes one level more.
fn too_deep(random: &mut Random) -> Damaged {
    let most = Limits::LIST_EFFECTS.depth;
    let depth = random.between(most, most + 3);
    Damaged::whole(trees::deep_file(random, depth), 8, if depth > most { 8 } else { 0 })
}

/// "N 2,000 taken, 2,001 refused 4"; the listing takes up to 3,999.
fn too_many(random: &mut Random) -> Damaged {
    let (reduce, list) = (Limits::REDUCE.records, Limits::LIST_EFFECTS.records);
    let between = random.between(reduce + 2, list - 1);
    let records = random.pick(&[reduce + 1, between, list, list + 1]);
    Damaged::whole(trees::wide_file(random, records), 4, if records > list { 4 } else { 0 })
}

impl Damaged {
    fn of(file: Vec<u8>) -> Damaged {
        let (output_room, entry_room) = (file::output_room(&file), 2 * file::count(&file));
        let reduce = if logicals::has_logicals(&file) { 6 } else { 0 };
        Damaged::lent(file, output_room, entry_room, reduce, 0)
    }

    /// The file is made one of version 2, if that is wanted of one that is not.
    fn with_ends_if(mut self, random: &mut Random, wanted: bool) -> Damaged {
        if wanted && file::width(&self.file) == WIDTH_1 {
            self.file = ends::added(random, &self.file);
            self.output_room = file::output_room(&self.file);
        }
        self
    }

    /// A file that is refused for what it is.
    pub fn whole(file: Vec<u8>, reduce: u8, list: u8) -> Damaged {
        let [reduce, list] = [reduce, list].map(Test::numbered);
        Damaged { reduce, list, faults: 1, ..Damaged::of(file) }
    }

    /// Any file, to which so much is lent.
    pub fn lent(
        file: Vec<u8>,
        output_room: usize,
        entry_room: usize,
        reduce: u8,
        list: u8,
    ) -> Damaged {
        let [reduce, list] = [reduce, list].map(Test::numbered);
        Damaged {
            file,
            output_room,
            entry_room,
            reduce,
            list,
            faults: 0,
            touched: None,
            never: None,
            span: None,
            header: None,
        }
    }

    /// The number that Reduce must answer; 0: accepted.
    pub fn reduce(&self) -> u8 {
        self.reduce.number()
    }

    /// The number that List effects must answer.
    pub fn list(&self) -> u8 {
        self.list.number()
    }

    /// The earliest test stands.
    fn refuse(&mut self, reduce: Test, list: Test) {
        self.reduce = self.reduce.min(reduce);
        self.list = self.list.min(list);
    }

    fn damage(&mut self, random: &mut Random, test: Test) {
        let done = match test.number() {
            1 => self.cut_or_mark(random),
            2 => self.version(random),
            3 => self.settings(random),
            4 => self.count_or_length(random),
            5 if test == Test::Addition => self.bad_addition(random),
            5 => self.bad_record(random),
            6 => return self.left_out_kind(random),
            7 => self.shape(random),
            17 => self.bad_span(random),
            // The file was made too deep to begin with.
            8 => false,
            9 => {
                self.output_room -= missing(random, self.output_room);
                return self.refuse(test, Test::Passed);
            }
            _ => {
                self.entry_room -= missing(random, self.entry_room);
                return self.refuse(Test::Passed, test);
            }
        };
        if done {
            self.faults += 1;
            self.refuse(test, test);
        }
    }

    // The header.

    fn cut_or_mark(&mut self, random: &mut Random) -> bool {
        if random.chance(128) {
            self.file.truncate(random.below(8));
        } else {
            self.file[random.below(3)] ^= random.between(1, 255) as u8;
        }
        true
    }

    /// "Version 1 is still read" (02, N6), and no other but 2.
    fn version(&mut self, random: &mut Random) -> bool {
        let any = random.between(3, 65_535) as u16;
        let version: u16 = random.pick(&[0, 0, 3, 3, 257, 258, 513, 514, 65_281, any]);
        self.file[3..5].copy_from_slice(&version.to_le_bytes());
        self.header = match (version & 255, version >> 8) {
            (0, 0) => Some(Hit::Version0),
            (3, 0) => Some(Hit::Version3),
            (1 | 2, _) => Some(Hit::VersionHigh),
            _ => None,
        };
        true
    }

    fn settings(&mut self, random: &mut Random) -> bool {
        self.file[5] |= 8 << random.below(5);
        true
    }

    fn count_or_length(&mut self, random: &mut Random) -> bool {
        let (count, width) = (file::count(&self.file) as u16, file::width(&self.file));
        let way = random.below(5);
        match way {
            0 => self.file[6..8].copy_from_slice(&[0, 0]),
            1 => self.file[6..8].copy_from_slice(&(count + 1).to_le_bytes()),
            2 => self.file.truncate(self.file.len() - random.between(1, width)),
            3 => self.file.extend(vec![0; random.between(1, 2 * width)]),
            // The other version has records of another length.
            _ => self.file[3] ^= 3,
        }
        self.header = match (way, width) {
            (4, WIDTH_2) => Some(Hit::Wide1),
            (4, _) => Some(Hit::Narrow2),
            (2 | 3, WIDTH_2) => Some(Hit::Length2),
            _ => None,
        };
        true
    }

    // Records.

    /// A record that has not been damaged and passes the test.
    fn find(&self, random: &mut Random, test: impl Fn(usize) -> bool) -> Option<usize> {
        let count = file::count(&self.file);
        let start = random.below(count);
        (0..count).map(|step| (start + step) % count).find(|&i| self.touched != Some(i) && test(i))
    }

    fn edit(&mut self, i: usize, edit: impl FnOnce(&mut [u8])) -> bool {
        self.touched = Some(i);
        edit(file::record_mut(&mut self.file, i));
        true
    }

    /// "A recorded 'yes' on one is refused as bad facts" (02, N9), of the five that kind and sub tell.
    fn bad_symbol(&mut self, random: &mut Random) -> bool {
        let never = |i: usize| {
            let record = file::record(&self.file, i);
            never_symbol::by_head(record[0], record[2])
        };
        let wanted = random.pick(&[Never::Void, Never::Not, Never::Typeof, Never::Comparison]);
        let found = self.find(random, |i| never(i) == Some(wanted));
        let Some(i) = found.or_else(|| self.find(random, |i| never(i).is_some())) else {
            return false;
        };
        self.never = never(i);
        self.edit(i, never_symbol::record_yes)
    }

    /// The same of an addition with a string part.
    fn bad_addition(&mut self, random: &mut Random) -> bool {
        let six = never_symbol::six(&self.file);
        let Some(i) = self.find(random, |i| six[i] == Some(Never::Addition)) else { return false };
        self.never = six[i];
        self.edit(i, never_symbol::record_yes)
    }

    /// A damage for an earlier test may have made the string part one, or none any more: a logical counts
    /// by its string fact, where the addition that it was did not.
    fn test_additions(&mut self) {
        if self.reduce.max(self.list) < Test::Addition {
            return;
        }
        let bad = never_symbol::bad_additions(&self.file) > 0;
        for test in [&mut self.reduce, &mut self.list] {
            if bad {
                *test = Test::Addition.min(*test);
            } else if *test == Test::Addition {
                *test = Test::Passed;
            }
        }
    }

    /// What there is to count.
    pub fn hits(&self) -> impl Iterator<Item = Hit> {
        let header = self.header.filter(|_| self.reduce() == 2 || self.reduce() == 4);
        [header, self.yes_hit(), self.span_hit()].into_iter().flatten()
    }

    /// Of an end before its start: where it stands, if nothing else is wrong, and else beside what.
    fn span_hit(&self) -> Option<Hit> {
        let (record, file) = (self.span?, &self.file);
        match self.reduce {
            Test::Of(5) => Some(Hit::SpanAfter5),
            Test::Of(6) => Some(Hit::SpanAfter6),
            Test::Of(7) => Some(Hit::SpanAfter7),
            Test::Addition => Some(Hit::SpanAfterAddition),
            Test::Span if file::depth(file) > Limits::REDUCE.depth => Some(Hit::SpanBefore8),
            Test::Span if self.output_room < file::output_room(file) => Some(Hit::SpanBefore9),
            Test::Span if self.entry_room < 2 * file::count(file) => Some(Hit::SpanBefore10),
            Test::Span if record == 0 => Some(Hit::SpanRoot),
            Test::Span if record + 1 == file::count(file) => Some(Hit::SpanLast),
            Test::Span => Some(Hit::SpanInside),
            _ => None,
        }
    }

    /// Of a "yes" on one of the six.
    fn yes_hit(&self) -> Option<Hit> {
        let never = self.never?;
        match (never, self.reduce) {
            (Never::Addition, Test::Of(6)) => Some(Hit::YesAdditionAfter6),
            (Never::Addition, Test::Of(7)) => Some(Hit::YesAdditionAfter7),
            (Never::Addition, Test::Addition) => {
                let deep = file::depth(&self.file) > Limits::REDUCE.depth;
                Some(if deep { Hit::YesAdditionBefore8 } else { Hit::YesAddition })
            }
            (Never::Addition, _) => None,
            (_, Test::Of(5)) => Some(REFUSED[never as usize]),
            _ => None,
        }
    }

    /// "17 when an end lies before its start" (02, N6): at the root, at the last record, or at any.
    fn bad_span(&mut self, random: &mut Random) -> bool {
        let last = file::count(&self.file) - 1;
        let any = random.below(last + 1);
        let at = random.pick(&[0, last, any]);
        self.span = Some(at);
        self.edit(at, |record| ends::put_before(random, record))
    }

    /// "5 kind, facts, sub or byte 3."
    fn bad_record(&mut self, random: &mut Random) -> bool {
        if random.chance(192) && self.bad_symbol(random) {
            return true;
        }
        let Some(i) = self.find(random, |_| true) else { return false };
        let way = random.below(5);
        let number = random.between(1, 255) as u8;
        self.edit(i, |r| match way {
            0 => r[0] = random.pick(&[0, 23, 24, 64, 255]),
            1 => r[1] = bad_facts(random, r[0], r[1]),
            2 => r[2] = bad_sub(random, r[0]),
            3 => r[3] = number,
            // Kinds 20 to 22 are refused with 6 or taken only if all else is good.
            _ => {
                r[0] = random.between(20, 22) as u8;
                (r[1], r[2]) = random.pick(&[(32, 0), (0, 3), (6, 0), (16, 0)]);
            }
        })
    }

    /// "6 kinds 20–22", of which "kind 20, with sub 1 or 2 and two expressions, is read by the effect
    /// listing" (02, N1): a binary made a logical is listed, and a leaf made one has no children.
    fn left_out_kind(&mut self, random: &mut Random) {
        let way = random.below(4);
        let operator = random.pick(&[sub::AND, sub::OR]);
        let kind_of = |i: usize| file::record(&self.file, i)[0];
        let found = self.find(random, |i| match way {
            2 => kind_of(i) == kind::BINARY,
            3 => kind_of(i) <= kind::THIS,
            _ => true,
        });
        let Some(i) = found else { return };
        let (kind, sub, list) = match way {
            0 => (kind::ASSIGNMENT, 0, Test::Of(6)),
            1 => (kind::LOGICAL, 0, Test::Of(6)),
            2 => (kind::LOGICAL, operator, Test::Passed),
            _ => (kind::LOGICAL, operator, Test::Of(7)),
        };
        self.edit(i, |r| [r[0], r[1], r[2]] = [kind, r[1] & 31, sub]);
        self.faults += 1;
        self.refuse(Test::Of(6), list);
    }

    /// "7 child counts, subtree sizes (the root's is N), or a kind where it may not stand."
    fn shape(&mut self, random: &mut Random) -> bool {
        if random.chance(128) {
            return self.misplaced_kind(random);
        }
        let Some(i) = self.find(random, |_| true) else { return false };
        let field = random.pick(&[4, 6]);
        self.edit(i, |r| {
            let old = u16::from_le_bytes([r[field], r[field + 1]]);
            let any = random.between(1, 65_535) as u16;
            let change = random.pick(&[1, u16::MAX, 256, any]);
            r[field..field + 2].copy_from_slice(&old.wrapping_add(change).to_le_bytes());
        })
    }

    /// Another kind with as many children, where it may not stand or may not have so many.
    fn misplaced_kind(&mut self, random: &mut Random) -> bool {
        let relations = file::parents_and_depths(&self.file);
        let kind_of = |i: usize| file::record(&self.file, i)[0];
        let under = |i: usize| relations[i].0.map_or(0, kind_of);
        let children = |i: usize| file::record(&self.file, i)[4];
        let way = random.below(8);
        let found = self.find(random, |i| match way {
            0 => kind_of(i) <= kind::THIS && under(i) != kind::ARRAY,
            1 => kind_of(i) <= kind::THIS && under(i) != kind::CLASS,
            2 => kind_of(i) == kind::UNARY && under(i) != kind::OBJECT,
            3 => {
                let may_spread = [kind::ARRAY, kind::OBJECT, kind::CALL, kind::NEW];
                kind_of(i) == kind::UNARY && !may_spread.contains(&under(i))
            }
            4 => kind_of(i) == kind::ELEMENT && children(i) == 0,
            5 => kind_of(i) == kind::PROPERTY && children(i) == 1,
            6 => kind_of(i) == kind::BINARY,
            _ => kind_of(i) == kind::CONDITIONAL,
        });
        let Some(i) = found else { return false };
        let (kind, sub) = match way {
            0 => (kind::ELISION, 0),
            1 => (kind::ELEMENT, element::INDEX_SIGNATURE),
            2 => (kind::PROPERTY, 0),
            3 => (kind::SPREAD, 0),
            4 => (kind::IDENTIFIER, 0),
            5 => (kind::UNARY, sub::VOID),
            6 => (kind::CONDITIONAL, 0),
            _ => (kind::BINARY, sub::COMPARISON),
        };
        self.edit(i, |r| r[..3].copy_from_slice(&[kind, 0, sub]))
    }
}

/// How much of what is needed is not lent.
fn missing(random: &mut Random, needed: usize) -> usize {
    if random.chance(128) { 1 } else { random.between(1, needed) }
}

const REFUSED: [Hit; 5] =
    [Hit::YesVoid, Hit::YesNot, Hit::YesTypeof, Hit::YesComparison, Hit::YesTemplate];

/// "3 is bad in either pair"; "string yes needs symbol no"; bits that the kind does not allow.
fn bad_facts(random: &mut Random, kind: u8, facts: u8) -> u8 {
    match random.below(5) {
        0 => facts | 6,
        1 => facts | 24,
        2 => facts & !30 | 16,
        3 => facts & !30 | 20,
        _ => match kind {
            kind::STRING_LITERAL => facts | 1,
            kind::CALL => facts | 6,
            kind::SPREAD => facts | 2,
            kind::ELISION | kind::PROPERTY | kind::ELEMENT => 1,
            kind::NEW => facts | 128,
            _ => facts | 32 << random.below(3),
        },
    }
}

fn bad_sub(random: &mut Random, kind: u8) -> u8 {
    match kind {
        kind::PROPERTY => random.between(2, 255) as u8,
        kind::UNARY => random.pick(&[0, 5, 8, 255]),
        kind::BINARY => random.pick(&[0, 4, 8, 255]),
        kind::CLASS => random.between(4, 255) as u8,
        kind::LOGICAL => random.between(3, 255) as u8,
        kind::ELEMENT => random.pick(&[
            0,
            6,
            7,
            element::METHOD | element::VALUE,
            element::METHOD | element::BLOCK_NONEMPTY,
            element::PROPERTY | element::BLOCK_NONEMPTY,
            element::ACCESSOR | element::BLOCK_NONEMPTY,
            element::STATIC_BLOCK | element::STATIC,
            element::STATIC_BLOCK | element::COMPUTED_KEY,
            element::STATIC_BLOCK | element::DECORATED,
            element::STATIC_BLOCK | element::VALUE,
            element::INDEX_SIGNATURE | element::STATIC,
            element::INDEX_SIGNATURE | element::DECORATED,
            element::INDEX_SIGNATURE | element::BLOCK_NONEMPTY,
        ]),
        _ => random.between(1, 255) as u8,
    }
}
