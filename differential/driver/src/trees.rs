//! Seeded random tree files of version 1 that document 01 accepts: every kind, fact and setting, with
//! bias to where the handlers' outcomes part.

use port::{Limits, element, kind, sub};

use crate::file;
use crate::never_symbol;
use crate::random::Random;

/// A file that Reduce takes.
pub fn file(random: &mut Random) -> Vec<u8> {
    let mut grower = Grower::new(random, COMPOUNDS);
    match grower.random.below(400) {
        0 => grower.wide(Limits::REDUCE.records),
        1..=10 => grower.deep(Limits::REDUCE.depth),
        11..=70 => grower.never_symbols(),
        71..=90 => grower.called_functions(),
        _ => grower.any(),
    }
    grower.file()
}

/// A file of at most `room` records, with these expressions besides the leaves.
pub fn small_file(random: &mut Random, compounds: &'static [u8], room: usize) -> Vec<u8> {
    let mut grower = Grower::new(random, compounds);
    grower.expression(room, 8);
    grower.file()
}

/// A file of at most `room` records in which conditionals stand among each other, for the most part.
pub fn conditional_file(random: &mut Random, room: usize) -> Vec<u8> {
    let mut grower = Grower::new(random, COMPOUNDS);
    grower.temper.focus = kind::CONDITIONAL;
    if room < 4 {
        grower.expression(room, 8);
    } else {
        grower.conditional(room, 8);
    }
    grower.file()
}

/// A file of exactly `records` records: a sequence. It has no conditionals, so that figures of speed
/// compare with those taken before there were any.
pub fn wide_file(random: &mut Random, records: usize) -> Vec<u8> {
    let mut grower = Grower::new(random, WITHOUT_CONDITIONALS);
    grower.exactly(records);
    grower.file()
}

/// A file of exactly `records` records, to most of which the reduction comes: half of what can be
/// flagged is, and most nodes that are kept or dropped with much under them are made others that have
/// the same children.
pub fn walked_file(random: &mut Random, records: usize) -> Vec<u8> {
    let mut grower = Grower::new(random, WITHOUT_CONDITIONALS);
    grower.temper.flag = 128;
    if grower.temper.focus == kind::CLASS {
        grower.temper.focus = kind::SEQUENCE;
    }
    grower.exactly(records);
    let mut file = grower.file();
    for (i, (parent, _)) in file::parents_and_depths(&file).into_iter().enumerate() {
        let under = parent.map_or(0, |parent| file::record(&file, parent)[0]);
        let head = walked(random, &file, i, under);
        file::record_mut(&mut file, i)[..3].copy_from_slice(&head);
    }
    never_symbol::take_back_yes(&mut file);
    file
}

/// A file of exactly `records` records, in which conditionals come up most and half of what can be
/// flagged is.
pub fn choosing_file(random: &mut Random, records: usize) -> Vec<u8> {
    let mut grower = Grower::new(random, COMPOUNDS);
    grower.temper.flag = 128;
    grower.temper.focus = kind::CONDITIONAL;
    grower.exactly(records);
    grower.file()
}

/// Kind, facts and sub of record `i`, which stands under a node of kind `under`, so that the
/// reduction goes on to its children.
fn walked(random: &mut Random, file: &[u8], i: usize, under: u8) -> [u8; 3] {
    let record = file::record(file, i);
    let [kind, mut facts, sub] = [record[0], record[1], record[2]];
    let takes_facts =
        !matches!(kind, kind::ELISION | kind::SPREAD | kind::PROPERTY | kind::ELEMENT);
    // No symbol: such a one does not wait in a template.
    if takes_facts && random.chance(224) {
        facts = facts & !6 | 2;
    }
    let callee_is_leaf = || file::record(file, i + 1)[0] <= kind::THIS;
    // Tree-shake-only keeps such a call, whatever its facts.
    let callee_is_function =
        || matches!(file::record(file, i + 1)[0], kind::FUNCTION | kind::ARROW);
    match kind {
        kind::UNARY if sub == sub::OTHER_UNARY => [kind, facts, sub::NOT],
        kind::BINARY if random.chance(192) => [kind, facts, sub::COMPARISON],
        kind::CALL if callee_is_function() => [kind::NEW, facts & 127 | LISTED, sub],
        kind::CALL | kind::NEW if callee_is_leaf() => [kind, facts | LISTED, sub],
        kind::CALL | kind::NEW => [kind::ARRAY, facts & 31, 0],
        kind::SPREAD if random.chance(64) => [kind, facts, sub],
        kind::SPREAD if under == kind::OBJECT => [kind::PROPERTY, 0, 0],
        kind::SPREAD => [kind::UNARY, facts, sub::VOID],
        _ => [kind, facts, sub],
    }
}

/// A bit of the settings.
const TREE_SHAKE_ONLY: u8 = 2;

/// The bit of facts that counts where annotations do.
const ANNOTATED: u8 = 32;

/// The bit of facts that makes a `new`, or a call of what is no function, pure under all settings.
const LISTED: u8 = 64;

/// A file whose tree is exactly `depth` deep.
pub fn deep_file(random: &mut Random, depth: usize) -> Vec<u8> {
    let mut grower = Grower::new(random, COMPOUNDS);
    grower.nest(depth);
    grower.file()
}

/// A left chain of so many additions over leaves, of which `string` are strings: the number of a leaf is
/// that of the additions that it is a part of.
pub fn chain_file(random: &mut Random, additions: usize, string: &[usize]) -> Vec<u8> {
    let mut grower = Grower::new(random, COMPOUNDS);
    grower.chain(additions, string);
    grower.file()
}

/// Of about so many records, and without any string: chains of so many additions, all of whose symbol
/// facts are unknown, in a template or each on the right of a string.
pub fn chains_file(random: &mut Random, records: usize, additions: usize, right: bool) -> Vec<u8> {
    let mut grower = Grower::new(random, COMPOUNDS);
    let root = grower.open(if right { kind::SEQUENCE } else { kind::TEMPLATE }, 0);
    let mut count = 0;
    while grower.records.len() + 2 * additions + 3 <= records {
        let sum = right.then(|| grower.open(kind::BINARY, sub::ADDITION));
        sum.iter().for_each(|_| grower.leaf(kind::STRING_LITERAL, 0));
        grower.chain(additions, &[]);
        sum.iter().for_each(|&sum| grower.close(sum, 2));
        count += 1;
    }
    grower.close(root, count);
    let mut file = grower.file();
    for i in 0..file::count(&file) {
        let record = file::record_mut(&mut file, i);
        // All are flagged, and no symbol fact is known but that of a string.
        record[1] = if record[0] == kind::STRING_LITERAL { record[1] } else { 1 };
    }
    file
}

/// Sets flags until every clear flag that the reduction reads is true under each of the lists of
/// places that count as yes: each such node then has an empty effect list.
pub fn make_premise_true(file: &mut [u8], lists: &[Vec<u32>]) {
    while let Some(node) = lists.iter().find_map(|yes| untrue(file, yes)) {
        file::record_mut(file, node)[1] |= 1;
    }
}

/// The last node whose clear flag is read and not true.
fn untrue(file: &[u8], yes: &[u32]) -> Option<usize> {
    let tree = port::check(file, Limits::REDUCE).expect("an accepted file");
    let mut untrue = None;
    tree.reads(&tree.outcomes(), yes, &mut |read| {
        if read.has_effects {
            untrue = Some(read.node);
        }
    });
    untrue
}

/// How one tree is grown. Chances are of 256.
struct Temper {
    settings: u8,
    flag: u16,
    no_symbol: u16,
    string: u16,
    pure: u16,
    empty_text: u16,
    /// The expressions besides the leaves.
    compounds: &'static [u8],
    /// A kind that comes up more often.
    focus: u8,
    places: usize,
    /// "No" is recorded on each of the six that can never be a symbol. Else they are as drawn.
    agrees: bool,
}

impl Temper {
    fn new(random: &mut Random, compounds: &'static [u8]) -> Temper {
        Temper {
            settings: random.below(8) as u8,
            flag: random.pick(&[0, 32, 96, 160, 224, 256]),
            no_symbol: random.pick(&[48, 128, 208, 240]),
            string: random.pick(&[32, 128, 192]),
            pure: random.pick(&[16, 64, 128]),
            empty_text: random.pick(&[32, 128, 224]),
            compounds,
            focus: random.pick(compounds),
            places: random.below(4),
            agrees: random.chance(48),
        }
    }
}

const LEAVES: [u8; 6] = [
    kind::STRING_LITERAL,
    kind::IDENTIFIER,
    kind::FUNCTION,
    kind::ARROW,
    kind::OTHER_LEAF,
    kind::THIS,
];

/// The other expressions, by how often they come up. Those that need no child stand first,
/// conditionals last.
pub const COMPOUNDS: &[u8] = &[
    kind::ARRAY,
    kind::OBJECT,
    kind::TEMPLATE,
    kind::SEQUENCE,
    kind::CLASS,
    kind::UNARY,
    kind::UNARY,
    kind::BINARY,
    kind::BINARY,
    kind::CALL,
    kind::CALL,
    kind::NEW,
    kind::CONDITIONAL,
    kind::CONDITIONAL,
];

pub const WITHOUT_CONDITIONALS: &[u8] = COMPOUNDS.split_at(12).0;

const NEED_NO_CHILD: usize = 5;

struct Grower<'r> {
    random: &'r mut Random,
    temper: Temper,
    records: Vec<[u8; 16]>,
}

impl<'r> Grower<'r> {
    fn new(random: &'r mut Random, compounds: &'static [u8]) -> Self {
        let temper = Temper::new(random, compounds);
        Grower { random, temper, records: Vec::new() }
    }

    fn file(self) -> Vec<u8> {
        let mut file = b"UXT\x01\x00".to_vec();
        file.push(self.temper.settings);
        file.extend((self.records.len() as u16).to_le_bytes());
        file.extend(self.records.concat());
        if self.temper.agrees {
            never_symbol::record_no(&mut file);
        } else {
            never_symbol::take_back_yes(&mut file);
        }
        file
    }

    fn any(&mut self) {
        let room = match self.random.below(100) {
            0..40 => self.random.between(1, 14),
            40..76 => self.random.between(15, 40),
            76..97 => self.random.between(41, 150),
            _ => self.random.between(151, 500),
        };
        let depth = self.random.pick(&[4, 6, 9, 14, 30]);
        if self.random.chance(128) {
            // Several expressions, each of which is reached.
            self.plain_list(kind::SEQUENCE, room, depth);
        } else {
            self.expression(room, depth);
        }
    }

    /// Where what can never be a symbol is read: in templates and on both sides of additions. In most
    /// of these trees some are of unknown symbol.
    fn never_symbols(&mut self) {
        self.temper.agrees = self.random.chance(64);
        let at = self.open(kind::SEQUENCE, 0);
        let count = self.random.between(1, 6);
        for _ in 0..count {
            match self.random.below(4) {
                0 => self.template_of_six(),
                1 => self.sum(|s| s.leaf(kind::STRING_LITERAL, 0), Self::one_of_six),
                2 => self.sum(Self::one_of_six, |s| s.leaf(kind::STRING_LITERAL, 0)),
                _ => self.sum(
                    |s| s.sum(|s| s.leaf(kind::STRING_LITERAL, 0), Self::one_of_six),
                    |s| s.expression(4, 4),
                ),
            }
        }
        self.close(at, count);
    }

    /// Where tree-shake-only keeps calls before purity: calls of functions and arrows, alone, as arguments
    /// of pure calls and news, and under a node whose clear flag is read.
    fn called_functions(&mut self) {
        self.temper.settings |= TREE_SHAKE_ONLY;
        let at = self.open(kind::SEQUENCE, 0);
        let count = self.random.between(1, 6);
        for _ in 0..count {
            match self.random.below(8) {
                0 => self.unflagged_over_called(),
                1..=3 => self.pure_of_called(),
                _ => self.called_function(),
            }
        }
        self.close(at, count);
    }

    /// The clear flag of the unary is not true.
    fn unflagged_over_called(&mut self) {
        let at = self.open(kind::UNARY, sub::OTHER_UNARY);
        self.records[at][1] &= !1;
        self.called_function();
        self.records[at + 1][1] |= 1;
        self.close(at, 1);
    }

    fn pure_of_called(&mut self) {
        let kind = self.random.pick(&[kind::CALL, kind::NEW]);
        let at = self.open(kind, 0);
        self.records[at][1] |= LISTED;
        self.leaf(kind::IDENTIFIER, 0);
        self.called_function();
        self.expression(4, 4);
        self.close(at, 3);
    }

    /// A call of a function or arrow, or a `new`; most are annotated or listed.
    fn called_function(&mut self) {
        let kind = self.random.pick(&[kind::CALL, kind::CALL, kind::CALL, kind::NEW]);
        let at = self.open(kind, 0);
        let marked = self.random.pick(&[0, ANNOTATED, LISTED, ANNOTATED | LISTED]);
        self.records[at][1] = self.records[at][1] & 31 | marked;
        let function = self.random.pick(&[kind::FUNCTION, kind::ARROW]);
        self.leaf(function, 0);
        let arguments = self.list(8, 3, 1, |s, share| s.spread_or_expression(64, share, 4));
        self.close(at, 1 + arguments);
    }

    fn template_of_six(&mut self) {
        let at = self.open(kind::TEMPLATE, 0);
        let count = self.random.between(1, 4);
        for _ in 0..count {
            match self.random.below(3) {
                0 => self.expression(4, 4),
                _ => self.one_of_six(),
            }
        }
        self.close(at, count);
    }

    /// One of the six, or nearly: other unary, or an addition whose right side alone has a string part,
    /// whose left one is but recorded as a string, or which has none.
    fn one_of_six(&mut self) {
        let at = self.records.len();
        match self.random.below(11) {
            0 => self.sum(|s| s.leaf(kind::IDENTIFIER, 0), |s| s.leaf(kind::THIS, 0)),
            sub @ 1..=4 => {
                self.open(kind::UNARY, sub as u8);
                self.expression(4, 4);
                self.close(at, 1);
            }
            5 => {
                self.open(kind::BINARY, sub::COMPARISON);
                self.expression(4, 4);
                self.expression(4, 4);
                self.close(at, 2);
            }
            6 => self.plain_list(kind::TEMPLATE, 5, 4),
            7 => {
                let plain = |s: &mut Self| s.leaf(kind::IDENTIFIER, 0);
                let string = |s: &mut Self| s.leaf(kind::STRING_LITERAL, 0);
                self.sum(plain, |s| s.sum(plain, string));
            }
            8 => self.sum(Self::recorded_as_string, |s| s.leaf(kind::IDENTIFIER, 0)),
            _ => self.sum(|s| s.expression(4, 4), |s| s.leaf(kind::STRING_LITERAL, 0)),
        }
        let facts = &mut self.records[at][1];
        if self.random.chance(160) {
            *facts &= !1;
        }
        // Unknown; string yes would need no.
        if self.random.chance(192) {
            *facts &= !22;
        }
    }

    /// An addition that is recorded as a string, and has no part that is.
    fn recorded_as_string(&mut self) {
        let at = self.records.len();
        self.sum(|s| s.leaf(kind::THIS, 0), |s| s.leaf(kind::IDENTIFIER, 0));
        self.records[at][1] = 18;
        self.records[at + 1..].iter_mut().for_each(|leaf| leaf[1] &= !24);
    }

    /// An addition, which is folded only if flagged.
    fn sum(&mut self, left: impl FnOnce(&mut Self), right: impl FnOnce(&mut Self)) {
        let at = self.open(kind::BINARY, sub::ADDITION);
        left(self);
        right(self);
        if self.random.chance(192) {
            self.records[at][1] |= 1;
        }
        self.close(at, 2);
    }

    fn wide(&mut self, most: usize) {
        let records = self.random.between(most - 2, most);
        self.exactly(records);
    }

    fn deep(&mut self, most: usize) {
        let depth = self.random.between(most - 20, most);
        self.nest(depth);
    }

    // Records.

    /// Begins a node; its children come next.
    fn open(&mut self, kind: u8, sub: u8) -> usize {
        let at = self.records.len();
        let mut record = [0; 16];
        record[0] = kind;
        record[1] = self.facts(kind);
        record[2] = sub;
        record[8..12].copy_from_slice(&self.text().to_le_bytes());
        record[12..].copy_from_slice(&self.place(at).to_le_bytes());
        self.records.push(record);
        at
    }

    /// Ends the node: its children have been written.
    fn close(&mut self, at: usize, count: usize) {
        let size = self.records.len() - at;
        self.records[at][4..6].copy_from_slice(&(count as u16).to_le_bytes());
        self.records[at][6..8].copy_from_slice(&(size as u16).to_le_bytes());
    }

    fn leaf(&mut self, kind: u8, sub: u8) {
        let at = self.open(kind, sub);
        self.close(at, 0);
    }

    fn text(&mut self) -> u32 {
        if self.random.chance(self.temper.empty_text) { 0 } else { self.random.draw() as u32 }
    }

    fn place(&mut self, at: usize) -> u32 {
        match self.temper.places {
            0 => at as u32 * 3,
            1 => u32::MAX - at as u32,
            2 => self.random.below(4) as u32,
            _ => self.random.draw() as u32,
        }
    }

    fn facts(&mut self, kind: u8) -> u8 {
        let flag = u8::from(self.random.chance(self.temper.flag));
        match kind {
            kind::STRING_LITERAL => 18,
            kind::ELISION | kind::PROPERTY | kind::ELEMENT => 0,
            kind::SPREAD => flag,
            kind::CALL => flag | self.symbol_and_string() | self.purity(3),
            kind::NEW => flag | self.symbol_and_string() | self.purity(2),
            _ => flag | self.symbol_and_string(),
        }
    }

    fn symbol_and_string(&mut self) -> u8 {
        let no_symbol = self.random.chance(self.temper.no_symbol);
        let symbol = if no_symbol { 1 } else { self.random.pick(&[0, 0, 2]) };
        let string = if no_symbol && self.random.chance(self.temper.string) {
            2
        } else {
            self.random.below(2) as u8
        };
        symbol << 1 | string << 3
    }

    /// Annotated, listed and summary free.
    fn purity(&mut self, bits: u8) -> u8 {
        let pure = self.temper.pure;
        (0..bits).map(|bit| u8::from(self.random.chance(pure)) << (5 + bit)).sum()
    }

    // Expressions. `room` is how many records there may be, `depth` how many levels.

    fn expression(&mut self, room: usize, depth: usize) {
        let kind = self.kind(room, depth);
        match kind {
            kind::ARRAY => self.array(room, depth),
            kind::OBJECT => self.object(room, depth),
            kind::TEMPLATE | kind::SEQUENCE => self.plain_list(kind, room, depth),
            kind::CLASS => self.class(room, depth),
            kind::UNARY => self.unary(room, depth),
            kind::BINARY => self.binary(room, depth),
            kind::CALL | kind::NEW => self.call_or_new(kind, room, depth),
            kind::CONDITIONAL => self.conditional(room, depth),
            _ => self.leaf(kind, 0),
        }
    }

    fn kind(&mut self, room: usize, depth: usize) -> u8 {
        if room < 3 || depth < 3 {
            return match self.random.below(16) {
                0 => self.random.pick(&COMPOUNDS[..NEED_NO_CHILD]),
                1 if room >= 2 && depth >= 2 => kind::UNARY,
                _ => self.random.pick(&LEAVES),
            };
        }
        let kind = match self.random.below(8) {
            0 => self.random.pick(&LEAVES),
            1..=3 => self.temper.focus,
            _ => self.random.pick(self.temper.compounds),
        };
        if kind == kind::CONDITIONAL && room < 4 { kind::BINARY } else { kind }
    }

    /// At most `most` items, each of at least `least` records, in `room` records; their number.
    fn list(
        &mut self,
        room: usize,
        most: usize,
        least: usize,
        mut item: impl FnMut(&mut Self, usize),
    ) -> usize {
        let wanted =
            if most == 0 || self.random.chance(24) { 0 } else { self.random.between(1, most) };
        let mut left = room;
        for count in 0..wanted {
            if left < least {
                return count;
            }
            let share = (2 * left / (wanted - count)).clamp(least, left);
            let begin = self.records.len();
            let share = self.random.between(least, share);
            item(self, share);
            left -= self.records.len() - begin;
        }
        wanted
    }

    fn most(&mut self) -> usize {
        self.random.pick(&[1, 2, 3, 5, 8])
    }

    fn array(&mut self, room: usize, depth: usize) {
        let at = self.open(kind::ARRAY, 0);
        let most = if depth < 2 { 0 } else { self.most() };
        let spreads = self.random.pick(&[0, 40, 100]);
        let count = self.list(room - 1, most, 1, |s, share| {
            if s.random.chance(20) {
                s.leaf(kind::ELISION, 0);
            } else {
                s.spread_or_expression(spreads, share, depth - 1);
            }
        });
        self.close(at, count);
    }

    fn spread_or_expression(&mut self, spreads: u16, room: usize, depth: usize) {
        if room >= 2 && depth >= 2 && self.random.chance(spreads) {
            self.spread(room, depth);
        } else {
            self.expression(room, depth);
        }
    }

    fn spread(&mut self, room: usize, depth: usize) {
        let at = self.open(kind::SPREAD, 0);
        self.expression(room - 1, depth - 1);
        self.close(at, 1);
    }

    fn object(&mut self, room: usize, depth: usize) {
        let at = self.open(kind::OBJECT, 0);
        let most = if depth < 3 { 0 } else { self.most() };
        let spreads = self.random.pick(&[0, 100, 200, 256]);
        let count = self.list(room - 1, most, 2, |s, share| {
            if s.random.chance(spreads) {
                s.spread(share, depth - 1);
            } else {
                s.property(share, depth - 1);
            }
        });
        self.close(at, count);
    }

    fn property(&mut self, room: usize, depth: usize) {
        let keyed = room >= 3 && self.random.chance(128);
        let at = self.open(kind::PROPERTY, keyed.into());
        if keyed {
            self.key(room - 2, depth - 1);
        }
        let used = self.records.len() - at;
        self.expression(room - used, depth - 1);
        self.close(at, 1 + usize::from(keyed));
    }

    /// A key in at most `room` records: a leaf, or now and then a conditional.
    fn key(&mut self, room: usize, depth: usize) {
        let conditionals = self.temper.compounds.contains(&kind::CONDITIONAL);
        if conditionals && room >= 4 && depth >= 2 && self.random.chance(48) {
            self.conditional(4, depth);
        } else {
            self.expression(1, depth);
        }
    }

    /// Its parts differ in length by chance. It is taken apart only if flagged.
    fn conditional(&mut self, room: usize, depth: usize) {
        let at = self.open(kind::CONDITIONAL, 0);
        for others in [2, 1, 0] {
            let left = room - (self.records.len() - at) - others;
            let share = if others == 0 { left } else { self.random.between(1, left) };
            self.expression(share, depth - 1);
        }
        if self.random.chance(128) {
            self.records[at][1] |= 1;
        }
        self.close(at, 3);
    }

    /// A template or sequence.
    fn plain_list(&mut self, kind: u8, room: usize, depth: usize) {
        let at = self.open(kind, 0);
        let most = if depth < 2 { 0 } else { self.most() };
        let count = self.list(room - 1, most, 1, |s, share| s.expression(share, depth - 1));
        self.close(at, count);
    }

    fn unary(&mut self, room: usize, depth: usize) {
        let sub = self.random.between(1, 4) as u8;
        let at = self.open(kind::UNARY, sub);
        if sub == sub::TYPEOF && self.random.chance(100) {
            self.leaf(kind::IDENTIFIER, 0);
        } else {
            self.expression(room - 1, depth - 1);
        }
        self.close(at, 1);
    }

    fn binary(&mut self, room: usize, depth: usize) {
        let sub = match self.random.below(8) {
            0..3 => sub::COMPARISON,
            3..7 => sub::ADDITION,
            _ => sub::OTHER_BINARY,
        };
        self.binary_of(sub, room, depth);
    }

    fn binary_of(&mut self, sub: u8, room: usize, depth: usize) {
        let at = self.open(kind::BINARY, sub);
        let left = self.random.between(1, room - 2);
        self.side(sub, left, depth - 1);
        let used = self.records.len() - at;
        match sub {
            sub::ADDITION => self.expression(room - used, depth - 1),
            _ => self.side(sub, room - used, depth - 1),
        }
        // An addition is folded only if flagged.
        if sub == sub::ADDITION && self.random.chance(128) {
            self.records[at][1] |= 1;
        }
        self.close(at, 2);
    }

    /// A side of a binary where chains of additions begin and sequences meet.
    fn side(&mut self, sub: u8, room: usize, depth: usize) {
        let chain = self.random.below(3);
        match sub {
            sub::ADDITION if chain > 0 && room >= 3 && depth >= 3 => {
                self.binary_of(sub, room, depth);
            }
            sub::ADDITION if chain == 1 => self.leaf(kind::STRING_LITERAL, 0),
            sub::COMPARISON if chain == 0 && depth >= 2 => {
                self.plain_list(kind::SEQUENCE, room, depth);
            }
            _ => self.expression(room, depth),
        }
    }

    fn call_or_new(&mut self, kind: u8, room: usize, depth: usize) {
        let at = self.open(kind, 0);
        match self.random.below(4) {
            0 => self.expression(room / 2, depth - 1),
            1 => {
                let function = self.random.pick(&[kind::FUNCTION, kind::ARROW]);
                self.leaf(function, 0);
            }
            _ => self.leaf(kind::IDENTIFIER, 0),
        }
        let used = self.records.len() - at;
        let most = self.most();
        let arguments = self.list(room - used, most, 1, |s, share| {
            s.spread_or_expression(64, share, depth - 1);
        });
        self.close(at, 1 + arguments);
    }

    fn class(&mut self, room: usize, depth: usize) {
        let has_heritage = room >= 3 && depth >= 3 && self.random.chance(128);
        let decorated = self.random.chance(20);
        let at = self.open(kind::CLASS, u8::from(decorated) | u8::from(has_heritage) << 1);
        if has_heritage {
            let share = self.random.between(1, room - 1);
            self.heritage(share, depth - 1);
        }
        let used = self.records.len() - at;
        let most = if depth < 2 { 0 } else { self.most() };
        // In most classes no element keeps the class.
        let keepers = self.random.pick(&[0, 0, 160]);
        let elements = self.list(room - used, most, 1, |s, share| {
            s.element(keepers, share, depth - 1);
        });
        self.close(at, elements + usize::from(has_heritage));
    }

    fn heritage(&mut self, room: usize, depth: usize) {
        match self.random.below(8) {
            0 => self.leaf(kind::ARROW, 0),
            1..=2 if room >= 3 && depth >= 3 => {
                let at = self.open(kind::SEQUENCE, 0);
                self.expression(1, 1);
                self.ends_in_arrow(room - 2, depth - 1);
                self.close(at, 2);
            }
            _ => self.expression(room, depth),
        }
    }

    /// An arrow, or a sequence whose last child ends in one.
    fn ends_in_arrow(&mut self, room: usize, depth: usize) {
        if room < 2 || depth < 2 || self.random.chance(128) {
            return self.leaf(kind::ARROW, 0);
        }
        let at = self.open(kind::SEQUENCE, 0);
        self.ends_in_arrow(room - 1, depth - 1);
        self.close(at, 1);
    }

    fn element(&mut self, keepers: u16, room: usize, depth: usize) {
        let mut sub = self.random.between(1, 4) as u8;
        if self.random.chance(keepers) {
            match self.random.below(3) {
                0 => return self.leaf(kind::ELEMENT, element::INDEX_SIGNATURE),
                1 => sub = element::STATIC_BLOCK | element::BLOCK_NONEMPTY,
                _ => sub = self.random.between(1, 3) as u8 | element::DECORATED,
            }
        }
        if sub & element::FORM == element::STATIC_BLOCK {
            return self.leaf(kind::ELEMENT, sub);
        }
        self.member(sub, room, depth);
    }

    fn member(&mut self, mut sub: u8, room: usize, depth: usize) {
        let mut left = if depth < 2 { 0 } else { room - 1 };
        if self.random.chance(160) {
            sub |= element::STATIC;
        }
        let keyed = left > 0 && self.random.chance(100);
        left -= usize::from(keyed);
        let key_room = 1 + left.saturating_sub(1);
        let valued = left > 0 && sub & element::FORM != element::METHOD && self.random.chance(200);
        sub |= if keyed { element::COMPUTED_KEY } else { 0 };
        sub |= if valued { element::VALUE } else { 0 };
        let at = self.open(kind::ELEMENT, sub);
        if keyed {
            self.key(key_room, depth - 1);
            left -= self.records.len() - at - 2;
        }
        if valued {
            let value = self.records.len();
            self.expression(left, depth - 1);
            // A flagged static value keeps its class.
            if self.random.chance(192) {
                self.records[value][1] &= !1;
            }
        }
        self.close(at, usize::from(keyed) + usize::from(valued));
    }

    // Edges.

    fn chain(&mut self, additions: usize, string: &[usize]) {
        let first = self.records.len();
        (0..additions).for_each(|_| _ = self.open(kind::BINARY, sub::ADDITION));
        for parts in (1..=additions).rev() {
            // The lowest addition has two leaves that are parts of all.
            for _ in 0..if parts == additions { 2 } else { 1 } {
                let is_string = string.contains(&parts);
                self.leaf(if is_string { kind::STRING_LITERAL } else { kind::IDENTIFIER }, 0);
                // Only a string can have the string fact.
                let facts = &mut self.records.last_mut().expect("a leaf")[1];
                *facts = if is_string { 18 } else { *facts & !24 };
            }
            self.close(first + parts - 1, 2);
        }
    }

    /// A sequence of exactly so many records.
    fn exactly(&mut self, records: usize) {
        let at = self.open(kind::SEQUENCE, 0);
        let mut count = 0;
        while self.records.len() < records {
            let left = records - self.records.len();
            let share = self.random.between(1, left.min(40));
            self.expression(share, 8);
            count += 1;
        }
        self.close(at, count);
    }

    /// An expression exactly `depth` deep.
    fn nest(&mut self, depth: usize) {
        if depth == 1 {
            return self.expression(1, 1);
        }
        match self.random.below(if depth == 2 { 7 } else { 10 }) {
            0 => self.nest_in(kind::SEQUENCE, 0, &[Part::Other, Part::Nested], depth),
            1 => self.nest_in(kind::ARRAY, 0, &[Part::Nested, Part::Other], depth),
            2 => self.nest_in(kind::TEMPLATE, 0, &[Part::Other, Part::Nested], depth),
            3 => {
                let sub = self.random.between(1, 4) as u8;
                self.nest_in(kind::UNARY, sub, &[Part::Nested], depth);
            }
            4 => {
                let sub = self.random.pick(&[sub::COMPARISON, sub::ADDITION]);
                let right = self.random.chance(64);
                let parts =
                    if right { [Part::Other, Part::Nested] } else { [Part::Nested, Part::Other] };
                self.nest_in(kind::BINARY, sub, &parts, depth);
            }
            5 => self.nest_in(kind::CALL, 0, &[Part::Other, Part::Nested], depth),
            6 => {
                let mut parts = [Part::Other; 3];
                parts[self.random.below(3)] = Part::Nested;
                self.nest_in(kind::CONDITIONAL, 0, &parts, depth);
            }
            7 => self.nest_in(kind::ARRAY, 0, &[Part::Under(kind::SPREAD, 0), Part::Other], depth),
            8 => self.nest_in(kind::OBJECT, 0, &[Part::Under(kind::PROPERTY, 0)], depth),
            _ => {
                let member = element::PROPERTY | element::STATIC | element::VALUE;
                self.nest_in(kind::CLASS, 0, &[Part::Under(kind::ELEMENT, member)], depth);
            }
        }
    }

    fn nest_in(&mut self, kind: u8, sub: u8, parts: &[Part], depth: usize) {
        let at = self.open(kind, sub);
        for &part in parts {
            match part {
                Part::Nested => self.nest(depth - 1),
                Part::Under(kind, sub) => self.nest_in(kind, sub, &[Part::Nested], depth - 1),
                Part::Other => self.expression(1, 1),
            }
        }
        self.close(at, parts.len());
    }
}

/// What stands under a nest's node.
#[derive(Clone, Copy)]
enum Part {
    Nested,
    /// A node that is no expression, with the nest in it.
    Under(u8, u8),
    Other,
}
