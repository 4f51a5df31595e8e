//! Refusals 1 to 8, and 17.

use super::tree::{
    AnyVersion, HEADER_SIZE, LITERAL_FACTS, Record, Tree, WIDTH_2, element, is_never_symbol, kind,
    span_of, sub,
};

/// How many records a file may have, how deep its tree may be, and whether logical nodes are taken.
#[derive(Clone, Copy, PartialEq, Eq)]
pub struct Limits {
    pub records: usize,
    pub depth: usize,
    pub logicals: bool,
}

impl Limits {
    /// "4 count not 1–2,000 ...; 8 depth over 64 (root 1)." Of kind 20, "the reducer still refuses
    /// it with 6" (02, N1).
    pub const REDUCE: Limits = Limits { records: 2_000, depth: 64, logicals: false };
    /// "1–8 likewise, but count to 3,999 and depth to 65." "Kind 20, with sub 1 or 2 and two
    /// expressions, is read by the effect listing" (02, N1).
    pub const LIST_EFFECTS: Limits = Limits { records: MAX_RECORDS, depth: 65, logicals: true };
}

/// The largest limits: more records are refused, and a greater depth is not told apart.
const MAX_RECORDS: usize = 3_999;
const MAX_DEPTH: usize = 254;

/// The file's tree, or the number of its refusal. "Over all records each": a number is tested
/// over all records before the next number is.
pub fn check(file: &[u8], limits: Limits) -> Result<AnyVersion<'_>, u8> {
    let (header, rest) = check_version(file)?;
    Ok(match header[3] {
        1 => AnyVersion::Version1(check_tree(header, rest, limits)?),
        _ => AnyVersion::Version2(check_tree(header, rest, limits)?),
    })
}

type Header = [u8; HEADER_SIZE];

/// "1 under 8 bytes or mark wrong; 2 version": 1 or 2 (02, N6). Answers with the header and what stands
/// behind it.
fn check_version(file: &[u8]) -> Result<(&Header, &[u8]), u8> {
    let Some((header, rest)) = file.split_first_chunk::<HEADER_SIZE>() else { return Err(1) };
    if header[..3] != *b"UXT" {
        return Err(1);
    }
    if !matches!(u16::from_le_bytes([header[3], header[4]]), 1 | 2) {
        return Err(2);
    }
    Ok((header, rest))
}

/// The other tests, for records of this width.
fn check_tree<'a, const W: usize>(
    header: &Header,
    rest: &'a [u8],
    limits: Limits,
) -> Result<Tree<'a, W>, u8> {
    let tree = check_header(header, rest, limits.records)?;
    check_records(tree.records, limits.logicals)?;
    let depth = check_shape(tree)?;
    check_additions(tree)?;
    check_spans(tree)?;
    // "8 depth over 64 (root 1)."
    if depth > limits.depth.min(MAX_DEPTH) { Err(8) } else { Ok(tree) }
}

/// "3 setting bits 3–7; 4 count not 1–2,000, or length not 8 + 16 × N"; "each length formula uses 20
/// for 16 in version 2" (02, N6).
fn check_header<'a, const W: usize>(
    header: &Header,
    rest: &'a [u8],
    max_records: usize,
) -> Result<Tree<'a, W>, u8> {
    let settings = header[5];
    if settings > 7 {
        return Err(3);
    }
    let count = u16::from_le_bytes([header[6], header[7]]) as usize;
    if count < 1 || count > max_records.min(MAX_RECORDS) || rest.len() != W * count {
        return Err(4);
    }
    Ok(Tree { records: rest.as_chunks().0, settings })
}

/// "5 kind, facts, sub or byte 3; 6 kinds 20–22."
fn check_records<const W: usize>(records: &[Record<W>], logicals: bool) -> Result<(), u8> {
    let mut any = false;
    for record in records {
        if !is_good(record) {
            return Err(5);
        }
        any |= record[0] >= kind::LOGICAL;
    }
    // Kinds 20 to 22 are told apart only where there is one: most files have none.
    let left_out = any && records.iter().any(|record| is_left_out(record, logicals));
    if left_out { Err(6) } else { Ok(()) }
}

/// Of kinds 20 to 22, conditionals are taken; of a logical, "sub 0 stays 6 in both" (02, N1).
fn is_left_out<const W: usize>(record: &Record<W>, logicals: bool) -> bool {
    let (kind, sub) = (record[0], record[2]);
    kind == kind::ASSIGNMENT || kind == kind::LOGICAL && (sub == 0 || !logicals)
}

/// "Allowed facts stand in a constant table by kind: 0 for 8, 11, 19; 1 for 9; 255 for 16; 127
/// for 17; else 31." The product goes by a formula (02, N3), which the driver holds to this table.
const ALLOWED_FACTS: [u8; KINDS] =
    [0, 31, 31, 31, 31, 31, 31, 31, 0, 1, 31, 0, 31, 31, 31, 31, 255, 127, 31, 0, 31, 31, 31];

/// Kinds 0 to 22.
const KINDS: usize = 23;

/// Whether a record passes 5. The tables stand for the functions below, byte by byte: kinds
/// follow each other irregularly, and a branch by kind would often be mispredicted.
#[inline]
fn is_good<const W: usize>(record: &Record<W>) -> bool {
    let (kind, facts, sub, zero) = (record[0], record[1], record[2], record[3]);
    match (GOOD_FACTS.get(kind as usize), GOOD_SUBS.get(kind as usize)) {
        (Some(good_facts), Some(good_subs)) => {
            let good_subs = good_subs[usize::from(facts & SYMBOL_YES != 0)];
            good_facts.has(facts) & good_subs.has(sub) & (zero == 0)
        }
        _ => false,
    }
}

/// The bit that is set in facts with symbol yes, 2, and among good facts in these alone.
const SYMBOL_YES: u8 = 4;

/// A set of bytes.
#[derive(Clone, Copy)]
struct Bytes([u64; 4]);

impl Bytes {
    #[inline]
    fn has(&self, byte: u8) -> bool {
        self.0[(byte >> 6) as usize] >> (byte & 63) & 1 != 0
    }

    const fn with(mut self, byte: u8) -> Bytes {
        self.0[(byte >> 6) as usize] |= 1 << (byte & 63);
        self
    }
}

/// For each kind, the good facts. There is no kind 0.
static GOOD_FACTS: [Bytes; KINDS] = {
    let mut sets = [Bytes([0; 4]); KINDS];
    let mut number = 256;
    while number < KINDS * 256 {
        let (kind, byte) = ((number / 256) as u8, (number % 256) as u8);
        if are_facts_good(kind, byte) {
            sets[kind as usize] = sets[kind as usize].with(byte);
        }
        number += 1;
    }
    sets
};

/// The same of subs, and second of those with symbol yes: that is refused where there can be none,
/// "for the addition just after the tree's shape is tested" (02, N9).
static GOOD_SUBS: [[Bytes; 2]; KINDS] = {
    let mut sets = [[Bytes([0; 4]); 2]; KINDS];
    let mut number = 256;
    while number < KINDS * 256 {
        let (kind, byte) = ((number / 256) as u8, (number % 256) as u8);
        let [any, yes] = sets[kind as usize];
        if is_sub_good(kind, byte) {
            let yes = if is_never_symbol(kind, byte) { yes } else { yes.with(byte) };
            sets[kind as usize] = [any.with(byte), yes];
        }
        number += 1;
    }
    sets
};

/// "A literal has exactly 18. String yes needs symbol no; 3 is bad in either pair."
const fn are_facts_good(kind: u8, facts: u8) -> bool {
    let (symbol, string) = (facts >> 1 & 3, facts >> 3 & 3);
    facts & !ALLOWED_FACTS[kind as usize] == 0
        && symbol != 3
        && string != 3
        && (string != 2 || symbol == 1)
        && (kind != kind::STRING_LITERAL || facts == LITERAL_FACTS)
}

/// "Other subs are 0." Of a logical, 0 passes 5, and 6 is for it.
const fn is_sub_good(kind: u8, sub: u8) -> bool {
    match kind {
        kind::PROPERTY => sub <= sub::KEY_AND_VALUE,
        kind::UNARY => sub::VOID <= sub && sub <= sub::OTHER_UNARY,
        kind::BINARY => sub::COMPARISON <= sub && sub <= sub::OTHER_BINARY,
        kind::CLASS => sub <= sub::CLASS_DECORATED | sub::CLASS_HERITAGE,
        kind::ELEMENT => is_element_sub_good(sub),
        kind::LOGICAL => sub <= sub::OR,
        _ => sub == 0,
    }
}

/// "Forms 4 and 5 have bits 3–6 clear; bit 7 only form 4; bit 6 only forms 2 and 3."
const fn is_element_sub_good(sub: u8) -> bool {
    let bits = sub & !element::FORM;
    match sub & element::FORM {
        element::METHOD => bits & (element::VALUE | element::BLOCK_NONEMPTY) == 0,
        element::PROPERTY | element::ACCESSOR => bits & element::BLOCK_NONEMPTY == 0,
        element::STATIC_BLOCK => bits & !element::BLOCK_NONEMPTY == 0,
        element::INDEX_SIGNATURE => bits == 0,
        _ => false,
    }
}

/// "7 child counts, subtree sizes (the root's is N), or a kind where it may not stand." Every
/// record's children, walked by their sizes, end exactly at its own end; with the root's size this
/// makes the records one tree. Each record is a child once, and gets its depth then. Answers with the
/// greatest.
fn check_shape<const W: usize>(tree: Tree<W>) -> Result<usize, u8> {
    if tree.size(0) != tree.records.len() || !EXPRESSIONS.has(tree.kind(0)) {
        return Err(7);
    }
    let mut depths = [1; MAX_RECORDS];
    let mut deepest = 1;
    for i in 0..tree.records.len() {
        deepest = deepest.max(depths[i]);
        if !are_children_good(tree, i, &mut depths) {
            return Err(7);
        }
    }
    Ok(deepest.into())
}

/// "A recorded 'yes' on one is refused as bad facts, for the addition just after the tree's shape is
/// tested" (02, N9). A left child is the record behind its parent, so a chain of additions is a run of
/// records: a string at any of its right sides, or at its end, is a part of each addition before.
fn check_additions<const W: usize>(tree: Tree<W>) -> Result<(), u8> {
    let mut yes = false;
    for i in 0..tree.records.len() {
        let goes_on = tree.is_addition(i);
        yes |= goes_on && tree.symbol(i) == 2;
        if yes && tree.is_string(if goes_on { tree.after(i + 1) } else { i }) {
            return Err(5);
        }
        yes &= goes_on;
    }
    Ok(())
}

/// "17 when an end lies before its start, tested after the tree's shape and before its depth"
/// (02, N6).
fn check_spans<const W: usize>(tree: Tree<W>) -> Result<(), u8> {
    let ends_before = |record: &Record<W>| {
        let span = span_of(record);
        span.end < span.start
    };
    let bad = W == WIDTH_2 && tree.records.iter().any(ends_before);
    if bad { Err(17) } else { Ok(()) }
}

fn are_children_good<const W: usize>(
    tree: Tree<W>,
    i: usize,
    depths: &mut [u8; MAX_RECORDS],
) -> bool {
    let under = &UNDER[tree.kind(i) as usize];
    let (end, count) = (tree.after(i), tree.count(i));
    if end > tree.records.len() || !under.is_count_good(count, tree.sub(i)) {
        return false;
    }
    // Depths beyond every limit are as good as 255.
    let depth = depths[i].saturating_add(1);
    let mut allowed = under.first(tree.sub(i));
    let mut child = i + 1;
    for _ in 0..count {
        if child >= end || !allowed.has(tree.kind(child)) {
            return false;
        }
        depths[child] = depth;
        child = tree.after(child);
        allowed = under.kinds;
    }
    child == end
}

/// A set of kinds.
#[derive(Clone, Copy)]
struct Kinds(u32);

impl Kinds {
    #[inline]
    fn has(self, kind: u8) -> bool {
        self.0 >> kind & 1 != 0
    }

    const fn of(kinds: &[u8]) -> Kinds {
        let mut set = 0;
        let mut i = 0;
        while i < kinds.len() {
            set |= 1 << kinds[i];
            i += 1;
        }
        Kinds(set)
    }

    const fn and(self, other: Kinds) -> Kinds {
        Kinds(self.0 | other.0)
    }
}

/// Assignments are refused before the shape is tested.
const EXPRESSIONS: Kinds = Kinds::of(&[
    kind::STRING_LITERAL,
    kind::IDENTIFIER,
    kind::FUNCTION,
    kind::ARROW,
    kind::OTHER_LEAF,
    kind::THIS,
    kind::ARRAY,
    kind::OBJECT,
    kind::TEMPLATE,
    kind::SEQUENCE,
    kind::UNARY,
    kind::BINARY,
    kind::CALL,
    kind::NEW,
    kind::CLASS,
    kind::LOGICAL,
    kind::CONDITIONAL,
]);

/// What may stand under a node of some kind.
#[derive(Clone, Copy)]
struct Under {
    /// How many children there are at least, besides those that bits of the sub call for.
    least: u32,
    /// Whether there may be more.
    open: bool,
    bits: u8,
    kinds: Kinds,
    /// The first child is an expression: always, or where this bit of the sub is set.
    first_is_expression: u8,
}

const ALWAYS: u8 = 255;

impl Under {
    const fn exactly(least: u32) -> Under {
        Under { least, open: false, bits: 0, kinds: EXPRESSIONS, first_is_expression: ALWAYS }
    }

    const fn list(kinds: Kinds) -> Under {
        Under { least: 0, open: true, bits: 0, kinds, first_is_expression: 0 }
    }

    #[inline]
    fn is_count_good(&self, count: u16, sub: u8) -> bool {
        let least = self.least + (sub & self.bits).count_ones();
        let count = u32::from(count);
        count == least || self.open && count > least
    }

    #[inline]
    fn first(&self, sub: u8) -> Kinds {
        let is_expression = (sub | 128) & self.first_is_expression != 0;
        if is_expression { EXPRESSIONS } else { self.kinds }
    }
}

/// "Children: leaves, this and elision have none; spread and unary one; binary two; call and new
/// at least one; others as above. An array takes expressions, spreads, elisions; arguments are
/// expressions or spreads; an object has only spreads and properties, a class its heritage, then
/// only elements. Every other child, and the root, is an expression." "Kind 21 is accepted with
/// children test, consequent, alternate", kind 20 with "two expressions" (02, N1).
static UNDER: [Under; KINDS] = {
    let mut under = [Under::exactly(0); KINDS];
    let spreads = Kinds::of(&[kind::SPREAD]);
    let arguments =
        Under { least: 1, first_is_expression: ALWAYS, ..Under::list(EXPRESSIONS.and(spreads)) };
    let of_array = EXPRESSIONS.and(spreads).and(Kinds::of(&[kind::ELISION]));
    under[kind::ARRAY as usize] = Under::list(of_array);
    under[kind::SPREAD as usize] = Under::exactly(1);
    under[kind::OBJECT as usize] = Under::list(Kinds::of(&[kind::SPREAD, kind::PROPERTY]));
    under[kind::PROPERTY as usize] = Under { bits: sub::KEY_AND_VALUE, ..Under::exactly(1) };
    under[kind::TEMPLATE as usize] = Under::list(EXPRESSIONS);
    under[kind::SEQUENCE as usize] = Under::list(EXPRESSIONS);
    under[kind::UNARY as usize] = Under::exactly(1);
    under[kind::BINARY as usize] = Under::exactly(2);
    under[kind::CALL as usize] = arguments;
    under[kind::NEW as usize] = arguments;
    under[kind::CLASS as usize] = Under {
        bits: sub::CLASS_HERITAGE,
        first_is_expression: sub::CLASS_HERITAGE,
        ..Under::list(Kinds::of(&[kind::ELEMENT]))
    };
    let element_children = element::COMPUTED_KEY | element::VALUE;
    under[kind::ELEMENT as usize] = Under { bits: element_children, ..Under::exactly(0) };
    under[kind::LOGICAL as usize] = Under::exactly(2);
    under[kind::CONDITIONAL as usize] = Under::exactly(3);
    under
};
