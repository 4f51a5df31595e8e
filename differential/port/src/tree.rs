//! The tree file: fields of a record, and what the handlers ask of a node.
//! Each reading of a fact is named once, here.

/// "N records of 16 bytes, parent before children"; "version 2 records have 20 bytes, the last four the
/// end" (02, N6).
pub type Record<const W: usize> = [u8; W];

/// How many bytes a record of version 1 has, and one of version 2.
pub const WIDTH_1: usize = 16;
pub const WIDTH_2: usize = 20;

/// "Bytes 0–2 `UXT`; 3–4 version ...; 5 settings ...; 6–7 record count N."
pub const HEADER_SIZE: usize = 8;

/// "Kinds: 1 string literal, 2 identifier, ..."
pub mod kind {
    pub const STRING_LITERAL: u8 = 1;
    pub const IDENTIFIER: u8 = 2;
    pub const FUNCTION: u8 = 3;
    pub const ARROW: u8 = 4;
    pub const OTHER_LEAF: u8 = 5;
    pub const THIS: u8 = 6;
    pub const ARRAY: u8 = 7;
    pub const ELISION: u8 = 8;
    pub const SPREAD: u8 = 9;
    pub const OBJECT: u8 = 10;
    pub const PROPERTY: u8 = 11;
    pub const TEMPLATE: u8 = 12;
    pub const SEQUENCE: u8 = 13;
    pub const UNARY: u8 = 14;
    pub const BINARY: u8 = 15;
    pub const CALL: u8 = 16;
    pub const NEW: u8 = 17;
    pub const CLASS: u8 = 18;
    pub const ELEMENT: u8 = 19;
    pub const LOGICAL: u8 = 20;
    pub const CONDITIONAL: u8 = 21;
    pub const ASSIGNMENT: u8 = 22;
}

/// The numbers that a sub byte may hold, by kind.
pub mod sub {
    pub const KEY_AND_VALUE: u8 = 1;
    pub const VOID: u8 = 1;
    pub const NOT: u8 = 2;
    pub const TYPEOF: u8 = 3;
    pub const OTHER_UNARY: u8 = 4;
    pub const COMPARISON: u8 = 1;
    pub const ADDITION: u8 = 2;
    pub const OTHER_BINARY: u8 = 3;
    pub const CLASS_DECORATED: u8 = 1;
    pub const CLASS_HERITAGE: u8 = 2;
    pub const AND: u8 = 1;
    pub const OR: u8 = 2;
}

/// "Element sub: bits 0–2 method 1, property 2, accessor 3, static block 4, index signature 5;
/// bit 3 static, 4 computed key child, 5 decorated, 6 value child, 7 block nonempty."
pub mod element {
    pub const FORM: u8 = 7;
    pub const METHOD: u8 = 1;
    pub const PROPERTY: u8 = 2;
    pub const ACCESSOR: u8 = 3;
    pub const STATIC_BLOCK: u8 = 4;
    pub const INDEX_SIGNATURE: u8 = 5;
    pub const STATIC: u8 = 8;
    pub const COMPUTED_KEY: u8 = 16;
    pub const DECORATED: u8 = 32;
    pub const VALUE: u8 = 64;
    pub const BLOCK_NONEMPTY: u8 = 128;
}

/// "A literal has exactly 18": no symbol, a string, no flag.
pub const LITERAL_FACTS: u8 = 18;

/// An accepted tree: its records and its file's settings. A node is named by its record's index.
#[derive(Clone, Copy)]
pub struct Tree<'a, const W: usize> {
    pub records: &'a [Record<W>],
    pub settings: u8,
}

/// The tree of a file of version 1 or of version 2.
#[derive(Clone, Copy)]
pub enum AnyVersion<'a> {
    Version1(Tree<'a, WIDTH_1>),
    Version2(Tree<'a, WIDTH_2>),
}

/// Where a node stands. A record of version 1 has no end; its start is here for both.
#[derive(Clone, Copy, PartialEq, Eq)]
pub struct Span {
    pub start: u32,
    pub end: u32,
}

impl<'a, const W: usize> Tree<'a, W> {
    #[inline]
    pub fn kind(self, i: usize) -> u8 {
        self.records[i][0]
    }

    #[inline]
    pub fn facts(self, i: usize) -> u8 {
        self.records[i][1]
    }

    #[inline]
    #[allow(clippy::should_implement_trait)]
    pub fn sub(self, i: usize) -> u8 {
        self.records[i][2]
    }

    #[inline]
    pub fn count(self, i: usize) -> u16 {
        count_of(&self.records[i])
    }

    /// "Records in the subtree with itself."
    #[inline]
    pub fn size(self, i: usize) -> usize {
        let r = &self.records[i];
        u16::from_le_bytes([r[6], r[7]]) as usize
    }

    #[inline]
    pub fn text(self, i: usize) -> u32 {
        number_of(&self.records[i], 8)
    }

    #[inline]
    pub fn span(self, i: usize) -> Span {
        span_of(&self.records[i])
    }

    /// What effects and the places that count as yes go by: "effects still carry the start" (02, N6).
    #[inline]
    pub fn start(self, i: usize) -> u32 {
        self.span(i).start
    }

    /// The node after `i` and all that is under it.
    #[inline]
    pub fn after(self, i: usize) -> usize {
        i + self.size(i)
    }

    #[inline]
    pub fn children(self, i: usize) -> Children<'a, W> {
        Children { tree: self, next: i + 1, end: self.after(i) }
    }

    // "5 settings (bit 0 annotations, 1 tree-shake-only, 2 derived)"

    #[inline]
    pub fn annotations(self) -> bool {
        self.settings & 1 != 0
    }

    #[inline]
    pub fn tree_shake_only(self) -> bool {
        self.settings & 2 != 0
    }

    #[inline]
    pub fn derived(self) -> bool {
        self.settings & 4 != 0
    }

    // "Facts: bit 0 effect flag; 1–2 symbol and 3–4 string (0 unknown, 1 no, 2 yes);
    // 5 annotated, 6 listed, 7 summary free."

    #[inline]
    pub fn flagged(self, i: usize) -> bool {
        self.facts(i) & 1 != 0
    }

    /// "'Possible symbol': not 1." Of what can never be one, "reducing and listing now read 'no' ...,
    /// recorded or not" (02, N9).
    #[inline]
    pub fn possible_symbol(self, i: usize) -> bool {
        self.symbol(i) != 1 && !self.is_never_symbol(i)
    }

    /// The symbol fact, as recorded.
    #[inline]
    pub fn symbol(self, i: usize) -> u8 {
        self.facts(i) >> 1 & 3
    }

    /// "`!a`, `typeof a`, `void a`, a comparison, a template, or an addition with a string part as
    /// document 01 reads it on the left" (02, N9).
    pub fn is_never_symbol(self, i: usize) -> bool {
        is_never_symbol(self.kind(i), self.sub(i)) || self.is_addition(i) && self.has_string_part(i)
    }

    /// "An addition on the left is a string if its left or its right is; any other side by its string
    /// fact." The left child of an addition is the record behind it.
    pub fn has_string_part(self, mut i: usize) -> bool {
        while self.is_addition(i) {
            if self.is_string(self.after(i + 1)) {
                return true;
            }
            i += 1;
        }
        self.is_string(i)
    }

    #[inline]
    pub fn is_string(self, i: usize) -> bool {
        self.facts(i) >> 3 & 3 == 2
    }

    #[inline]
    pub fn is_addition(self, i: usize) -> bool {
        self.kind(i) == kind::BINARY && self.sub(i) == sub::ADDITION
    }

    /// "Typeof of an identifier reference."
    #[inline]
    pub fn is_typeof_identifier(self, i: usize) -> bool {
        self.sub(i) == sub::TYPEOF && self.kind(i + 1) == kind::IDENTIFIER
    }

    /// Of a call or new, by document 01: "pure means annotated with setting bit 0 on, or listed, or
    /// (call only, callee an identifier) summary free."
    #[inline]
    pub fn is_pure_by_01(self, i: usize) -> bool {
        let facts = self.facts(i);
        facts & 32 != 0 && self.annotations()
            || facts & 64 != 0
            || facts & 128 != 0
                && self.kind(i) == kind::CALL
                && self.kind(i + 1) == kind::IDENTIFIER
    }

    /// "Our bundler users expect tree-shake-only to keep every such call. That rule now stands before
    /// purity" (02, N5).
    #[inline]
    pub fn is_pure(self, i: usize) -> bool {
        self.is_pure_by_01(i) && !(self.kind(i) == kind::CALL && self.is_preserved_iife(i))
    }

    /// Of a call: "tree-shake-only is on and the callee is a function or arrow."
    #[inline]
    pub fn is_preserved_iife(self, i: usize) -> bool {
        self.tree_shake_only() && matches!(self.kind(i + 1), kind::FUNCTION | kind::ARROW)
    }

    /// Of a template: "all possibly symbols and text 0: unchanged."
    pub fn template_stays(self, i: usize) -> bool {
        self.text(i) == 0 && self.children(i).all(|child| self.possible_symbol(child))
    }

    /// Of an object: "only spreads".
    pub fn only_spreads(self, i: usize) -> bool {
        self.children(i).all(|child| self.kind(child) == kind::SPREAD)
    }

    /// The test, consequent and alternate of a conditional.
    #[inline]
    pub fn test_and_arms(self, i: usize) -> [usize; 3] {
        let consequent = self.after(i + 1);
        [i + 1, consequent, self.after(consequent)]
    }

    /// Of a conditional or a logical: the part that runs after its test, if any does. "The listing is
    /// lent the places that count as yes, any list, other test places being no"; of a logical, "its
    /// right side running on yes for and, on no for or" (02, N1).
    pub fn arm_run(self, i: usize, yes: &[u32]) -> Option<usize> {
        let is_yes = yes.contains(&self.start(i + 1));
        match (self.kind(i), self.sub(i)) {
            (kind::CONDITIONAL, _) => {
                let [_, consequent, alternate] = self.test_and_arms(i);
                Some(if is_yes { consequent } else { alternate })
            }
            (_, sub) => (is_yes == (sub == sub::AND)).then(|| self.after(i + 1)),
        }
    }

    /// The heritage of a class.
    pub fn heritage(self, i: usize) -> Option<usize> {
        (self.sub(i) & sub::CLASS_HERITAGE != 0).then_some(i + 1)
    }

    /// The elements of a class.
    pub fn elements(self, i: usize) -> Children<'a, W> {
        let first = self.heritage(i).map_or(i + 1, |heritage| self.after(heritage));
        Children { tree: self, next: first, end: self.after(i) }
    }

    /// Of a class: "decorated, element decorated".
    pub fn is_decorated(self, i: usize) -> bool {
        self.sub(i) & sub::CLASS_DECORATED != 0
            || self.elements(i).any(|e| self.sub(e) & element::DECORATED != 0)
    }

    /// "A heritage that is an arrow (or a sequence whose last is one)."
    pub fn has_arrow_heritage(self, i: usize) -> bool {
        self.heritage(i).is_some_and(|h| self.kind(self.last_expression(h)) == kind::ARROW)
    }

    /// "`last_expression_in_sequence` follows the last child through nested sequences, stopping
    /// at an empty one."
    fn last_expression(self, i: usize) -> usize {
        if self.kind(i) != kind::SEQUENCE {
            return i;
        }
        match self.children(i).last() {
            Some(last) => self.last_expression(last),
            None => i,
        }
    }

    /// The computed key of a class element.
    #[inline]
    pub fn computed_key(self, e: usize) -> Option<usize> {
        (self.sub(e) & element::COMPUTED_KEY != 0).then_some(e + 1)
    }

    /// The value of a class element that is static and has one.
    #[inline]
    pub fn static_value(self, e: usize) -> Option<usize> {
        let wanted = element::STATIC | element::VALUE;
        (self.sub(e) & wanted == wanted)
            .then(|| self.computed_key(e).map_or(e + 1, |key| self.after(key)))
    }

    /// Of a class element: a static block with something in it.
    #[inline]
    pub fn is_nonempty_block(self, e: usize) -> bool {
        self.sub(e) & element::BLOCK_NONEMPTY != 0
    }

    #[inline]
    pub fn is_index_signature(self, e: usize) -> bool {
        self.sub(e) & element::FORM == element::INDEX_SIGNATURE
    }

    /// "Kept if decorated, any element decorated, an index signature, a nonempty static block, a
    /// flagged static value, or a heritage that is an arrow (or a sequence whose last is one)."
    pub fn class_stays(self, i: usize) -> bool {
        self.is_decorated(i)
            || self.has_arrow_heritage(i)
            || self.elements(i).any(|e| {
                self.is_index_signature(e)
                    || self.is_nonempty_block(e)
                    || self.static_value(e).is_some_and(|value| self.flagged(value))
            })
    }
}

/// The five of the six that kind and sub tell.
pub const fn is_never_symbol(kind: u8, sub: u8) -> bool {
    match kind {
        kind::UNARY => matches!(sub, sub::VOID | sub::NOT | sub::TYPEOF),
        kind::BINARY => sub == sub::COMPARISON,
        _ => kind == kind::TEMPLATE,
    }
}

#[inline]
pub fn count_of<const W: usize>(record: &Record<W>) -> u16 {
    u16::from_le_bytes([record[4], record[5]])
}

#[inline]
fn number_of<const W: usize>(record: &Record<W>, at: usize) -> u32 {
    u32::from_le_bytes([record[at], record[at + 1], record[at + 2], record[at + 3]])
}

#[inline]
pub fn span_of<const W: usize>(record: &Record<W>) -> Span {
    let start = number_of(record, 12);
    Span { start, end: if W == WIDTH_2 { number_of(record, 16) } else { start } }
}

#[inline]
pub fn set_span<const W: usize>(record: &mut Record<W>, span: Span) {
    record[12..16].copy_from_slice(&span.start.to_le_bytes());
    if W == WIDTH_2 {
        record[16..].copy_from_slice(&span.end.to_le_bytes());
    }
}

/// The children of a node, in order, by their subtree sizes.
#[derive(Clone)]
pub struct Children<'a, const W: usize> {
    tree: Tree<'a, W>,
    next: usize,
    end: usize,
}

impl<const W: usize> Iterator for Children<'_, W> {
    type Item = usize;

    #[inline]
    fn next(&mut self) -> Option<usize> {
        if self.next >= self.end {
            return None;
        }
        let child = self.next;
        self.next = self.tree.after(child);
        Some(child)
    }
}
