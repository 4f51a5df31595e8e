//! Reduce: the outcomes are decided first, so that only bytes of the answer are ever written.

use super::check::{Limits, check};
use super::outcome::{Marks, Outcome, outcomes};
use super::tree::{
    AnyVersion, HEADER_SIZE, LITERAL_FACTS, Record, Span, Tree, count_of, kind, set_span, span_of,
    sub,
};

/// Reduce's answer.
#[derive(Clone, Copy, Debug, PartialEq, Eq)]
pub enum Reduced {
    /// "Refused: number, length 0, output untouched."
    Refused(u8),
    /// "Removable: length 0, untouched."
    Removable,
    /// "Kept: length; later bytes untouched; header settings copied."
    Kept(usize),
}

/// Reduces the file's tree into `out`.
pub fn reduce(file: &[u8], out: &mut [u8]) -> Reduced {
    match check(file, Limits::REDUCE) {
        Ok(AnyVersion::Version1(tree)) => reduce_tree(file, tree, out),
        Ok(AnyVersion::Version2(tree)) => reduce_tree(file, tree, out),
        Err(number) => Reduced::Refused(number),
    }
}

fn reduce_tree<const W: usize>(file: &[u8], tree: Tree<W>, out: &mut [u8]) -> Reduced {
    // "9 output under 8 + 16 × (2 × N − 1) bytes", and 20 for 16 in version 2 (02, N6).
    if out.len() < HEADER_SIZE + W * (2 * tree.records.len() - 1) {
        return Reduced::Refused(9);
    }
    let marks = outcomes(tree);
    if !marks.is_kept(0) {
        return Reduced::Removable;
    }
    let (header, body) = out.split_at_mut(HEADER_SIZE);
    let mut writer = Writer { tree, marks: &marks, out: body.as_chunks_mut().0, end: 0 };
    writer.expression(0);
    let count = writer.end;
    header.copy_from_slice(&file[..HEADER_SIZE]);
    header[6..].copy_from_slice(&(count as u16).to_le_bytes());
    Reduced::Kept(HEADER_SIZE + W * count)
}

/// Writes the reduced tree, record after record.
struct Writer<'a, const W: usize> {
    tree: Tree<'a, W>,
    marks: &'a Marks,
    out: &'a mut [Record<W>],
    end: usize,
}

/// What was written of an expression.
#[derive(Clone, Copy, Default)]
struct Written {
    flagged: bool,
    /// Of a sequence: a child is flagged.
    child_flagged: bool,
}

/// A list of children being written, behind the record of their parent if they get one.
#[derive(Default)]
struct List {
    at: usize,
    count: u16,
    flagged: bool,
    last: Written,
}

impl List {
    fn add(&mut self, written: Written) {
        self.count += 1;
        self.flagged |= written.flagged;
        self.last = written;
    }

    fn add_kept(&mut self, written: Option<Written>) {
        if let Some(written) = written {
            self.add(written);
        }
    }
}

impl<const W: usize> Writer<'_, W> {
    /// Writes the reduced expression; none if it is removable.
    fn expression(&mut self, i: usize) -> Option<Written> {
        match self.marks.outcome(i) {
            Outcome::Removed => None,
            Outcome::Whole => Some(self.copy(i)),
            _ => Some(match self.tree.kind(i) {
                kind::UNARY => self.expression(i + 1)?,
                kind::SEQUENCE => self.sequence(i),
                kind::ARRAY => self.array(i),
                kind::TEMPLATE => self.template(i),
                kind::OBJECT => self.object(i),
                kind::BINARY if self.tree.sub(i) == sub::COMPARISON => self.comparison(i)?,
                kind::BINARY => self.folded(i),
                kind::CALL | kind::NEW => self.arguments(i),
                kind::CONDITIONAL => self.conditional(i)?,
                _ => self.class(i),
            }),
        }
    }

    /// Copies a node with all that is under it.
    fn copy(&mut self, i: usize) -> Written {
        let (size, tree) = (self.tree.size(i), self.tree);
        self.out[self.end..self.end + size].copy_from_slice(&tree.records[i..i + size]);
        self.end += size;
        Written {
            flagged: tree.flagged(i),
            child_flagged: tree.kind(i) == kind::SEQUENCE
                && tree.children(i).any(|child| tree.flagged(child)),
        }
    }

    /// "Made nodes: text 0, symbol and string unknown, place that of the node rewritten unless
    /// named; flag set if a child's is." "Every made node copies both ends from the node that gave it
    /// its place" (02, N6). The node's children stand behind it, up to `end`.
    fn make(&mut self, list: &List, kind: u8, span: Span, end: usize) {
        let mut record = [0; W];
        record[0] = kind;
        record[1] = list.flagged.into();
        record[4..6].copy_from_slice(&list.count.to_le_bytes());
        record[6..8].copy_from_slice(&((end - list.at) as u16).to_le_bytes());
        set_span(&mut record, span);
        self.out[list.at] = record;
    }

    /// "An empty literal has facts 18."
    fn empty_literal(&mut self, span: Span) {
        let mut record = [0; W];
        record[..8].copy_from_slice(&[kind::STRING_LITERAL, LITERAL_FACTS, 0, 0, 0, 0, 1, 0]);
        set_span(&mut record, span);
        self.out[self.end] = record;
        self.end += 1;
    }

    /// Node `i` at `at`, with its own facts, sub, text and place. "A node's subtree size is filled
    /// in after its children are written."
    fn stay(&mut self, i: usize, at: usize, count: u16) {
        let mut record = self.tree.records[i];
        record[4..6].copy_from_slice(&count.to_le_bytes());
        record[6..8].copy_from_slice(&((self.end - at) as u16).to_le_bytes());
        self.out[at] = record;
    }

    /// A list that begins here; its parent's record is left free.
    fn begin(&mut self) -> List {
        self.end += 1;
        List { at: self.end - 1, ..List::default() }
    }

    /// The list that takes the place of node `i`.
    fn open(&mut self, i: usize) -> List {
        if self.marks.outcome(i) == Outcome::One { List::default() } else { self.begin() }
    }

    /// "None, one, several": one is itself, several are a sequence at the node's place; a sequence
    /// or array that stays is itself.
    fn close(&mut self, i: usize, list: List) -> Written {
        match self.marks.outcome(i) {
            Outcome::One => list.last,
            Outcome::Several => {
                self.make(&list, kind::SEQUENCE, self.tree.span(i), self.end);
                Written { flagged: list.flagged, child_flagged: list.flagged }
            }
            _ => {
                self.stay(i, list.at, list.count);
                Written { flagged: self.tree.flagged(i), child_flagged: list.flagged }
            }
        }
    }

    fn sequence(&mut self, i: usize) -> Written {
        let mut list = self.open(i);
        for child in self.tree.children(i) {
            list.add_kept(self.expression(child));
        }
        self.close(i, list)
    }

    fn array(&mut self, i: usize) -> Written {
        let mut list = self.open(i);
        for child in self.tree.children(i) {
            match self.tree.kind(child) {
                kind::ELISION => {}
                kind::SPREAD if self.tree.flagged(child) => list.add(self.copy(child)),
                kind::SPREAD => {}
                _ => list.add_kept(self.expression(child)),
            }
        }
        self.close(i, list)
    }

    fn template(&mut self, i: usize) -> Written {
        let mut list = self.open(i);
        let mut waiting: Option<List> = None;
        for child in self.tree.children(i) {
            if self.tree.possible_symbol(child) {
                let template = waiting.get_or_insert_with(|| self.begin());
                template.add(self.copy(child));
                continue;
            }
            let at = self.end;
            if let Some(kept) = self.expression(child) {
                // "At the kept one's place after reduction."
                self.flush_template(&mut list, waiting.take(), span_of(&self.out[at]), at);
                list.add(kept);
            }
        }
        // "The rest wait until the end and take the template's place."
        self.flush_template(&mut list, waiting, self.tree.span(i), self.end);
        self.close(i, list)
    }

    /// "All waiting make a template with text 0"; the flag is set "on every made template".
    fn flush_template(&mut self, list: &mut List, waiting: Option<List>, span: Span, end: usize) {
        if let Some(mut template) = waiting {
            template.flagged = true;
            self.make(&template, kind::TEMPLATE, span, end);
            list.add(Written { flagged: true, child_flagged: false });
        }
    }

    fn object(&mut self, i: usize) -> Written {
        let mut list = self.open(i);
        let mut waiting: Option<List> = None;
        for child in self.tree.children(i) {
            if self.tree.kind(child) == kind::SPREAD {
                let object = waiting.get_or_insert_with(|| self.begin());
                object.add(self.copy(child));
                continue;
            }
            self.flush_object(&mut list, waiting.take(), self.tree.span(child));
            for key_or_value in self.tree.children(child) {
                list.add_kept(self.expression(key_or_value));
            }
        }
        self.flush_object(&mut list, waiting, self.tree.span(i));
        self.close(i, list)
    }

    /// "The next property makes them an object at its own place, the end at the object's place."
    fn flush_object(&mut self, list: &mut List, waiting: Option<List>, span: Span) {
        if let Some(object) = waiting {
            self.make(&object, kind::OBJECT, span, self.end);
            list.add(Written { flagged: object.flagged, child_flagged: false });
        }
    }

    fn comparison(&mut self, i: usize) -> Option<Written> {
        let (left, right) = (i + 1, self.tree.after(i + 1));
        if self.marks.outcome(i) == Outcome::Several {
            return Some(self.join_sequence(i, left, right));
        }
        self.expression(if self.marks.is_kept(left) { left } else { right })
    }

    /// "If a is a sequence, b is appended whole, even a sequence; else a sequence b gets a in
    /// front; else the two make a sequence." "A sequence from `join_sequence` is a made node, even
    /// where a side was one": a sequence's own record makes room for the made one.
    fn join_sequence(&mut self, i: usize, left: usize, right: usize) -> Written {
        let mut list = List { at: self.end, ..List::default() };
        if self.marks.is_sequence(left) {
            list.add_kept(self.children_of_sequence(left));
            list.count = count_of(&self.out[list.at]);
            list.add_kept(self.expression(right));
        } else {
            self.end += 1;
            list.add_kept(self.expression(left));
            if self.marks.is_sequence(right) {
                self.splice(&mut list, right);
            } else {
                list.add_kept(self.expression(right));
            }
        }
        self.make(&list, kind::SEQUENCE, self.tree.span(i), self.end);
        Written { flagged: list.flagged, child_flagged: list.flagged }
    }

    /// Writes a reduced node that is a sequence, and answers for its children's flags.
    fn children_of_sequence(&mut self, i: usize) -> Option<Written> {
        let flagged = self.expression(i)?.child_flagged;
        Some(Written { flagged, child_flagged: flagged })
    }

    /// Writes the children of the sequence that `right` is reduced to. The record of that sequence
    /// falls on the last one written, which is put back afterwards.
    fn splice(&mut self, list: &mut List, right: usize) {
        self.end -= 1;
        let at = self.end;
        let last = self.out[at];
        let before = list.count;
        list.add_kept(self.children_of_sequence(right));
        list.count = before + count_of(&self.out[at]);
        self.out[at] = last;
    }

    /// Writes an addition, or a left side of one, as `fold_string_addition_chain` leaves it where
    /// that is no empty literal.
    fn folded(&mut self, i: usize) -> Written {
        let i = self.marks.folded(self.tree, i);
        if !self.tree.is_addition(i) || !self.marks.is_string(self.tree, i) {
            return self.copy(i);
        }
        let at = self.end;
        self.end += 1;
        let (left, right) = (i + 1, self.tree.after(i + 1));
        if self.marks.is_string(self.tree, left) {
            self.string_left(left);
            self.copy(right);
        } else {
            self.copy(left);
            self.string_right(right);
        }
        // "A rewritten addition carries its old facts."
        self.stay(i, at, 2);
        Written { flagged: self.tree.flagged(i), child_flagged: false }
    }

    /// "An unflagged left becomes the empty literal at its own place."
    fn string_left(&mut self, left: usize) {
        if self.marks.is_flagged(self.tree, left) {
            self.folded(left);
        } else {
            self.empty_literal(self.tree.span(self.marks.folded(self.tree, left)));
        }
    }

    /// "Otherwise a right side that is a string and unflagged becomes the empty literal."
    fn string_right(&mut self, right: usize) {
        if self.tree.flagged(right) {
            self.copy(right);
        } else {
            self.empty_literal(self.tree.span(right));
        }
    }

    /// The arguments of a pure call or new.
    fn arguments(&mut self, i: usize) -> Written {
        let mut list = self.open(i);
        for argument in self.tree.children(i).skip(1) {
            if self.tree.kind(argument) != kind::SPREAD {
                list.add_kept(self.expression(argument));
            } else if self.tree.flagged(argument) {
                list.add(self.wrapped_spread(argument));
            }
        }
        self.close(i, list)
    }

    /// "A spread first wrapped in an array at the spread's place."
    fn wrapped_spread(&mut self, spread: usize) -> Written {
        let mut array = self.begin();
        array.add(self.copy(spread));
        self.make(&array, kind::ARRAY, self.tree.span(spread), self.end);
        Written { flagged: array.flagged, child_flagged: false }
    }

    /// "Extracted: a flagged heritage; then per element a flagged computed key, then any static
    /// value, none of them reduced."
    fn class(&mut self, i: usize) -> Written {
        let tree = self.tree;
        let mut list = self.open(i);
        if let Some(heritage) = tree.heritage(i).filter(|&heritage| tree.flagged(heritage)) {
            list.add(self.copy(heritage));
        }
        for e in tree.elements(i) {
            if let Some(key) = tree.computed_key(e).filter(|&key| tree.flagged(key)) {
                list.add(self.copy(key));
            }
            if let Some(value) = tree.static_value(e) {
                list.add(self.copy(value));
            }
        }
        self.close(i, list)
    }

    /// "Both gone leaves the reduced test"; else the test is not reduced, and what stays of the arms
    /// stands behind it.
    fn conditional(&mut self, i: usize) -> Option<Written> {
        let [test, consequent, alternate] = self.tree.test_and_arms(i);
        if self.marks.outcome(i) == Outcome::One {
            return self.expression(test);
        }
        let mut list = self.begin();
        list.add(self.copy(test));
        list.add_kept(self.expression(consequent));
        list.add_kept(self.expression(alternate));
        if self.marks.outcome(i) == Outcome::Logical {
            // "A dropped consequent gives or, a dropped alternate and."
            let sub = if self.marks.is_kept(consequent) { sub::AND } else { sub::OR };
            self.make_logical(&list, sub, self.tree.span(i));
            return Some(Written { flagged: list.flagged, child_flagged: false });
        }
        self.stay(i, list.at, list.count);
        Some(Written { flagged: self.tree.flagged(i), child_flagged: false })
    }

    /// "A logical node (kind 20, sub 1 for and, 2 for or) ... takes the conditional's place."
    fn make_logical(&mut self, list: &List, sub: u8, span: Span) {
        self.make(list, kind::LOGICAL, span, self.end);
        self.out[list.at][2] = sub;
    }
}
