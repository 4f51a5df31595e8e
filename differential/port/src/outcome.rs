//! What becomes of each node, decided before anything is written.
//!
//! The records are gone through from the last to the first, so that a node's children are decided
//! before it; a node's outcome is that of reducing it, whether or not the reduction reaches it.

use super::tree::{AnyVersion, Tree, kind, sub};

/// What a handler makes of its node.
#[derive(Clone, Copy, Debug, PartialEq, Eq)]
#[repr(u8)]
pub enum Outcome {
    /// Removable.
    Removed,
    /// The node stays as it is, with all that is under it.
    Whole,
    /// One expression takes its place.
    One,
    /// A made sequence of several expressions takes its place (of one or more, at a class).
    Several,
    /// "An array, sequence or addition that stays keeps its own facts, sub, text and place", and so
    /// does a conditional.
    Stays,
    /// A made logical of a conditional's test and the one arm that stays takes its place.
    Logical,
}

/// A node's outcome, and what others ask of it, in a byte.
#[derive(Clone, Copy)]
struct Mark(u8);

/// The bits of a mark that hold the outcome.
const OUTCOME: u8 = 7;
/// The reduced node, if kept, is a sequence.
const IS_SEQUENCE: u8 = 8;
/// Of an addition, after `fold_string_addition_chain`: it is a string.
const IS_STRING: u8 = 16;
/// Of an addition, after its fold: what stands there is flagged.
const IS_FLAGGED: u8 = 32;
/// Of an addition: the fold drops its right side, and its left side takes its place.
const GIVES_WAY: u8 = 64;

impl Mark {
    const REMOVED: Mark = Mark::of(Outcome::Removed);

    const fn of(outcome: Outcome) -> Mark {
        Mark(outcome as u8)
    }

    /// "Removable exactly if not ..."
    fn whole_if(stays: bool) -> Mark {
        Mark::of(if stays { Outcome::Whole } else { Outcome::Removed })
    }

    fn with(self, bit: u8, condition: bool) -> Mark {
        Mark(self.0 | if condition { bit } else { 0 })
    }

    #[inline]
    fn has(self, bit: u8) -> bool {
        self.0 & bit != 0
    }

    #[inline]
    fn outcome(self) -> Outcome {
        match self.0 & OUTCOME {
            0 => Outcome::Removed,
            1 => Outcome::Whole,
            2 => Outcome::One,
            3 => Outcome::Several,
            4 => Outcome::Stays,
            _ => Outcome::Logical,
        }
    }
}

const MAX_RECORDS: usize = 2_000;

/// The marks of a tree's nodes.
pub struct Marks([Mark; MAX_RECORDS]);

impl Marks {
    #[inline]
    pub fn outcome(&self, i: usize) -> Outcome {
        self.0[i].outcome()
    }

    #[inline]
    pub fn is_kept(&self, i: usize) -> bool {
        self.0[i].has(OUTCOME)
    }

    /// The reduced node, if kept, is a sequence.
    #[inline]
    pub fn is_sequence(&self, i: usize) -> bool {
        self.0[i].has(IS_SEQUENCE)
    }

    #[inline]
    pub fn gives_way(&self, i: usize) -> bool {
        self.0[i].has(GIVES_WAY)
    }

    /// "An addition on the left is a string if its left or its right is; any other side by its
    /// string fact."
    #[inline]
    pub fn is_string<const W: usize>(&self, tree: Tree<W>, i: usize) -> bool {
        if tree.is_addition(i) { self.0[i].has(IS_STRING) } else { tree.is_string(i) }
    }

    /// The flag of a side of an addition, "a folded left being taken as it then stands".
    #[inline]
    pub fn is_flagged<const W: usize>(&self, tree: Tree<W>, i: usize) -> bool {
        if tree.is_addition(i) { self.0[i].has(IS_FLAGGED) } else { tree.flagged(i) }
    }

    /// The node that stands, after the fold, where `i` stood.
    #[inline]
    pub fn folded<const W: usize>(&self, tree: Tree<W>, mut i: usize) -> usize {
        while tree.is_addition(i) && self.gives_way(i) {
            i += 1;
        }
        i
    }
}

impl AnyVersion<'_> {
    /// The marks of a tree of at most 2,000 records.
    pub fn outcomes(self) -> Marks {
        match self {
            AnyVersion::Version1(tree) => outcomes(tree),
            AnyVersion::Version2(tree) => outcomes(tree),
        }
    }
}

pub fn outcomes<const W: usize>(tree: Tree<W>) -> Marks {
    let mut marks = Marks([Mark::REMOVED; MAX_RECORDS]);
    for i in (0..tree.records.len()).rev() {
        marks.0[i] = mark(tree, &marks, i);
    }
    marks
}

fn mark<const W: usize>(tree: Tree<W>, marks: &Marks, i: usize) -> Mark {
    match tree.kind(i) {
        // "This: removable unless the derived setting is on, flagged or not."
        kind::THIS => Mark::whole_if(tree.derived()),
        kind::UNARY => unary(tree, marks, i),
        kind::SEQUENCE => sequence(tree, marks, i),
        kind::ARRAY => array(tree, marks, i),
        kind::TEMPLATE => template(tree, marks, i),
        kind::OBJECT => object(tree, marks, i),
        kind::BINARY => binary(tree, marks, i),
        kind::CALL | kind::NEW => call_or_new(tree, marks, i),
        kind::CLASS => class(tree, i),
        kind::CONDITIONAL => conditional(tree, marks, i),
        // "Leaf (kinds 1–5): removable exactly if not flagged." Elisions, spreads, properties and
        // elements are no expressions: their parents' handlers see to them.
        _ => Mark::whole_if(tree.flagged(i)),
    }
}

/// "Void and not become their reduced argument. Typeof of an identifier reference is removable,
/// flagged or not; other typeof becomes its reduced argument. Others: removable exactly if not
/// flagged."
fn unary<const W: usize>(tree: Tree<W>, marks: &Marks, i: usize) -> Mark {
    if tree.sub(i) == sub::OTHER_UNARY {
        return Mark::whole_if(tree.flagged(i));
    }
    let mut pieces = Pieces::NONE;
    if !tree.is_typeof_identifier(i) {
        pieces.reduced(marks, i + 1);
    }
    pieces.mark()
}

/// "Children reduced, removable ones dropped. One left stays a sequence of one; none is removable."
fn sequence<const W: usize>(tree: Tree<W>, marks: &Marks, i: usize) -> Mark {
    if !tree.children(i).any(|child| marks.is_kept(child)) {
        return Mark::REMOVED;
    }
    Mark::of(Outcome::Stays).with(IS_SEQUENCE, true)
}

/// What takes the place of an array, template, object, call, new or comparison: "none, one,
/// several as above".
struct Pieces {
    count: usize,
    is_sequence: bool,
}

impl Pieces {
    const NONE: Pieces = Pieces { count: 0, is_sequence: false };

    fn add(&mut self, is_sequence: bool) {
        self.count += 1;
        self.is_sequence = is_sequence;
    }

    /// An expression, reduced.
    fn reduced(&mut self, marks: &Marks, i: usize) {
        if marks.is_kept(i) {
            self.add(marks.is_sequence(i));
        }
    }

    fn mark(self) -> Mark {
        match self.count {
            0 => Mark::REMOVED,
            1 => Mark::of(Outcome::One).with(IS_SEQUENCE, self.is_sequence),
            _ => Mark::of(Outcome::Several).with(IS_SEQUENCE, true),
        }
    }
}

/// "Elisions and unflagged spreads go, other elements are reduced. None left: removable. A spread
/// left: stays an array. Else the one child, or a sequence at the array's place."
fn array<const W: usize>(tree: Tree<W>, marks: &Marks, i: usize) -> Mark {
    let mut pieces = Pieces::NONE;
    for child in tree.children(i) {
        match tree.kind(child) {
            kind::ELISION => {}
            kind::SPREAD if tree.flagged(child) => return Mark::of(Outcome::Stays),
            kind::SPREAD => {}
            _ => pieces.reduced(marks, child),
        }
    }
    pieces.mark()
}

/// "No expressions: removable. All possibly symbols and text 0: unchanged. Otherwise, in order: a
/// possible symbol waits unreduced; others are reduced. Before each kept one, all waiting make a
/// template ...; the rest wait until the end and take the template's place. None: removable; one:
/// itself; else a sequence."
fn template<const W: usize>(tree: Tree<W>, marks: &Marks, i: usize) -> Mark {
    if tree.count(i) == 0 {
        return Mark::REMOVED;
    }
    if tree.template_stays(i) {
        return Mark::of(Outcome::Whole);
    }
    let mut pieces = Pieces::NONE;
    let mut waiting = false;
    for child in tree.children(i) {
        if tree.possible_symbol(child) {
            waiting = true;
        } else if marks.is_kept(child) {
            if waiting {
                pieces.add(false);
                waiting = false;
            }
            pieces.reduced(marks, child);
        }
    }
    if waiting {
        pieces.add(false);
    }
    pieces.mark()
}

/// "Empty: removable. Only spreads: removable exactly if none is flagged, else unchanged.
/// Otherwise adjacent spreads, flagged or not, wait; the next property makes them an object at
/// its own place, the end at the object's place. Property by property, its key node, then its
/// value, is reduced. None, one, several as for templates."
fn object<const W: usize>(tree: Tree<W>, marks: &Marks, i: usize) -> Mark {
    if tree.only_spreads(i) {
        return Mark::whole_if(tree.children(i).any(|spread| tree.flagged(spread)));
    }
    let mut pieces = Pieces::NONE;
    let mut waiting = false;
    for child in tree.children(i) {
        if tree.kind(child) == kind::SPREAD {
            waiting = true;
            continue;
        }
        if waiting {
            pieces.add(false);
            waiting = false;
        }
        for key_or_value in tree.children(child) {
            pieces.reduced(marks, key_or_value);
        }
    }
    if waiting {
        pieces.add(false);
    }
    pieces.mark()
}

fn binary<const W: usize>(tree: Tree<W>, marks: &Marks, i: usize) -> Mark {
    match tree.sub(i) {
        // "Both sides reduced; two kept go to `join_sequence`."
        sub::COMPARISON => {
            let mut pieces = Pieces::NONE;
            pieces.reduced(marks, i + 1);
            pieces.reduced(marks, tree.after(i + 1));
            pieces.mark()
        }
        sub::ADDITION => addition(tree, marks, i),
        // "Removable exactly if not flagged."
        _ => Mark::whole_if(tree.flagged(i)),
    }
}

/// "Unflagged: removable. Else `fold_string_addition_chain`, then removable exactly if a string
/// literal remains. The fold goes down left children only." The fold is worked out for an
/// unflagged addition too: it may be the left side of another.
fn addition<const W: usize>(tree: Tree<W>, marks: &Marks, i: usize) -> Mark {
    let (left, right) = (i + 1, tree.after(i + 1));
    let left_is_string = marks.is_string(tree, left);
    // "If the left is a string after its fold, an unflagged left becomes the empty literal at its
    // own place, and a right side that is no symbol and unflagged is dropped."
    let gives_way = left_is_string && !tree.possible_symbol(right) && !tree.flagged(right);
    // "Otherwise a right side that is a string and unflagged becomes the empty literal."
    let is_string = left_is_string || tree.is_string(right);
    let flagged = if gives_way { marks.is_flagged(tree, left) } else { tree.flagged(i) };
    let outcome = if !tree.flagged(i) || !flagged {
        Outcome::Removed
    } else if gives_way {
        Outcome::One
    } else if is_string {
        Outcome::Stays
    } else {
        Outcome::Whole
    };
    // A left that is an addition may give way in turn.
    let left_is_sequence =
        tree.kind(left) == kind::SEQUENCE || tree.is_addition(left) && marks.is_sequence(left);
    Mark::of(outcome)
        .with(IS_SEQUENCE, gives_way && left_is_sequence)
        .with(IS_STRING, is_string)
        .with(IS_FLAGGED, flagged)
        .with(GIVES_WAY, gives_way)
}

/// "A pure one loses its callee; its arguments are reduced, a spread first wrapped in an array at
/// the spread's place; none, one, several as above. An impure call is removable exactly if
/// unflagged, and not if tree-shake-only is on and the callee is a function or arrow. An impure
/// new always stays."
fn call_or_new<const W: usize>(tree: Tree<W>, marks: &Marks, i: usize) -> Mark {
    if !tree.is_pure(i) {
        return Mark::whole_if(
            tree.kind(i) == kind::NEW || tree.flagged(i) || tree.is_preserved_iife(i),
        );
    }
    let mut pieces = Pieces::NONE;
    for argument in tree.children(i).skip(1) {
        if tree.kind(argument) != kind::SPREAD {
            pieces.reduced(marks, argument);
        } else if tree.flagged(argument) {
            pieces.add(false);
        }
    }
    pieces.mark()
}

/// "Else extracted: a flagged heritage; then per element a flagged computed key, then any static
/// value, none of them reduced. None: removable. One or more: always a sequence."
fn class<const W: usize>(tree: Tree<W>, i: usize) -> Mark {
    if tree.class_stays(i) {
        return Mark::of(Outcome::Whole);
    }
    let extracts = tree.heritage(i).is_some_and(|heritage| tree.flagged(heritage))
        || tree.elements(i).any(|e| {
            tree.computed_key(e).is_some_and(|key| tree.flagged(key))
                || tree.static_value(e).is_some()
        });
    if extracts { Mark::of(Outcome::Several).with(IS_SEQUENCE, true) } else { Mark::REMOVED }
}

/// "Unflagged is removable. Else both arms are reduced: both gone leaves the reduced test, or
/// removable if the test goes too. One gone leaves a logical node ... of the unreduced test and the
/// arm that stays ... Neither gone keeps the conditional" (02, N1).
fn conditional<const W: usize>(tree: Tree<W>, marks: &Marks, i: usize) -> Mark {
    if !tree.flagged(i) {
        return Mark::REMOVED;
    }
    let [test, consequent, alternate] = tree.test_and_arms(i);
    match (marks.is_kept(consequent), marks.is_kept(alternate)) {
        (false, false) => {
            let mut pieces = Pieces::NONE;
            pieces.reduced(marks, test);
            pieces.mark()
        }
        (true, true) => Mark::of(Outcome::Stays),
        _ => Mark::of(Outcome::Logical),
    }
}
