//! The premise of demand 3: the nodes whose clear flag the reduction reads, each of which has an
//! empty effect list.

use super::outcome::{Marks, Outcome};
use super::tree::{AnyVersion, Tree, kind, sub};

/// A node whose clear flag was read.
#[derive(Clone, Copy)]
pub struct Read {
    pub node: usize,
    /// Its effect list is not empty; for "a folded left", that of the node "as it then stands".
    pub has_effects: bool,
}

impl AnyVersion<'_> {
    /// Whether every node whose clear flag is read has an empty effect list where the places in `yes`
    /// count as yes: "the premise being read under the same list" (02, N1).
    pub fn premise(self, marks: &Marks, yes: &[u32]) -> bool {
        let mut holds = true;
        self.reads(marks, yes, &mut |read| holds &= !read.has_effects);
        holds
    }

    /// Tells of every node whose clear flag is read: "where, because of it, a node is removable, a
    /// spread goes (alone or with its object), or a side of an addition is dropped or becomes the
    /// empty literal, a folded left being taken as it then stands; also at heritage, computed keys
    /// and static values of an extracted class."
    pub fn reads(self, marks: &Marks, yes: &[u32], visit: &mut impl FnMut(Read)) {
        match self {
            AnyVersion::Version1(tree) => reads(tree, marks, yes, visit),
            AnyVersion::Version2(tree) => reads(tree, marks, yes, visit),
        }
    }
}

fn reads<const W: usize>(tree: Tree<W>, marks: &Marks, yes: &[u32], visit: &mut impl FnMut(Read)) {
    let mut facts = [Effectful::default(); MAX_RECORDS];
    for i in (0..tree.records.len()).rev() {
        facts[i] = effectful(tree, marks, yes, &facts, i);
    }
    Reader { tree, marks, facts: &facts, visit }.expression(0);
}

const MAX_RECORDS: usize = 2_000;

/// Whether a node's effect list has any entry.
#[derive(Clone, Copy, Default)]
struct Effectful {
    recorded: bool,
    /// Of an addition: the list of the node as its fold leaves it.
    folded: bool,
}

fn effectful<const W: usize>(
    tree: Tree<W>,
    marks: &Marks,
    yes: &[u32],
    facts: &[Effectful],
    i: usize,
) -> Effectful {
    let has = |i: usize| facts[i].recorded;
    let any = || tree.children(i).any(has);
    let own = tree.flagged(i);
    let recorded = match (tree.kind(i), tree.sub(i)) {
        (kind::STRING_LITERAL..=kind::OTHER_LEAF, _) => own,
        (kind::THIS, _) => tree.derived(),
        (kind::SPREAD, _) => any() || own,
        (kind::UNARY, sub::OTHER_UNARY) => any() || own,
        (kind::UNARY, _) => any() && !tree.is_typeof_identifier(i),
        (kind::BINARY, sub::ADDITION) => addition(tree, marks, facts, i),
        (kind::BINARY, sub::OTHER_BINARY) => any() || own,
        (kind::CALL | kind::NEW, _) if tree.is_pure(i) => tree.children(i).skip(1).any(has),
        (kind::CALL | kind::NEW, _) => any() || own,
        (kind::TEMPLATE, _) => tree.children(i).any(|c| has(c) || tree.possible_symbol(c)),
        (kind::CLASS, _) => class(tree, facts, i),
        (kind::LOGICAL | kind::CONDITIONAL, _) => {
            has(i + 1) || tree.arm_run(i, yes).is_some_and(has)
        }
        _ => any(),
    };
    let folded = if tree.is_addition(i) { folded(tree, marks, facts, i) } else { recorded };
    Effectful { recorded, folded }
}

/// The entry, besides those of its sides, that an addition with these sides has.
fn addition_own<const W: usize>(tree: Tree<W>, marks: &Marks, i: usize) -> bool {
    let (left, right) = (i + 1, tree.after(i + 1));
    if marks.is_string(tree, left) {
        tree.possible_symbol(right)
    } else if tree.is_string(right) {
        tree.possible_symbol(left)
    } else {
        tree.flagged(i)
    }
}

fn addition<const W: usize>(tree: Tree<W>, marks: &Marks, facts: &[Effectful], i: usize) -> bool {
    tree.children(i).any(|side| facts[side].recorded) || addition_own(tree, marks, i)
}

/// The same of the addition as its fold leaves it.
fn folded<const W: usize>(tree: Tree<W>, marks: &Marks, facts: &[Effectful], i: usize) -> bool {
    let (left, right) = (i + 1, tree.after(i + 1));
    let left_is_string = marks.is_string(tree, left);
    let left_emptied = left_is_string && !marks.is_flagged(tree, left);
    let left_has = !left_emptied && facts[left].folded;
    if marks.gives_way(i) {
        return left_has;
    }
    let right_emptied = !left_is_string && tree.is_string(right) && !tree.flagged(right);
    left_has || !right_emptied && facts[right].recorded || addition_own(tree, marks, i)
}

fn class<const W: usize>(tree: Tree<W>, facts: &[Effectful], i: usize) -> bool {
    let has = |node: Option<usize>| node.is_some_and(|node| facts[node].recorded);
    tree.is_decorated(i)
        || tree.has_arrow_heritage(i)
        || has(tree.heritage(i))
        || tree.elements(i).any(|e| {
            tree.is_nonempty_block(e) || has(tree.computed_key(e)) || has(tree.static_value(e))
        })
}

/// Goes where the reduction goes.
struct Reader<'a, V, const W: usize> {
    tree: Tree<'a, W>,
    marks: &'a Marks,
    facts: &'a [Effectful],
    visit: &'a mut V,
}

impl<V: FnMut(Read), const W: usize> Reader<'_, V, W> {
    /// The node's flag decides: if it is clear, it is read.
    fn flag(&mut self, i: usize) {
        if !self.tree.flagged(i) {
            (self.visit)(Read { node: i, has_effects: self.facts[i].recorded });
        }
    }

    fn expressions(&mut self, nodes: impl Iterator<Item = usize>) {
        for node in nodes {
            self.expression(node);
        }
    }

    /// Elements of an array and arguments of a pure call or new: an unflagged spread goes.
    fn elements(&mut self, nodes: impl Iterator<Item = usize>) {
        for node in nodes {
            match self.tree.kind(node) {
                kind::ELISION => {}
                kind::SPREAD => self.flag(node),
                _ => self.expression(node),
            }
        }
    }

    fn expression(&mut self, i: usize) {
        let tree = self.tree;
        match tree.kind(i) {
            kind::STRING_LITERAL..=kind::OTHER_LEAF => self.flag(i),
            kind::THIS => {}
            kind::ARRAY => self.elements(tree.children(i)),
            kind::OBJECT => self.object(i),
            kind::TEMPLATE => self.template(i),
            kind::SEQUENCE => self.expressions(tree.children(i)),
            kind::UNARY if tree.sub(i) == sub::OTHER_UNARY => self.flag(i),
            kind::UNARY if tree.is_typeof_identifier(i) => {}
            kind::UNARY => self.expression(i + 1),
            kind::BINARY => self.binary(i),
            kind::CALL | kind::NEW => self.call_or_new(i),
            kind::CONDITIONAL => self.conditional(i),
            _ => self.class(i),
        }
    }

    /// Of an object of spreads alone, all flags are read if none is set, and none is read
    /// otherwise. Spreads among properties wait unread.
    fn object(&mut self, i: usize) {
        let tree = self.tree;
        if !tree.only_spreads(i) {
            for property in tree.children(i).filter(|&child| tree.kind(child) == kind::PROPERTY) {
                self.expressions(tree.children(property));
            }
        } else if self.marks.outcome(i) == Outcome::Removed {
            self.elements(tree.children(i));
        }
    }

    fn template(&mut self, i: usize) {
        let tree = self.tree;
        if !tree.template_stays(i) {
            self.expressions(tree.children(i).filter(|&child| !tree.possible_symbol(child)));
        }
    }

    fn binary(&mut self, i: usize) {
        match self.tree.sub(i) {
            sub::COMPARISON => self.expressions(self.tree.children(i)),
            sub::ADDITION if self.tree.flagged(i) => self.fold(i),
            _ => self.flag(i),
        }
    }

    /// `fold_string_addition_chain` goes into a left addition whatever that addition's own flag is.
    fn fold(&mut self, i: usize) {
        let tree = self.tree;
        let (left, right) = (i + 1, tree.after(i + 1));
        if tree.is_addition(left) {
            self.fold(left);
        }
        if self.marks.is_string(tree, left) {
            if !self.marks.is_flagged(tree, left) {
                let has_effects = self.facts[left].folded;
                (self.visit)(Read { node: self.marks.folded(tree, left), has_effects });
            }
            if !tree.possible_symbol(right) {
                self.flag(right);
            }
        } else if tree.is_string(right) {
            self.flag(right);
        }
    }

    /// A clear flag is not read at an impure call that tree-shake-only keeps, nor at any impure
    /// new: none of them is removable because of it.
    fn call_or_new(&mut self, i: usize) {
        let tree = self.tree;
        if tree.is_pure(i) {
            self.elements(tree.children(i).skip(1));
        } else if tree.kind(i) == kind::CALL && !tree.is_preserved_iife(i) {
            self.flag(i);
        }
    }

    fn class(&mut self, i: usize) {
        let tree = self.tree;
        if tree.class_stays(i) {
            return;
        }
        if let Some(heritage) = tree.heritage(i) {
            self.flag(heritage);
        }
        for e in tree.elements(i) {
            for node in [tree.computed_key(e), tree.static_value(e)].into_iter().flatten() {
                self.flag(node);
            }
        }
    }

    /// "Unflagged is removable. Else both arms are reduced"; the test only where both are gone.
    fn conditional(&mut self, i: usize) {
        if !self.tree.flagged(i) {
            return self.flag(i);
        }
        let [test, consequent, alternate] = self.tree.test_and_arms(i);
        self.expression(consequent);
        self.expression(alternate);
        if !self.marks.is_kept(consequent) && !self.marks.is_kept(alternate) {
            self.expression(test);
        }
    }
}
