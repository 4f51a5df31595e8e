//! List effects: the effects of a tree in ECMA-262's order.

use super::check::{Limits, check};
use super::tree::{AnyVersion, Tree, kind, sub};

/// The listing's answer.
#[derive(Clone, Copy, Debug, PartialEq, Eq)]
pub enum Listed {
    /// "Refused: number, count 0, entries untouched."
    Refused(u8),
    /// "Returns the count, later entries untouched."
    Count(usize),
}

/// Lists the effects of the file's tree into `entries`, where no place counts as yes.
pub fn list_effects(file: &[u8], entries: &mut [u64]) -> Listed {
    list_effects_given(file, &[], entries)
}

/// The same where the places in `yes` count as yes: "any list" (02, N1).
pub fn list_effects_given(file: &[u8], yes: &[u32], entries: &mut [u64]) -> Listed {
    match check(file, Limits::LIST_EFFECTS) {
        Ok(AnyVersion::Version1(tree)) => list(tree, yes, entries),
        Ok(AnyVersion::Version2(tree)) => list(tree, yes, entries),
        Err(number) => Listed::Refused(number),
    }
}

fn list<const W: usize>(tree: Tree<W>, yes: &[u32], entries: &mut [u64]) -> Listed {
    // "10 under 2 × N entries lent."
    if entries.len() < 2 * tree.records.len() {
        return Listed::Refused(10);
    }
    let mut listing = Listing { tree, yes, entries, count: 0 };
    listing.node(0);
    Listed::Count(listing.count)
}

struct Listing<'a, const W: usize> {
    tree: Tree<'a, W>,
    yes: &'a [u32],
    entries: &'a mut [u64],
    count: usize,
}

impl<const W: usize> Listing<'_, W> {
    /// "An effect is place × 512 + kind × 2 + 1 if a coercion; a coercion has the place and kind
    /// of the node coerced."
    #[inline]
    fn effect(&mut self, i: usize, coercion: bool) {
        let (place, kind) = (self.tree.start(i), self.tree.kind(i));
        self.entries[self.count] =
            u64::from(place) * 512 + u64::from(kind) * 2 + u64::from(coercion);
        self.count += 1;
    }

    #[inline]
    fn own_if(&mut self, i: usize, condition: bool) {
        if condition {
            self.effect(i, false);
        }
    }

    #[inline]
    fn coercion_if_symbol(&mut self, i: usize) {
        if self.tree.possible_symbol(i) {
            self.effect(i, true);
        }
    }

    /// "Children in order, but at a typeof identifier, a pure call or new and a class only what is
    /// named for it; then: ..."
    fn node(&mut self, i: usize) {
        let tree = self.tree;
        match tree.kind(i) {
            // "Kinds 1–5, ...: itself if flagged. Spread: itself if flagged."
            kind::STRING_LITERAL..=kind::OTHER_LEAF => self.own_if(i, tree.flagged(i)),
            kind::SPREAD => self.children_then_own(i),
            // "This: itself if derived."
            kind::THIS => self.own_if(i, tree.derived()),
            kind::UNARY => self.unary(i),
            kind::BINARY => self.binary(i),
            kind::TEMPLATE => self.template(i),
            kind::CALL | kind::NEW => self.call_or_new(i),
            kind::CLASS => self.class(i),
            kind::LOGICAL | kind::CONDITIONAL => self.test_then_arm(i),
            _ => self.children(i),
        }
    }

    fn children(&mut self, i: usize) {
        for child in self.tree.children(i) {
            self.node(child);
        }
    }

    fn children_then_own(&mut self, i: usize) {
        self.children(i);
        self.own_if(i, self.tree.flagged(i));
    }

    /// "Other unary, ...: itself if flagged." "Typeof identifier: nothing."
    fn unary(&mut self, i: usize) {
        if self.tree.sub(i) == sub::OTHER_UNARY {
            self.children_then_own(i);
        } else if !self.tree.is_typeof_identifier(i) {
            self.node(i + 1);
        }
    }

    /// "Other binary, ...: itself if flagged." A comparison has no effect of its own.
    fn binary(&mut self, i: usize) {
        match self.tree.sub(i) {
            sub::COMPARISON => self.children(i),
            sub::ADDITION => {
                self.addition(i);
            }
            _ => self.children_then_own(i),
        }
    }

    /// "Addition with a string left: coercion of a possibly symbolic right; else with a string
    /// right: of a possibly symbolic left; else itself if flagged. An addition on the left is a
    /// string if its left or its right is; any other side by its string fact." Answers that for
    /// the addition.
    fn addition(&mut self, i: usize) -> bool {
        let tree = self.tree;
        let (left, right) = (i + 1, tree.after(i + 1));
        let left_is_string = if tree.is_addition(left) {
            self.addition(left)
        } else {
            self.node(left);
            tree.is_string(left)
        };
        self.node(right);
        let right_is_string = tree.is_string(right);
        if left_is_string {
            self.coercion_if_symbol(right);
        } else if right_is_string {
            self.coercion_if_symbol(left);
        } else {
            self.own_if(i, tree.flagged(i));
        }
        left_is_string || right_is_string
    }

    /// "Template child: its coercion follows it if a possible symbol."
    fn template(&mut self, i: usize) {
        for child in self.tree.children(i) {
            self.node(child);
            self.coercion_if_symbol(child);
        }
    }

    /// "Impure call and impure new: itself if flagged." "Pure call or new: arguments only."
    fn call_or_new(&mut self, i: usize) {
        if !self.tree.is_pure(i) {
            return self.children_then_own(i);
        }
        for argument in self.tree.children(i).skip(1) {
            self.node(argument);
        }
    }

    /// "The effect list has the test, then the arm run" (02, N1). The node itself is no effect.
    fn test_then_arm(&mut self, i: usize) {
        self.node(i + 1);
        if let Some(arm) = self.tree.arm_run(i, self.yes) {
            self.node(arm);
        }
    }

    /// "Class: heritage; itself if decorated, element decorated or arrow heritage; computed keys;
    /// then static values and nonempty blocks (the block itself)."
    fn class(&mut self, i: usize) {
        let tree = self.tree;
        if let Some(heritage) = tree.heritage(i) {
            self.node(heritage);
        }
        self.own_if(i, tree.is_decorated(i) || tree.has_arrow_heritage(i));
        for key in tree.elements(i).filter_map(|e| tree.computed_key(e)) {
            self.node(key);
        }
        for e in tree.elements(i) {
            if let Some(value) = tree.static_value(e) {
                self.node(value);
            }
            self.own_if(e, tree.is_nonempty_block(e));
        }
    }
}
