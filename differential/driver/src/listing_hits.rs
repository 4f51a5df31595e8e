//! How often the listing ran each side of a test, by the places that count as yes, where it read one of the
//! six of unknown symbol as none, and where it came to a call that tree-shake-only keeps before purity.

use port::{AnyVersion, Tree, kind, sub};

use crate::hits::{Hit, Hits, LISTED_CHILD, LISTED_LEFT, LISTED_RIGHT, is_called_function};

/// The tests that listing this tree under this list comes to.
pub fn of_list(tree: AnyVersion, yes: &[u32]) -> Hits {
    match tree {
        AnyVersion::Version1(tree) => walked(tree, yes),
        AnyVersion::Version2(tree) => walked(tree, yes),
    }
}

fn walked<const W: usize>(tree: Tree<W>, yes: &[u32]) -> Hits {
    let mut walk = Walk { tree, yes, hits: Hits::default() };
    walk.node(0);
    walk.hits
}

/// Goes where the listing goes.
struct Walk<'a, const W: usize> {
    tree: Tree<'a, W>,
    yes: &'a [u32],
    hits: Hits,
}

impl<const W: usize> Walk<'_, W> {
    fn nodes(&mut self, nodes: impl Iterator<Item = usize>) {
        for node in nodes {
            self.node(node);
        }
    }

    fn node(&mut self, i: usize) {
        let tree = self.tree;
        match tree.kind(i) {
            kind::LOGICAL | kind::CONDITIONAL => self.test(i),
            kind::CALL | kind::NEW if tree.is_pure(i) => self.nodes(tree.children(i).skip(1)),
            kind::CALL if is_called_function(tree, i) => {
                self.hits.hit(if tree.flagged(i) {
                    Hit::ListedCalledFlagged
                } else {
                    Hit::ListedCalledUnflagged
                });
                self.nodes(tree.children(i));
            }
            kind::CLASS => {
                self.nodes(tree.heritage(i).into_iter());
                self.nodes(tree.elements(i).filter_map(|e| tree.computed_key(e)));
                self.nodes(tree.elements(i).filter_map(|e| tree.static_value(e)));
            }
            kind::TEMPLATE => {
                let children = tree.children(i);
                children.for_each(|child| self.hits.hit_never(tree, child, &LISTED_CHILD));
                self.nodes(tree.children(i));
            }
            kind::BINARY if tree.is_addition(i) => {
                self.coerced(i + 1, tree.after(i + 1));
                self.nodes(tree.children(i));
            }
            _ => self.nodes(tree.children(i)),
        }
    }

    /// The sides of an addition.
    fn coerced(&mut self, left: usize, right: usize) {
        let tree = self.tree;
        if tree.has_string_part(left) {
            self.hits.hit_never(tree, right, &LISTED_RIGHT);
        } else if tree.is_string(right) {
            self.hits.hit_never(tree, left, &LISTED_LEFT);
        }
    }

    fn test(&mut self, i: usize) {
        let is_yes = self.yes.contains(&self.tree.start(i + 1));
        self.hits.hit(match (self.tree.kind(i), self.tree.sub(i), is_yes) {
            (kind::CONDITIONAL, _, true) => Hit::ListedConsequent,
            (kind::CONDITIONAL, _, false) => Hit::ListedAlternate,
            (_, sub::AND, true) => Hit::ListedAndRight,
            (_, sub::AND, false) => Hit::ListedAndLeft,
            (_, _, true) => Hit::ListedOrLeft,
            (_, _, false) => Hit::ListedOrRight,
        });
        self.node(i + 1);
        self.nodes(self.tree.arm_run(i, self.yes).into_iter());
    }
}
