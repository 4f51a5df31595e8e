//! The list of effects by document 01 alone: as it was before "what can never be a symbol" (02, N9), a possible
//! symbol being what is not recorded as none, and before "called functions under tree-shake-only" (N5).

use port::{AnyVersion, Tree, kind, sub};

/// The effects of an accepted tree where the places in `yes` count as yes.
pub fn effects(tree: AnyVersion, yes: &[u32]) -> Vec<u64> {
    match tree {
        AnyVersion::Version1(tree) => listed(tree, yes),
        AnyVersion::Version2(tree) => listed(tree, yes),
    }
}

fn listed<const W: usize>(tree: Tree<W>, yes: &[u32]) -> Vec<u64> {
    let mut listing = Listing { tree, yes, entries: Vec::new() };
    listing.node(0);
    listing.entries
}

struct Listing<'a, const W: usize> {
    tree: Tree<'a, W>,
    yes: &'a [u32],
    entries: Vec<u64>,
}

impl<const W: usize> Listing<'_, W> {
    fn effect_if(&mut self, condition: bool, i: usize, coercion: u64) {
        if condition {
            let (place, kind) = (u64::from(self.tree.start(i)), u64::from(self.tree.kind(i)));
            self.entries.push(place * 512 + kind * 2 + coercion);
        }
    }

    fn coercion(&mut self, i: usize) {
        self.effect_if(self.tree.symbol(i) != 1, i, 1);
    }

    fn nodes(&mut self, nodes: impl Iterator<Item = usize>) {
        nodes.for_each(|node| self.node(node));
    }

    fn node(&mut self, i: usize) {
        let tree = self.tree;
        match (tree.kind(i), tree.sub(i)) {
            (kind::THIS, _) => self.effect_if(tree.derived(), i, 0),
            (kind::UNARY, sub::TYPEOF) if tree.is_typeof_identifier(i) => {}
            (kind::BINARY, sub::ADDITION) => self.addition(i),
            (kind::TEMPLATE, _) => tree.children(i).for_each(|child| {
                self.node(child);
                self.coercion(child);
            }),
            (kind::CALL | kind::NEW, _) if tree.is_pure_by_01(i) => {
                self.nodes(tree.children(i).skip(1));
            }
            (kind::CLASS, _) => self.class(i),
            (kind::LOGICAL | kind::CONDITIONAL, _) => {
                self.node(i + 1);
                self.nodes(tree.arm_run(i, self.yes).into_iter());
            }
            (kind, sub) => {
                self.nodes(tree.children(i));
                self.effect_if(counts_itself(kind, sub) && tree.flagged(i), i, 0);
            }
        }
    }

    fn addition(&mut self, i: usize) {
        let (tree, left, right) = (self.tree, i + 1, self.tree.after(i + 1));
        self.nodes(tree.children(i));
        match (tree.has_string_part(left), tree.is_string(right)) {
            (true, _) => self.coercion(right),
            (false, true) => self.coercion(left),
            _ => self.effect_if(tree.flagged(i), i, 0),
        }
    }

    fn class(&mut self, i: usize) {
        let tree = self.tree;
        self.nodes(tree.heritage(i).into_iter());
        self.effect_if(tree.is_decorated(i) || tree.has_arrow_heritage(i), i, 0);
        self.nodes(tree.elements(i).filter_map(|e| tree.computed_key(e)));
        for e in tree.elements(i) {
            self.nodes(tree.static_value(e).into_iter());
            self.effect_if(tree.is_nonempty_block(e), e, 0);
        }
    }
}

/// "Kinds 1–5, other unary, other binary, impure call and impure new: itself if flagged. Spread: itself
/// if flagged."
fn counts_itself(kind: u8, sub: u8) -> bool {
    match kind {
        kind::UNARY => sub == sub::OTHER_UNARY,
        kind::BINARY => sub == sub::OTHER_BINARY,
        _ => matches!(kind, 1..=5 | kind::SPREAD | kind::CALL | kind::NEW),
    }
}
