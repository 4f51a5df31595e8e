//! How often a node was made in version 2 at a place whose end another node near by does not have: there
//! a wrong end shows.

use port::{AnyVersion, Marks, Outcome, Tree, WIDTH_2, kind};

use crate::hits::{self, Hit, Hits};

/// Of a tree of version 2; none of one of version 1.
pub fn of_tree(tree: AnyVersion, marks: &Marks) -> Hits {
    let mut hits = Hits::default();
    if let AnyVersion::Version2(ends) = tree {
        let at_start = |i: usize| ends.span(i).start == ends.span(i).end;
        hits.hit_if((0..ends.records.len()).any(at_start), Hit::EndOfStart);
        let mut counter = Counter { tree: ends, marks, hits: &mut hits };
        hits::reached(tree, marks).into_iter().for_each(|i| counter.node(i));
    }
    hits
}

struct Counter<'a> {
    tree: Tree<'a, WIDTH_2>,
    marks: &'a Marks,
    hits: &'a mut Hits,
}

impl Counter<'_> {
    /// Counts where the node that gives the place has another end than this one.
    fn hit(&mut self, hit: Hit, gives: usize, other: usize) {
        self.hits.hit_if(self.tree.span(gives).end != self.tree.span(other).end, hit);
    }

    /// A node to which the reduction comes.
    fn node(&mut self, i: usize) {
        let outcome = self.marks.outcome(i);
        match (self.tree.kind(i), outcome) {
            (kind::BINARY, Outcome::Stays) => self.emptied(i),
            (kind::BINARY, Outcome::Several) => self.hit(Hit::EndOfJoined, i, i + 1),
            (kind::CONDITIONAL, Outcome::Logical) => self.hit(Hit::EndOfLogical, i, i + 1),
            (_, Outcome::Several) => self.hit(Hit::EndOfSequence, i, i + 1),
            _ => {}
        }
        if matches!(outcome, Outcome::One | Outcome::Several) {
            match self.tree.kind(i) {
                kind::TEMPLATE => self.templates(i),
                kind::OBJECT => self.objects(i),
                kind::CALL | kind::NEW => self.arrays(i),
                _ => {}
            }
        }
    }

    /// Before a kept one it is that one's place after reduction: counted where that is the node itself.
    fn templates(&mut self, i: usize) {
        let (tree, marks) = (self.tree, self.marks);
        let mut last_waiting = None;
        for child in tree.children(i) {
            if tree.possible_symbol(child) {
                last_waiting = Some(child);
            } else if marks.is_kept(child) {
                let itself = matches!(marks.outcome(child), Outcome::Whole | Outcome::Several);
                if last_waiting.take().is_some() && itself {
                    self.hit(Hit::EndOfTemplateBefore, child, i);
                }
            }
        }
        last_waiting.into_iter().for_each(|child| self.hit(Hit::EndOfTemplateLast, i, child));
    }

    fn objects(&mut self, i: usize) {
        let mut last_spread = None;
        for child in self.tree.children(i) {
            if self.tree.kind(child) == kind::SPREAD {
                last_spread = Some(child);
            } else if last_spread.take().is_some() {
                self.hit(Hit::EndOfObjectBefore, child, i);
            }
        }
        last_spread.into_iter().for_each(|spread| self.hit(Hit::EndOfObjectLast, i, spread));
    }

    fn arrays(&mut self, i: usize) {
        let tree = self.tree;
        let is_left = |&node: &usize| tree.kind(node) == kind::SPREAD && tree.flagged(node);
        for spread in tree.children(i).skip(1).filter(is_left) {
            self.hit(Hit::EndOfArray, spread, i);
        }
    }

    /// The sides of an addition that stays with a string.
    fn emptied(&mut self, i: usize) {
        let (tree, marks) = (self.tree, self.marks);
        let (left, right) = (i + 1, tree.after(i + 1));
        if !marks.is_string(tree, left) {
            if !tree.flagged(right) {
                self.hit(Hit::EndOfEmptiedRight, right, i);
            }
        } else if !marks.is_flagged(tree, left) {
            self.hit(Hit::EndOfEmptiedLeft, marks.folded(tree, left), i);
        }
    }
}
