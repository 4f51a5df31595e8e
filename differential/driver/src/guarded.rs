//! A side that is lent guarded memory: what it reads or writes outside ends the process, and so does a
//! write to what it may only read.

use std::cell::Cell;

use library::guarded::{Edge, Guarded, Sealed};
use port::Limits;

use crate::compare::{Comparator, Difference, MOST_NUMBER};
use crate::side::{Answer, Listing, Port, Reduction, Side};

/// Holds the side to the port in both ways in which its memory can stand at a guard. Answers with what
/// `go` does, and with what the side was lent.
pub fn held<T>(
    side: &dyn Side,
    go: impl FnOnce(&mut Comparator) -> Result<T, Difference>,
) -> Result<(T, Tally), Difference> {
    let [front, behind] = [Edge::Front, Edge::Behind].map(|edge| AtEdge::new(side, edge));
    let sides: [&dyn Side; 3] = [&Port, &front, &behind];
    let done = go(&mut Comparator::new(&sides, None))?;
    Ok((done, front.tally.get().plus(behind.tally.get())))
}

/// What a side was asked and lent, and what it answered.
#[derive(Clone, Copy, Default)]
pub struct Tally {
    pub calls: u64,
    pub bytes: u64,
    /// Answers by the number of the refusal; 0: accepted.
    pub numbers: [u64; MOST_NUMBER + 1],
}

impl Tally {
    fn plus(mut self, other: Tally) -> Tally {
        self.calls += other.calls;
        self.bytes += other.bytes;
        self.numbers.iter_mut().zip(other.numbers).for_each(|(sum, more)| *sum += more);
        self
    }
}

/// The side with all that it is lent at one of the guards.
struct AtEdge<'s> {
    side: &'s dyn Side,
    edge: Edge,
    name: String,
    tally: Cell<Tally>,
}

impl AtEdge<'_> {
    fn new(side: &dyn Side, edge: Edge) -> AtEdge<'_> {
        let end = if edge == Edge::Front { "in front" } else { "behind" };
        let name = format!("{} guarded {end}", side.name());
        AtEdge { side, edge, name, tally: Cell::default() }
    }

    fn count(&self, bytes: usize, number: u8) {
        let mut tally = self.tally.get();
        tally.calls += 1;
        tally.bytes += bytes as u64;
        tally.numbers[usize::from(number)] += 1;
        self.tally.set(tally);
    }
}

impl Side for AtEdge<'_> {
    fn name(&self) -> &str {
        &self.name
    }

    fn reduce(&self, file: &[u8], out: &mut [u8]) -> Reduction {
        let file = Sealed::new(file, self.edge);
        let mut lent = Guarded::new(out, self.edge);
        let reduction = self.side.reduce(file.items(), lent.items_mut());
        out.copy_from_slice(lent.items());
        self.count(file.items().len() + out.len(), reduction.number);
        reduction
    }

    fn list_effects(&self, file: &[u8], entries: &mut [u64]) -> Listing {
        let file = Sealed::new(file, self.edge);
        let mut lent = Guarded::new(entries, self.edge);
        let listing = self.side.list_effects(file.items(), lent.items_mut());
        entries.copy_from_slice(lent.items());
        self.count(file.items().len() + size_of_val(entries), listing.number);
        listing
    }

    fn list_effects_given(&self, file: &[u8], yes: &[u32], entries: &mut [u64]) -> Listing {
        let file = Sealed::new(file, self.edge);
        let yes = Sealed::new(yes, self.edge);
        let mut lent = Guarded::new(entries, self.edge);
        let listing = self.side.list_effects_given(file.items(), yes.items(), lent.items_mut());
        entries.copy_from_slice(lent.items());
        let bytes = file.items().len() + size_of_val(yes.items()) + size_of_val(entries);
        self.count(bytes, listing.number);
        listing
    }

    fn derived(&self, scopes: &[u8], ancestors: &[u8]) -> Answer {
        let [scopes, ancestors] = [scopes, ancestors].map(|list| Sealed::new(list, self.edge));
        let answer = self.side.derived(scopes.items(), ancestors.items());
        let number = if let Answer::Refused(number) = answer { number } else { 0 };
        self.count(scopes.items().len() + ancestors.items().len(), number);
        answer
    }

    /// Under List effects' limits it is that operation, lent nothing; such are asked, too.
    fn check(&self, file: &[u8], limits: Limits) -> Option<u8> {
        if limits != Limits::REDUCE {
            return None;
        }
        let file = Sealed::new(file, self.edge);
        let number = self.side.check(file.items(), limits)?;
        self.count(file.items().len(), number);
        Some(number)
    }
}
