//! Holds the sides to each other and to what document 01 promises of every answer.

use std::iter;

use port::{AnyVersion, Limits};

use crate::agreeing;
use crate::called;
use crate::damage::Damaged;
use crate::end_hits;
use crate::ends;
use crate::file;
use crate::hits::{self, Hits};
use crate::listing_hits;
use crate::logicals;
use crate::oracle::Oracle;
use crate::random::Random;
use crate::recorded;
use crate::side::{Answer, Listing, Reduction, Side};

/// What was seen to differ, or a promise that was not kept.
pub type Difference = String;

pub struct Comparator<'s> {
    /// The first is held to the others.
    sides: &'s [&'s dyn Side],
    oracle: Option<Oracle>,
    /// Accepted files and the first side's answers, for the oracle.
    waiting: (Vec<Vec<u8>>, Vec<Vec<u8>>),
    bytes: Filler<u8>,
    entries: Filler<u64>,
    pub tally: Tally,
}

/// What is in the outputs and entries when they are lent. It changes from place to place and from
/// call to call, so that what a side moves past its answer shows as well as what it writes there,
/// and no answer can be made of what was there.
struct Filler<T>(Vec<T>);

/// More than a run ever lends at once.
const LENT: usize = 1 << 18;

impl<T: Copy> Filler<T> {
    fn new(drawn: impl Fn(u64) -> T) -> Filler<T> {
        let mut random = Random::new(0);
        Filler((0..LENT).map(|_| drawn(random.draw())).collect())
    }

    /// As many as are lent, from another start at each turn.
    fn part(&self, turn: u64, room: usize) -> &[T] {
        let starts = (LENT - room) as u64;
        let start = turn.wrapping_mul(0x9e37_79b9) % starts;
        &self.0[start as usize..][..room]
    }
}

/// What a run has met.
#[derive(Default)]
pub struct Tally {
    /// Single comparisons and promises that held.
    pub checks: u64,
    pub trees: u64,
    pub damaged: u64,
    /// Damaged files that Reduce refused, and those that List effects refused.
    pub refused_reductions: u64,
    pub refused_lists: u64,
    pub oracle_trees: u64,
    /// Of these, those of version 2: their answers have both ends.
    pub oracle_ends: u64,
    /// Trees that were answered in both versions.
    pub both_versions: u64,
    /// Reductions of another side that were held to the first's, refused ones too, and the bytes
    /// lent for them: all are compared, also those after the answer.
    pub reductions: u64,
    pub bytes: u64,
    /// The same for lists and their entries.
    pub lists: u64,
    pub entries: u64,
    /// Files with logicals, for List effects alone.
    pub listed: u64,
    /// Trees whose facts the oracle reads otherwise than document 02: their copies are held to it in their
    /// stead.
    pub left_out: u64,
    /// Of these, those with a call that tree-shake-only keeps before purity (02, N5). The others have one
    /// of the six of unknown symbol (N9), and these may have.
    pub left_out_calls: u64,
    /// Trees, with no place that counts as yes.
    pub premise_true: u64,
    pub premise_false: u64,
    /// Lists of places that count as yes, of all trees.
    pub premise_true_given: u64,
    pub premise_false_given: u64,
    pub removable: u64,
    pub kept: u64,
    /// Refusals met, by number.
    pub refused: [u64; MOST_NUMBER + 1],
    pub hits: Hits,
}

/// The numbers of refusals.
pub const NUMBERS: [u8; 13] = [1, 2, 3, 4, 5, 6, 7, 8, 9, 10, 11, 12, 17];
pub const MOST_NUMBER: usize = 17;

/// How many trees the oracle is asked about at once.
const BATCH: usize = 256;

impl<'s> Comparator<'s> {
    pub fn new(sides: &'s [&'s dyn Side], oracle: Option<Oracle>) -> Self {
        Comparator {
            sides,
            oracle,
            waiting: Default::default(),
            bytes: Filler::new(|drawn| drawn as u8),
            entries: Filler::new(|drawn| drawn),
            tally: Tally::default(),
        }
    }

    /// One check: `held`, or the words that say what was seen.
    fn check(&mut self, held: bool, seen: impl FnOnce() -> String) -> Result<(), Difference> {
        self.tally.checks += 1;
        if held { Ok(()) } else { Err(seen()) }
    }

    /// The file must be accepted, and every promise of document 01 hold of the answer, also under each
    /// of these lists of places that count as yes.
    pub fn accepted(
        &mut self,
        file: &[u8],
        more_room: usize,
        lists: &[Vec<u32>],
    ) -> Result<(), Difference> {
        self.tally.trees += 1;
        self.checked(file, 0, 0)?;
        let (reduction, answer) = self.reduce(file, file::output_room(file) + more_room)?;
        self.not_refused("Reduce", reduction.number)?;
        if answer.is_empty() {
            self.tally.removable += 1;
        } else {
            self.tally.kept += 1;
            self.kept(file, &answer)?;
        }
        let (tree, copy) = (accepted_by_port(file, Limits::REDUCE)?, Agreeing::of(file));
        let marks = tree.outcomes();
        self.tally.hits.add(&hits::of_tree(tree, &marks));
        let same = copy.premises()?;
        for yes in iter::once(None).chain(lists.iter().map(|yes| Some(&yes[..]))) {
            let given = yes.unwrap_or_default();
            if yes.is_some() {
                self.tally.hits.add(&listing_hits::of_list(tree, given));
            }
            let holds = tree.premise(&marks, given);
            self.premise(file, given, holds, same(given))?;
            let effects = self.demand_3(file, &answer, yes, more_room, holds)?;
            self.listed_as_copy(&copy, yes, &effects)?;
        }
        self.reduced_as_copy(answer, &copy)
    }

    /// The two files are one tree in version 1 and in version 2: all answers to the other one are those to
    /// this one, under each of these lists, but for version and ends. "Version 1 is still read and answers
    /// version 1" (02, N6).
    pub fn both_versions(
        &mut self,
        file: &[u8],
        other: &[u8],
        lists: &[Vec<u32>],
    ) -> Result<(), Difference> {
        self.tally.both_versions += 1;
        self.checked(other, 0, 0)?;
        let (reduction, answer) = self.reduce(other, file::output_room(other))?;
        self.not_refused("Reduce", reduction.number)?;
        if !answer.is_empty() {
            self.kept(other, &answer)?;
        }
        let (_, of_file) = self.reduce(file, file::output_room(file))?;
        let same = ends::dropped(&answer) == ends::dropped(&of_file);
        self.check(same, || {
            reduced_otherwise("the same side, asked in the other version,", &answer, &of_file)
        })?;
        let trees =
            (accepted_by_port(file, Limits::REDUCE)?, accepted_by_port(other, Limits::REDUCE)?);
        let marks = (trees.0.outcomes(), trees.1.outcomes());
        for yes in lists {
            let (effects, same) =
                (self.effects_of(other, Some(yes), 0)?, self.effects_of(file, Some(yes), 0)?);
            self.check(effects == same, || {
                format!("under {yes:?} effects {effects:?}, of the other version {same:?}")
            })?;
            let holds = (trees.0.premise(&marks.0, yes), trees.1.premise(&marks.1, yes));
            self.premise(other, yes, holds.1, Some(holds.0))?;
        }
        self.tally.hits.add(&end_hits::of_tree(trees.0, &marks.0));
        self.tally.hits.add(&end_hits::of_tree(trees.1, &marks.1));
        Ok(())
    }

    /// The premise is that of the copy, if that differs from the file, and that of each side that offers
    /// it.
    fn premise(
        &mut self,
        file: &[u8],
        yes: &[u32],
        holds: bool,
        of_copy: Option<bool>,
    ) -> Result<(), Difference> {
        self.check(of_copy.is_none_or(|same| same == holds), || {
            format!("under {yes:?} the premise is {holds}, of the copy {of_copy:?}")
        })?;
        for &side in &self.sides[1..] {
            let (name, theirs) = (side.name(), side.premise(file, yes));
            self.check(theirs.is_none_or(|theirs| theirs == holds), || {
                format!("{name}: under {yes:?} the premise is {theirs:?}, not {holds}")
            })?;
        }
        Ok(())
    }

    /// The effects are those of the copy, and these are as they were by document 01 alone.
    fn listed_as_copy(
        &mut self,
        copy: &Agreeing,
        yes: Option<&[u32]>,
        effects: &[u64],
    ) -> Result<(), Difference> {
        if copy.differs {
            let same = self.effects_of(&copy.file, yes, 0)?;
            self.check(same == effects, || {
                format!("under {yes:?} effects {effects:?}, of the copy {same:?}")
            })?;
        }
        let tree = accepted_by_port(&copy.file, Limits::LIST_EFFECTS)?;
        let before = recorded::effects(tree, yes.unwrap_or_default());
        self.check(before == effects, || {
            format!("under {yes:?} effects {effects:?}, by document 01 {before:?}")
        })
    }

    /// The answer is the copy's, but for the recorded bits themselves. The oracle is asked about the copy.
    fn reduced_as_copy(&mut self, answer: Vec<u8>, copy: &Agreeing) -> Result<(), Difference> {
        if !copy.differs {
            return self.wait_for_oracle(&copy.file, answer);
        }
        self.tally.left_out += 1;
        self.tally.left_out_calls += u64::from(copy.calls);
        let (reduction, of_copy) = self.reduce(&copy.file, file::output_room(&copy.file))?;
        self.not_refused("Reduce", reduction.number)?;
        if !of_copy.is_empty() {
            self.kept(&copy.file, &of_copy)?;
        }
        let same = agreeing::answer(&answer) == agreeing::answer(&of_copy);
        self.check(same, || {
            reduced_otherwise("the same side, asked about the copy,", &of_copy, &answer)
        })?;
        self.wait_for_oracle(&copy.file, of_copy)
    }

    fn not_refused(&mut self, what: &str, number: u8) -> Result<(), Difference> {
        self.check(number == 0, || format!("{what} refuses: {number}"))
    }

    /// List effects must take the file, also under each of these lists, and Reduce refuse it: "Kind 20
    /// ... is read by the effect listing ...; the reducer still refuses it with 6" (02, N1).
    pub fn listed(&mut self, file: &[u8], lists: &[Vec<u32>]) -> Result<(), Difference> {
        self.tally.listed += 1;
        self.checked(file, 6, 0)?;
        let (reduction, _) = self.reduce(file, file::output_room(file))?;
        self.check(reduction.number == 6, || format!("refused by {}, not 6", reduction.number))?;
        let conditionals = logicals::as_conditionals(file);
        let tree = accepted_by_port(file, Limits::LIST_EFFECTS)?;
        let copy = Agreeing::of(file);
        for yes in iter::once(None).chain(lists.iter().map(|yes| Some(&yes[..]))) {
            self.tally.hits.add(&listing_hits::of_list(tree, yes.unwrap_or_default()));
            let effects = self.effects_of(file, yes, 0)?;
            let same = self.effects_of(&conditionals, yes, 0)?;
            let renamed = effects.iter().map(|&entry| logicals::as_conditional(entry));
            self.check(renamed.eq(same.iter().copied()), || {
                format!("under {yes:?} effects {effects:?}, as conditionals {same:?}")
            })?;
            self.listed_as_copy(&copy, yes, &effects)?;
        }
        Ok(())
    }

    /// The sides must answer this file with these bytes; none: removable.
    pub fn answers(&mut self, file: &[u8], expected: &[u8]) -> Result<(), Difference> {
        self.accepted(file, 0, &[])?;
        let (_, answer) = self.reduce(file, file::output_room(file))?;
        self.check(answer == expected, || {
            format!("{}{}", file::show(file), reduced_otherwise("the list", expected, &answer))
        })
    }

    /// The sides must list these effects where these places count as yes.
    pub fn effects(
        &mut self,
        file: &[u8],
        yes: &[u32],
        expected: &[u64],
    ) -> Result<(), Difference> {
        let effects = self.effects_of(file, Some(yes), 0)?;
        self.check(effects == expected, || {
            format!("under {yes:?} effects {effects:?}, not {expected:?}")
        })
    }

    /// What holds of every kept answer: it is a tree file of the same version under the same settings, with
    /// at most 2 × N − 1 records and at most one level more, and the listing takes it. Every node of version
    /// 2 has both ends of one node of the tree.
    fn kept(&mut self, file: &[u8], answer: &[u8]) -> Result<(), Difference> {
        self.check(answer[..6] == file[..6], || "the header is not copied".to_string())?;
        let (before, after) = (file::count(file), file::count(answer));
        let length = file::HEADER + file::width(file) * after;
        self.check(answer.len() == length, || {
            format!("{} bytes for {after} records", answer.len())
        })?;
        self.check(after < 2 * before, || format!("{after} records from {before}"))?;
        self.check(ends::are_of(answer, file), || "a span that the tree has not".to_string())?;
        self.effects_of(answer, None, 0)?;
        let depths = (file::depth(file), file::depth(answer));
        self.check(depths.1 <= depths.0 + 1, || format!("depth {} from {}", depths.1, depths.0))
    }

    /// The effects of a file that the listing takes: under 2 × N of them. None: no list is lent.
    fn effects_of(
        &mut self,
        file: &[u8],
        yes: Option<&[u32]>,
        more_room: usize,
    ) -> Result<Vec<u64>, Difference> {
        let room = 2 * file::count(file);
        let (listing, effects) = self.list(file, yes, room + more_room)?;
        self.not_refused("List effects", listing.number)?;
        self.check(effects.len() < room, || format!("{} entries of {room}", effects.len()))?;
        Ok(effects)
    }

    /// "Demand 3 compares the accepted tree's list with the kept answer's, in length and at every
    /// entry", where each clear flag that was read is true: the premise holds. "For every such list
    /// the effects must be equal" (02, N1). Answers with the tree's.
    fn demand_3(
        &mut self,
        file: &[u8],
        answer: &[u8],
        yes: Option<&[u32]>,
        more_room: usize,
        holds: bool,
    ) -> Result<Vec<u64>, Difference> {
        let before = self.effects_of(file, yes, more_room)?;
        let after = if answer.is_empty() { Vec::new() } else { self.effects_of(answer, yes, 0)? };
        let tally = &mut self.tally;
        *match (yes, holds) {
            (None, true) => &mut tally.premise_true,
            (None, false) => &mut tally.premise_false,
            (Some(_), true) => &mut tally.premise_true_given,
            (Some(_), false) => &mut tally.premise_false_given,
        } += 1;
        self.check(!holds || before == after, || {
            format!("under {yes:?} effects {before:?} become {after:?}")
        })?;
        Ok(before)
    }

    /// The file must be refused by the numbers that its damage calls for, whatever list is lent.
    pub fn refused(&mut self, case: &Damaged, yes: &[u32]) -> Result<(), Difference> {
        self.tally.damaged += 1;
        let (reduction, _) = self.reduce(&case.file, case.output_room)?;
        let (listing, _) = self.list(&case.file, None, case.entry_room)?;
        let (given, _) = self.list(&case.file, Some(yes), case.entry_room)?;
        let seen = (reduction.number, listing.number, given.number);
        let due = (case.reduce(), case.list(), case.list());
        self.check(seen == due, || format!("refused by {seen:?}, where {due:?} is due"))?;
        // 9 and 10 are about what is lent.
        let of_file = |number: u8| if matches!(number, 9 | 10) { 0 } else { number };
        self.checked(&case.file, of_file(due.0), of_file(due.1))?;
        self.tally.refused_reductions += u64::from(due.0 != 0);
        self.tally.refused_lists += u64::from(due.1 != 0);
        self.tally.refused[due.0 as usize] += 1;
        if due.1 != due.0 {
            self.tally.refused[due.1 as usize] += 1;
        }
        case.hits().for_each(|hit| self.tally.hits.hit(hit));
        Ok(())
    }

    /// The sides must answer this file alike; of what number, the first decides.
    pub fn alike(
        &mut self,
        file: &[u8],
        output_room: usize,
        entry_room: usize,
        yes: &[u32],
    ) -> Result<(), Difference> {
        self.reduce(file, output_room)?;
        self.list(file, None, entry_room)?;
        self.list(file, Some(yes), entry_room)?;
        let first = |limits: Limits| self.sides[0].check(file, limits).unwrap_or_default();
        self.checked(file, first(Limits::REDUCE), first(Limits::LIST_EFFECTS))
    }

    /// The check by itself, of the sides that offer it.
    fn checked(&mut self, file: &[u8], reduce: u8, list: u8) -> Result<(), Difference> {
        for &side in self.sides {
            let seen = (side.check(file, Limits::REDUCE), side.check(file, Limits::LIST_EFFECTS));
            let due = (seen.0.map(|_| reduce), seen.1.map(|_| list));
            let name = side.name();
            self.check(seen == due, || format!("{name} checks {seen:?}, where {due:?} is due"))?;
        }
        Ok(())
    }

    /// Every side reduces the file into as many bytes, and all answer alike. Answers with the bytes
    /// written.
    fn reduce(&mut self, file: &[u8], room: usize) -> Result<(Reduction, Vec<u8>), Difference> {
        let mut first: Option<(Reduction, Vec<u8>)> = None;
        for &side in self.sides {
            let filler = self.bytes.part(self.tally.checks, room);
            let mut out = filler.to_vec();
            let reduction = side.reduce(file, &mut out);
            let name = side.name();
            let length = reduction.length;
            let untouched = length <= room && out[length..] == filler[length..];
            self.check(untouched, || format!("{name} wrote past its answer: {reduction:?}"))?;
            out.truncate(reduction.length);
            match &first {
                None => first = Some((reduction, out)),
                Some(other) => {
                    let same = *other == (reduction, out.clone());
                    self.check(same, || {
                        let answers = reduced_otherwise(name, &out, &other.1);
                        format!("{name} {reduction:?}, the first side {:?}: {answers}", other.0)
                    })?;
                    self.tally.reductions += 1;
                    self.tally.bytes += room as u64;
                }
            }
        }
        Ok(first.expect("a side"))
    }

    /// The same for List effects, which is lent a list of places that count as yes, or none.
    fn list(
        &mut self,
        file: &[u8],
        yes: Option<&[u32]>,
        room: usize,
    ) -> Result<(Listing, Vec<u64>), Difference> {
        let mut first: Option<(Listing, Vec<u64>)> = None;
        for &side in self.sides {
            let filler = self.entries.part(self.tally.checks, room);
            let mut entries = filler.to_vec();
            let listing = match yes {
                Some(yes) => side.list_effects_given(file, yes, &mut entries),
                None => side.list_effects(file, &mut entries),
            };
            let name = side.name();
            let count = listing.count;
            let untouched = count <= room && entries[count..] == filler[count..];
            self.check(untouched, || format!("{name} wrote past its list: {listing:?}"))?;
            entries.truncate(listing.count);
            match &first {
                None => first = Some((listing, entries)),
                Some(other) => {
                    let same = *other == (listing, entries.clone());
                    self.check(same, || {
                        format!("{name} answers {listing:?} {entries:?}, not {other:?}")
                    })?;
                    self.tally.lists += 1;
                    self.tally.entries += room as u64;
                }
            }
        }
        Ok(first.expect("a side"))
    }

    /// Every side answers alike.
    pub fn derived(&mut self, scopes: &[u8], ancestors: &[u8]) -> Result<Answer, Difference> {
        let sides = self.sides;
        let first = sides[0].derived(scopes, ancestors);
        for &side in &sides[1..] {
            let answer = side.derived(scopes, ancestors);
            let name = side.name();
            self.check(answer == first, || {
                format!("{name} answers {answer:?} to {scopes:?} {ancestors:?}, not {first:?}")
            })?;
        }
        Ok(first)
    }

    /// Counts a check made outside.
    pub fn hold(&mut self, held: bool, seen: impl FnOnce() -> String) -> Result<(), Difference> {
        self.check(held, seen)
    }

    /// The oracle, if there is one, is asked about many trees at once.
    fn wait_for_oracle(&mut self, file: &[u8], answer: Vec<u8>) -> Result<(), Difference> {
        if self.oracle.is_none() {
            return Ok(());
        }
        self.waiting.0.push(file.to_vec());
        self.waiting.1.push(answer);
        if self.waiting.0.len() == BATCH { self.ask_oracle() } else { Ok(()) }
    }

    /// Asks the oracle about the trees that wait.
    fn ask_oracle(&mut self) -> Result<(), Difference> {
        let (files, answers) = std::mem::take(&mut self.waiting);
        let Some(oracle) = &mut self.oracle else { return Ok(()) };
        let theirs = oracle.reduce(&files).map_err(|error| format!("the oracle: {error}"))?;
        for ((file, ours), theirs) in files.iter().zip(&answers).zip(&theirs) {
            self.tally.oracle_trees += 1;
            self.tally.oracle_ends += u64::from(file::width(file) == file::WIDTH_2);
            self.check(ours == theirs, || {
                let answers = reduced_otherwise("the oracle", theirs, ours);
                format!(
                    "the oracle, asked about the trees up to this one, differs on:\n{}{answers}",
                    file::show(file)
                )
            })?;
        }
        Ok(())
    }

    pub fn oracle(&mut self) -> Option<&mut Oracle> {
        self.oracle.as_mut()
    }

    /// Asks the oracle about the last trees, and ends it.
    pub fn finish(mut self) -> Result<Tally, Difference> {
        if !self.waiting.0.is_empty() {
            self.ask_oracle()?;
        }
        if let Some(oracle) = self.oracle {
            oracle.stop().map_err(|error| error.to_string())?;
        }
        Ok(self.tally)
    }
}

/// The copy of a file, whose facts the oracle reads as document 02 does.
struct Agreeing {
    file: Vec<u8>,
    /// From the file that it was made of.
    differs: bool,
    /// That file has a call which tree-shake-only keeps before purity.
    calls: bool,
}

impl Agreeing {
    fn of(file: &[u8]) -> Agreeing {
        let copy = agreeing::copy(file);
        Agreeing { differs: copy != file, file: copy, calls: !called::calls(file).is_empty() }
    }

    /// The copy's premise under a list, if it differs.
    fn premises(&self) -> Result<impl Fn(&[u32]) -> Option<bool>, Difference> {
        let tree = accepted_by_port(&self.file, Limits::REDUCE)?;
        let marks = self.differs.then(|| tree.outcomes());
        Ok(move |yes: &[u32]| marks.as_ref().map(|marks| tree.premise(marks, yes)))
    }
}

fn accepted_by_port(file: &[u8], limits: Limits) -> Result<AnyVersion<'_>, Difference> {
    port::check(file, limits).map_err(|n| format!("the port refuses: {n}"))
}

fn reduced_otherwise(name: &str, out: &[u8], other: &[u8]) -> String {
    let shown = |file: &[u8]| match file::is_whole(file) {
        _ if file.is_empty() => "nothing\n".to_string(),
        true => file::show(file),
        false => format!("{file:?}\n"),
    };
    format!("{name} answers {}where the first side answers {}", shown(out), shown(other))
}
