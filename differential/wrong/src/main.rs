//! Deliberately wrong ports, each a copy of the port with an edit of a line or two: the driver must
//! find every one. The edits stand apart from the port, so that the port has no hooks for them.
//!
//! `wrong [--trees N] [--seed S] [--oracle PATH]` prints how many trees (each in both versions, with a
//! damaged copy, a copy with logicals, sixteen of the files of every kind with every facts byte in both
//! versions, and two Derived questions) it takes until the wrong port differs from the port; until a promise that holds of
//! every answer is broken, with no other side at hand; where the oracle can see it, until it differs
//! from the oracle; and how many cases of the fixed list it takes. It fails if one is not found by all
//! that its edit names, of which the oracle counts where it is given, or if the port itself is found.
//!
//! `wrong before [--trees N] [--seed S] [--oracle PATH]` holds the port to what it was before called
//! functions under tree-shake-only (02, N5), which is one of the wrong ports: they may differ on a tree that
//! holds such a call, and on no other. The oracle, where it is given, answers these as the port did before.

mod before;

use driver::compare::{Comparator, Difference};
use driver::fixed::Case;
use driver::oracle::Oracle;
use driver::random::Random;
use driver::run::{self, Drawn};
use driver::side::{Answer, Listing, Port, Reduction, Side};
use driver::{agreeing, derived, facts, file, fixed};
use port::Limits;
use std::fmt::{self, Display, Formatter};
use std::panic::{self, AssertUnwindSafe};
use std::process::ExitCode;
use std::{env, io};

pub struct Wrong {
    side: &'static dyn Side,
    why: &'static str,
    /// Its answers to accepted trees or to the Derived question are wrong: the oracle can see it.
    oracle: bool,
    /// The oracle's stored answers, the fixed list, are enough to see it.
    list: bool,
}

macro_rules! wrong {
    ($port:ident, $why:literal, $oracle:literal, $list:literal) => {{
        struct This;

        impl This {
            fn listing(&self, listed: $port::Listed) -> Listing {
                match listed {
                    $port::Listed::Refused(number) => Listing { number, count: 0 },
                    $port::Listed::Count(count) => Listing { number: 0, count },
                }
            }
        }

        impl Side for This {
            fn name(&self) -> &str {
                stringify!($port)
            }

            fn reduce(&self, file: &[u8], out: &mut [u8]) -> Reduction {
                match $port::reduce(file, out) {
                    $port::Reduced::Refused(number) => Reduction { number, length: 0 },
                    $port::Reduced::Removable => Reduction { number: 0, length: 0 },
                    $port::Reduced::Kept(length) => Reduction { number: 0, length },
                }
            }

            fn list_effects(&self, file: &[u8], entries: &mut [u64]) -> Listing {
                self.listing($port::list_effects(file, entries))
            }

            fn list_effects_given(&self, file: &[u8], yes: &[u32], entries: &mut [u64]) -> Listing {
                self.listing($port::list_effects_given(file, yes, entries))
            }

            fn derived(&self, scopes: &[u8], ancestors: &[u8]) -> Answer {
                match $port::derived(scopes, ancestors) {
                    $port::Derived::Yes => Answer::Yes,
                    $port::Derived::No => Answer::No,
                    $port::Derived::Refused(number) => Answer::Refused(number),
                }
            }

            /// Not offered: a wrong check must be found by what the operations answer.
            fn check(&self, _: &[u8], _: Limits) -> Option<u8> {
                None
            }

            fn premise(&self, file: &[u8], yes: &[u32]) -> Option<bool> {
                let tree = $port::check(file, $port::Limits::REDUCE).ok()?;
                Some(tree.premise(&tree.outcomes(), yes))
            }
        }

        Wrong { side: &This, why: $why, oracle: $oracle, list: $list }
    }};
}

include!(concat!(env!("OUT_DIR"), "/all.rs"));

/// The trees to look through.
#[derive(Clone, Copy)]
struct Trees {
    seed: u64,
    count: u64,
}

fn main() -> ExitCode {
    let words: Vec<String> = env::args().collect();
    let value = |name: &str| words.iter().skip_while(|word| *word != name).nth(1);
    let number = |name: &str| value(name).and_then(|text| text.parse().ok());
    let trees =
        Trees { seed: number("--seed").unwrap_or(1), count: number("--trees").unwrap_or(20_000) };
    if words.get(1).is_some_and(|word| word == "before") {
        let oracle = value("--oracle").map(|path| Oracle::start(path).expect("the oracle"));
        return match before::run(before_n5().side, trees, oracle) {
            Ok(()) => ExitCode::SUCCESS,
            Err(seen) => {
                println!("{seen}");
                ExitCode::FAILURE
            }
        };
    }
    let oracle = value("--oracle").map(|path| OracleSays::ask(path, trees).expect("the oracle"));
    let list = fixed::decode(fixed::LIST).expect("the fixed list");
    let against = Against { trees, oracle, list };
    // A panic of a wrong port is a finding, not an event.
    panic::set_hook(Box::new(|_| {}));
    println!("{:>8} {:>8} {:>8} {:>8}", "port", "alone", "oracle", "list");
    let port_passes = against.passes_the_port();
    let all = all();
    let missed: Vec<&Wrong> = all.iter().filter(|wrong| !against.finds(wrong)).collect();
    for wrong in &missed {
        println!("not found: {}", wrong.why);
    }
    println!("wrong ports: {} of {} found", all.len() - missed.len(), all.len());
    if port_passes && missed.is_empty() { ExitCode::SUCCESS } else { ExitCode::FAILURE }
}

/// The port by document 01's purity.
fn before_n5() -> Wrong {
    let is_it = |wrong: &Wrong| wrong.side.name() == "called_purity_first";
    all().into_iter().find(is_it).expect("an edit of that name")
}

/// What the wrong ports are held to, beside the port.
struct Against {
    trees: Trees,
    oracle: Option<OracleSays>,
    list: Vec<Case>,
}

/// How many trees or cases it takes to find a side, where it is found.
struct Found {
    by_port: Option<u64>,
    alone: Option<u64>,
    /// None: the oracle is not asked.
    by_oracle: Option<Option<u64>>,
    by_list: Option<u64>,
}

impl Against {
    fn search(&self, side: &dyn Side, ask_oracle: bool) -> Found {
        let oracle = self.oracle.as_ref().filter(|_| ask_oracle);
        Found {
            by_port: search(&[&Port, side], self.trees),
            alone: search(&[side], self.trees),
            by_oracle: oracle.map(|oracle| oracle.search(side)),
            by_list: search_list(side, &self.list),
        }
    }

    /// All that have to find it do.
    fn finds(&self, wrong: &Wrong) -> bool {
        let found = self.search(wrong.side, wrong.oracle);
        println!("{found}  {}", wrong.why);
        let Found { by_port, by_oracle, by_list, .. } = found;
        by_port.is_some() && by_oracle != Some(None) && (by_list.is_some() || !wrong.list)
    }

    /// None finds the port itself: else what is found says nothing about an edit.
    fn passes_the_port(&self) -> bool {
        let found = self.search(&Port, true);
        println!("{found}  the port itself, which must not be found");
        let Found { by_port, alone, by_oracle, by_list } = found;
        [by_port, alone, by_oracle.flatten(), by_list] == [None; 4]
    }
}

impl Display for Found {
    fn fmt(&self, f: &mut Formatter) -> fmt::Result {
        let shown = |count: Option<u64>| count.map_or("none".to_string(), |n| n.to_string());
        let Found { by_port, alone, by_oracle, by_list } = self;
        let [by_port, alone, by_list] = [by_port, alone, by_list].map(|count| shown(*count));
        let by_oracle = by_oracle.map_or("-".to_string(), shown);
        write!(f, "{by_port:>8} {alone:>8} {by_oracle:>8} {by_list:>8}")
    }
}

/// How many trees it takes until the last side is found wrong; a panic counts.
fn search(sides: &[&dyn Side], trees: Trees) -> Option<u64> {
    let mut comparator = Comparator::new(sides, None);
    let mut random = Random::new(trees.seed);
    first(trees.count, |i| held(&mut comparator, &mut random, trees.seed, i).is_ok())
}

/// The number, from 1, of the first of `count` tries that does not hold; a panic does not.
fn first(count: u64, mut holds: impl FnMut(u64) -> bool) -> Option<u64> {
    let failed = |i: &u64| !panic::catch_unwind(AssertUnwindSafe(|| holds(*i))).unwrap_or(false);
    (0..count).find(failed).map(|i| i + 1)
}

/// How many cases of the fixed list it takes.
fn search_list(side: &dyn Side, list: &[Case]) -> Option<u64> {
    first(list.len() as u64, |i| {
        let case = &list[i as usize];
        reduced(side, &case.file) == case.answer
    })
}

/// So many files of every kind with every facts byte go with a tree, in turn.
const FACTS_FILES: u64 = 16;

/// A tree with its copies, damaged and with logicals, files of every kind with every facts byte, and two
/// Derived questions.
fn held(
    comparator: &mut Comparator,
    random: &mut Random,
    seed: u64,
    i: u64,
) -> Result<(), Difference> {
    run::case(comparator, seed, i)?;
    for number in i * FACTS_FILES..(i + 1) * FACTS_FILES {
        facts::one(comparator, number % facts::FILES)?;
    }
    derived::any(comparator, random)?;
    derived::refused(comparator, random)
}

/// The oracle's answers to copies of the same trees, whose facts it reads as document 02 does, and to as
/// many Derived questions.
struct OracleSays {
    trees: Trees,
    reduced: Vec<Vec<u8>>,
    derived: Vec<(Question, bool)>,
}

/// Scopes and ancestors.
type Question = (Vec<u8>, Vec<u8>);

impl OracleSays {
    fn ask(path: &str, trees: Trees) -> io::Result<OracleSays> {
        let mut oracle = Oracle::start(path)?;
        let copy = |i: u64| agreeing::copy(&run::tree(trees.seed, i).file);
        let files: Vec<Vec<u8>> = (0..trees.count).map(copy).collect();
        let reduced = oracle.reduce(&files)?;
        let mut random = Random::new(trees.seed);
        let questions: Vec<_> = files.iter().map(|_| derived::question(&mut random)).collect();
        let answers = oracle.derived(&questions)?;
        oracle.stop()?;
        Ok(OracleSays { trees, reduced, derived: questions.into_iter().zip(answers).collect() })
    }

    /// How many trees it takes until the side differs from the oracle; on the tree itself, but for the
    /// recorded bits.
    fn search(&self, side: &dyn Side) -> Option<u64> {
        first(self.trees.count, |i| {
            let Drawn { file, .. } = run::tree(self.trees.seed, i);
            let ((scopes, ancestors), yes) = &self.derived[i as usize];
            let (copy, theirs) = (agreeing::copy(&file), &self.reduced[i as usize]);
            reduced(side, &copy) == *theirs
                && agreeing::answer(&reduced(side, &file)) == agreeing::answer(theirs)
                && (side.derived(scopes, ancestors) == Answer::Yes) == *yes
        })
    }
}

/// The side's answer to an accepted file; empty if it is removable.
fn reduced(side: &dyn Side, file: &[u8]) -> Vec<u8> {
    let mut out = vec![0; file::output_room(file)];
    let reduction = side.reduce(file, &mut out);
    out.truncate(reduction.length);
    out
}
