//! The proved library as a side, called through its C functions.

use library::Packed;
use port::Limits;

use crate::side::{Answer, Listing, Reduction, Side};

pub struct Library;

impl Side for Library {
    fn name(&self) -> &str {
        "library"
    }

    fn reduce(&self, file: &[u8], out: &mut [u8]) -> Reduction {
        let reduced = library::reduce(file, out);
        Reduction { number: byte(reduced.number()), length: reduced.value() as usize }
    }

    fn list_effects(&self, file: &[u8], entries: &mut [u64]) -> Listing {
        listing(library::list_effects(file, entries))
    }

    fn list_effects_given(&self, file: &[u8], yes: &[u32], entries: &mut [u64]) -> Listing {
        listing(library::list_effects_given(file, yes, entries))
    }

    fn derived(&self, scopes: &[u8], ancestors: &[u8]) -> Answer {
        match library::derived(scopes, ancestors) {
            0 => Answer::No,
            1 => Answer::Yes,
            number => Answer::Refused(byte(number)),
        }
    }

    /// Under List effects' limits by that operation: with nothing lent, 10 is due of every file that
    /// passes the check, and nothing else is done.
    fn check(&self, file: &[u8], limits: Limits) -> Option<u8> {
        if limits == Limits::REDUCE {
            return Some(byte(library::check(file)));
        }
        match byte(library::list_effects(file, &mut []).number()) {
            10 => Some(0),
            number => Some(number),
        }
    }
}

fn listing(listed: Packed) -> Listing {
    Listing { number: byte(listed.number()), count: listed.value() as usize }
}

/// A refusal's number.
fn byte(number: u64) -> u8 {
    u8::try_from(number).expect("a refusal's number is a byte")
}
