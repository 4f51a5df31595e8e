//! A side: one implementation of document 01's operations, called in this process.
//!
//! The port is one, and the proved library another (`library`). A further one joins by implementing
//! `Side` and joining the port in `SIDES` of `main.rs`. The oracle is no side: it is asked for its
//! answers to accepted trees alone (`oracle`).

use port::{Limits, Listed, Reduced};

/// Number 0: not refused. Length 0: refused or removable.
#[derive(Clone, Copy, Debug, PartialEq, Eq)]
pub struct Reduction {
    pub number: u8,
    pub length: usize,
}

/// Number 0: not refused.
#[derive(Clone, Copy, Debug, PartialEq, Eq)]
pub struct Listing {
    pub number: u8,
    pub count: usize,
}

#[derive(Clone, Copy, Debug, PartialEq, Eq)]
pub enum Answer {
    Yes,
    No,
    Refused(u8),
}

pub trait Side {
    fn name(&self) -> &str;

    fn reduce(&self, file: &[u8], out: &mut [u8]) -> Reduction;

    fn list_effects(&self, file: &[u8], entries: &mut [u64]) -> Listing;

    /// The same where the places in `yes` count as yes.
    fn list_effects_given(&self, file: &[u8], yes: &[u32], entries: &mut [u64]) -> Listing;

    fn derived(&self, scopes: &[u8], ancestors: &[u8]) -> Answer;

    /// Refusals 1 to 8 and 17 (0: accepted), if the side offers the check by itself.
    fn check(&self, file: &[u8], limits: Limits) -> Option<u8>;

    /// The premise of demand 3 under this list, if the side offers it; the port's is what it is held to.
    fn premise(&self, _file: &[u8], _yes: &[u32]) -> Option<bool> {
        None
    }
}

pub struct Port;

impl Side for Port {
    fn name(&self) -> &str {
        "port"
    }

    fn reduce(&self, file: &[u8], out: &mut [u8]) -> Reduction {
        match port::reduce(file, out) {
            Reduced::Refused(number) => Reduction { number, length: 0 },
            Reduced::Removable => Reduction { number: 0, length: 0 },
            Reduced::Kept(length) => Reduction { number: 0, length },
        }
    }

    fn list_effects(&self, file: &[u8], entries: &mut [u64]) -> Listing {
        listing(port::list_effects(file, entries))
    }

    fn list_effects_given(&self, file: &[u8], yes: &[u32], entries: &mut [u64]) -> Listing {
        listing(port::list_effects_given(file, yes, entries))
    }

    fn derived(&self, scopes: &[u8], ancestors: &[u8]) -> Answer {
        match port::derived(scopes, ancestors) {
            port::Derived::Yes => Answer::Yes,
            port::Derived::No => Answer::No,
            port::Derived::Refused(number) => Answer::Refused(number),
        }
    }

    fn check(&self, file: &[u8], limits: Limits) -> Option<u8> {
        Some(port::check(file, limits).err().unwrap_or(0))
    }
}

fn listing(listed: Listed) -> Listing {
    match listed {
        Listed::Refused(number) => Listing { number, count: 0 },
        Listed::Count(count) => Listing { number: 0, count },
    }
}
