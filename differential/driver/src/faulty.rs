//! The port with a fault added, which the guards or the comparison must find. Each runs in a process of its
//! own, as a guard ends it.

use std::env;
use std::os::unix::process::ExitStatusExt;
use std::process::{Command, Stdio};

use library::fault;
use port::Limits;

use crate::compare::Difference;
use crate::side::{Answer, Listing, Port, Reduction, Side};

const SIGSEGV: i32 = 11;

/// Does with one thing that an operation is lent what it may not, then answers as the port does.
#[derive(Debug)]
pub struct Faulty(Operation, Lent, Touch);

#[derive(Clone, Copy, Debug, PartialEq, Eq)]
enum Operation {
    Check,
    Reduce,
    ListEffects,
    ListEffectsGiven,
    Derived,
}

#[derive(Clone, Copy, Debug, PartialEq, Eq)]
enum Lent {
    First,
    Second,
    /// The places that count as yes, which only `ListEffectsGiven` is lent.
    Yes,
}

#[derive(Clone, Copy, Debug, PartialEq, Eq)]
enum Touch {
    ReadBefore,
    ReadBehind,
    WriteLast,
}

const TOUCHES: [Touch; 3] = [Touch::ReadBefore, Touch::ReadBehind, Touch::WriteLast];

/// Those that are lent two things or more.
const OPERATIONS: [Operation; 4] =
    [Operation::Reduce, Operation::ListEffects, Operation::ListEffectsGiven, Operation::Derived];

/// Every fault, each under its number. The check is lent the file alone.
pub fn faults() -> Vec<Faulty> {
    let mut faults = Vec::new();
    for operation in OPERATIONS {
        for lent in [Lent::First, Lent::Second] {
            faults.extend(TOUCHES.map(|touch| Faulty(operation, lent, touch)));
        }
    }
    let given = Operation::ListEffectsGiven;
    for (operation, lent) in [(Operation::Check, Lent::First), (given, Lent::Yes)] {
        faults.extend(TOUCHES.map(|touch| Faulty(operation, lent, touch)));
    }
    faults
}

/// Runs `driver damage --fault N` for every fault; each must end as it has to. Answers with how many a
/// guard ended, and how many were found to differ.
pub fn all_are_found() -> Result<(u64, u64), Difference> {
    let driver = env::current_exe().map_err(|error| error.to_string())?;
    let (mut ended, mut different) = (0, 0);
    for (number, faulty) in faults().iter().enumerate() {
        let mut child = Command::new(&driver);
        child.args(["damage", "--fault", &number.to_string()]);
        child.stdout(Stdio::null()).stderr(Stdio::null());
        let status = child.status().map_err(|error| error.to_string())?;
        match (status.signal(), status.code()) {
            (Some(SIGSEGV), _) if !faulty.may_write() => ended += 1,
            (_, Some(1)) if faulty.may_write() => different += 1,
            _ => return Err(format!("the guards do not work: {faulty:?} ends with {status}")),
        }
    }
    Ok((ended, different))
}

impl Faulty {
    /// An output or an entry list may be written to, but the last of it must keep what it held.
    fn may_write(&self) -> bool {
        let Faulty(operation, lent, touch) = *self;
        operation != Operation::Derived && lent == Lent::Second && touch == Touch::WriteLast
    }

    fn touch<T>(&self, operation: Operation, first: &[u8], second: &[T], yes: &[u32]) {
        if self.0 == operation {
            match self.1 {
                Lent::First => self.2.touch(first),
                Lent::Second => self.2.touch(second),
                Lent::Yes => self.2.touch(yes),
            }
        }
    }
}

impl Touch {
    fn touch<T>(self, lent: &[T]) {
        match self {
            Touch::ReadBefore => fault::read_before(lent),
            Touch::ReadBehind => fault::read_behind(lent),
            Touch::WriteLast => fault::write_last(lent),
        }
    }
}

impl Side for Faulty {
    fn name(&self) -> &str {
        "port with a fault"
    }

    fn reduce(&self, file: &[u8], out: &mut [u8]) -> Reduction {
        self.touch(Operation::Reduce, file, out, &[]);
        Port.reduce(file, out)
    }

    fn list_effects(&self, file: &[u8], entries: &mut [u64]) -> Listing {
        self.touch(Operation::ListEffects, file, entries, &[]);
        Port.list_effects(file, entries)
    }

    fn list_effects_given(&self, file: &[u8], yes: &[u32], entries: &mut [u64]) -> Listing {
        self.touch(Operation::ListEffectsGiven, file, entries, yes);
        Port.list_effects_given(file, yes, entries)
    }

    fn derived(&self, scopes: &[u8], ancestors: &[u8]) -> Answer {
        self.touch(Operation::Derived, scopes, ancestors, &[]);
        Port.derived(scopes, ancestors)
    }

    fn check(&self, file: &[u8], limits: Limits) -> Option<u8> {
        self.touch::<u8>(Operation::Check, file, &[], &[]);
        Port.check(file, limits)
    }
}
