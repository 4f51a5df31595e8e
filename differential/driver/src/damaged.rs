//! Damaged files for a reader in another language, which must find what was done to each.
//!
//! A file stands behind six bytes, numbers lowest byte first: its length in two; in one the number with
//! which the port's check refuses it under Reduce's limits, or 0; in one how many faults were put into it;
//! in two the record whose damage it is refused for, or 65535 if it is for none. A file that is too deep or
//! has too many records has one fault and no damaged record. What is lent is no part of a file: one that was
//! only lent too little has no fault.

use std::io::{self, Write};

use port::Limits;

use crate::damage::{self, Damaged};
use crate::run::{self, Drawn};

/// Stands where no record was damaged.
const NONE: u16 = 65_535;

/// So many files of this seed, less those whose length does not go into two bytes.
pub fn write(out: &mut impl Write, files: u64, seed: u64) -> io::Result<()> {
    for i in 0..files {
        let Drawn { file, mut random, .. } = run::tree(seed, i);
        let case = damage::damaged(&mut random, &file);
        if let Ok(length) = u16::try_from(case.file.len()) {
            let number = port::check(&case.file, Limits::REDUCE).err().unwrap_or(0);
            out.write_all(&length.to_le_bytes())?;
            out.write_all(&[number, case.faults])?;
            out.write_all(&record(&case, number).to_le_bytes())?;
            out.write_all(&case.file)?;
        }
    }
    Ok(())
}

/// Numbers 5 to 7, and 17, are those of records.
fn record(case: &Damaged, number: u8) -> u16 {
    match case.touched {
        Some(i) if matches!(number, 5..=7 | 17) => i as u16,
        _ => NONE,
    }
}
