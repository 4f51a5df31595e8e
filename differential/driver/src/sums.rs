//! All additions in each other, up to three, over strings and other leaves: which of them can be a symbol, and
//! which may say so.

use port::{kind, sub};

use crate::compare::{Comparator, Difference};
use crate::conditionals::{self, Head, Shape};
use crate::damage::Damaged;
use crate::file;
use crate::never_symbol;

/// Alone, in a template, and on the right of a string. Answers with how many trees were taken, and how many
/// refused.
pub fn go(comparator: &mut Comparator) -> Result<(u64, u64), Difference> {
    let (mut taken, mut refused) = (0, 0);
    for sums in [3, 5, 7].into_iter().flat_map(|records| conditionals::forests(1, records)) {
        if sums.iter().any(|&(count, _)| !matches!(count, 0 | 2)) {
            continue;
        }
        let under: Vec<Vec<Head>> = sums.iter().map(|&(count, _)| heads(count)).collect();
        for (above, over) in [(vec![], vec![]), in_template(&sums), right_of_string(&sums)] {
            let shape: Shape = [&above[..], &sums].concat();
            let heads = [&over[..], &under].concat();
            conditionals::each(&heads, &mut |heads| {
                let file = conditionals::assembled(0, &shape, heads);
                let is_taken = tree(comparator, file)?;
                *if is_taken { &mut taken } else { &mut refused } += 1;
                Ok(())
            })?;
        }
    }
    Ok((taken, refused))
}

/// Leaves, and flagged additions of every symbol fact, and such as are recorded as strings.
fn heads(children: usize) -> Vec<Head> {
    match children {
        0 => vec![[kind::STRING_LITERAL, 18, 0], [kind::IDENTIFIER, 0, 0]],
        _ => [1, 3, 5, 19].map(|facts| [kind::BINARY, facts, sub::ADDITION]).to_vec(),
    }
}

/// What stands before the additions: its shape and its heads.
type Above = (Shape, Vec<Vec<Head>>);

fn in_template(sums: &Shape) -> Above {
    (vec![(1, sums.len() + 1)], vec![vec![[kind::TEMPLATE, 1, 0]]])
}

fn right_of_string(sums: &Shape) -> Above {
    let shape = vec![(2, sums.len() + 2), (0, 1)];
    (shape, vec![vec![[kind::BINARY, 1, sub::ADDITION]], vec![[kind::STRING_LITERAL, 18, 0]]])
}

/// Whether the file must be taken, and is.
fn tree(comparator: &mut Comparator, file: Vec<u8>) -> Result<bool, Difference> {
    let named = |seen: Difference| format!("{}{seen}", file::show(&file));
    if never_symbol::bad_additions(&file) == 0 {
        comparator.accepted(&file, 0, &[]).map_err(named)?;
        return Ok(true);
    }
    let due = Damaged::whole(file.clone(), 5, 5);
    comparator.refused(&due, &[]).map_err(named)?;
    Ok(false)
}
