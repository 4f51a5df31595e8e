//! The Derived question over all short lists.

use crate::compare::{Comparator, Difference};
use crate::random::Random;
use crate::side::Answer;

/// All lists over the bytes 0 to `most`, of lengths 0 to `length`.
fn lists(most: u8, length: usize) -> Vec<Vec<u8>> {
    let mut all = vec![vec![]];
    let mut last = vec![vec![]];
    for _ in 0..length {
        last = last
            .iter()
            .flat_map(|list: &Vec<u8>| {
                (0..=most).map(move |byte| list.iter().copied().chain([byte]).collect())
            })
            .collect();
        all.extend(last.iter().cloned());
    }
    all
}

/// All scope lists to length 3 with all ancestor lists to length 5. Answers with their number.
pub fn all(comparator: &mut Comparator) -> Result<u64, Difference> {
    let (scope_lists, ancestor_lists) = (lists(7, 3), lists(4, 5));
    for scopes in &scope_lists {
        let mut questions = Vec::with_capacity(ancestor_lists.len());
        let mut answers = Vec::with_capacity(ancestor_lists.len());
        for ancestors in &ancestor_lists {
            let yes = restated(scopes, ancestors);
            ask(comparator, scopes, ancestors, if yes { Answer::Yes } else { Answer::No })?;
            questions.push((scopes.clone(), ancestors.clone()));
            answers.push(yes);
        }
        compare_with_oracle(comparator, &questions, &answers)?;
    }
    Ok((scope_lists.len() * ancestor_lists.len()) as u64)
}

/// The sides must all answer what is due.
fn ask(
    comparator: &mut Comparator,
    scopes: &[u8],
    ancestors: &[u8],
    due: Answer,
) -> Result<(), Difference> {
    let answer = comparator.derived(scopes, ancestors)?;
    comparator.hold(answer == due, || {
        format!("{scopes:?} {ancestors:?}: {answer:?}, where {due:?} is due")
    })
}

fn compare_with_oracle(
    comparator: &mut Comparator,
    questions: &[(Vec<u8>, Vec<u8>)],
    answers: &[bool],
) -> Result<(), Difference> {
    let Some(oracle) = comparator.oracle() else { return Ok(()) };
    let theirs = oracle.derived(questions).map_err(|error| format!("the oracle: {error}"))?;
    for (i, question) in questions.iter().enumerate() {
        comparator.hold(answers[i] == theirs[i], || {
            format!("{question:?}: the oracle answers {}", theirs[i])
        })?;
    }
    Ok(())
}

/// Document 01's rule said another way: the first scope that is neither block nor arrow is a
/// constructor; and among the ancestors before the first field or accessor value, the first class
/// body after a constructor method has a heritage.
fn restated(scopes: &[u8], ancestors: &[u8]) -> bool {
    let deciding = scopes.iter().find(|&&scope| scope & 3 == 0);
    let before_value = ancestors.split(|&ancestor| ancestor == 1).next().unwrap_or(&[]);
    let mut after_constructor = before_value.iter().skip_while(|&&ancestor| ancestor != 2);
    let body = after_constructor.find(|&&ancestor| ancestor >= 3);
    deciding == Some(&4) && body == Some(&4)
}

/// Lists of accepted bytes.
pub fn question(random: &mut Random) -> (Vec<u8>, Vec<u8>) {
    (list(random, 8, 3), list(random, 5, 5))
}

/// A random question of accepted bytes.
pub fn any(comparator: &mut Comparator, random: &mut Random) -> Result<(), Difference> {
    let (scopes, ancestors) = question(random);
    let yes = restated(&scopes, &ancestors);
    ask(comparator, &scopes, &ancestors, if yes { Answer::Yes } else { Answer::No })
}

/// A question with refused bytes: "11 a scope byte over 7; 12 an ancestor byte over 4."
pub fn refused(comparator: &mut Comparator, random: &mut Random) -> Result<(), Difference> {
    let (mut scopes, mut ancestors) = question(random);
    let way = random.between(1, 3);
    if way & 1 != 0 {
        let at = random.between(0, scopes.len());
        scopes.insert(at, random.between(8, 255) as u8);
    }
    if way & 2 != 0 {
        let at = random.between(0, ancestors.len());
        ancestors.insert(at, random.between(5, 255) as u8);
    }
    let number = if way & 1 != 0 { 11 } else { 12 };
    comparator.tally.refused[usize::from(number)] += 1;
    ask(comparator, &scopes, &ancestors, Answer::Refused(number))
}

fn list(random: &mut Random, bound: usize, most: usize) -> Vec<u8> {
    (0..random.between(0, most)).map(|_| random.below(bound) as u8).collect()
}
