//! Rows of document 02, N9, with their answers: "f(), g() flagged impure calls, x unflagged".

use port::{Limits, kind, sub};

use crate::file;
use crate::never_symbol;
use crate::random::Random;
use crate::rows::{FLAGGED, Node, f, identifier, node, sequence, x};
use crate::trees;

/// Symbol facts, at their bits.
const UNKNOWN: u8 = 0;
const NO: u8 = 2;
const YES: u8 = 4;
const BAD: u8 = 6;

fn literal(text: u32, place: u32) -> Node {
    node(kind::STRING_LITERAL, 18, 0, place, &[]).text(text)
}

fn sum(facts: u8, place: u32, left: Node, right: Node) -> Node {
    node(kind::BINARY, facts, sub::ADDITION, place, &[left, right])
}

fn template(facts: u8, place: u32, children: &[Node]) -> Node {
    node(kind::TEMPLATE, facts, 0, place, children)
}

fn minus(facts: u8, place: u32) -> Node {
    node(kind::UNARY, facts, sub::OTHER_UNARY, place, &[x(place + 1)])
}

/// A left side that can be a symbol, and a right side that is a string by its parts alone.
fn right_part(facts: u8, place: u32) -> Node {
    sum(facts, place, x(place), sum(0, place + 5, x(place + 5), literal(3, place + 9)))
}

/// A left side that is recorded as a string, and has no part that is.
fn left_string(facts: u8, place: u32) -> Node {
    sum(facts, place, sum(18, place, x(place), x(place + 4)), x(place + 8))
}

/// One of the six with these facts, whose parts are at 30 and behind.
type Six = (&'static str, fn(u8, Node) -> Node);

const SIX: [Six; 6] = [
    ("void", |facts, part| node(kind::UNARY, facts, sub::VOID, 25, &[part])),
    ("not", |facts, part| node(kind::UNARY, facts, sub::NOT, 25, &[part])),
    ("typeof", |facts, part| node(kind::UNARY, facts, sub::TYPEOF, 25, &[part])),
    ("a comparison", |facts, part| node(kind::BINARY, facts, sub::COMPARISON, 25, &[part, x(40)])),
    ("a template", |facts, part| template(facts, 25, &[part]).text(7)),
    ("an addition", |facts, part| sum(facts, 25, part, literal(7, 40))),
];

const TEMPLATE: usize = 4;
const ADDITION: usize = 5;

/// The words of a row, its tree, and what is left of it.
type Row = (String, Node, Option<Node>);

/// Each of the six, of unknown symbol and of none, in a template and on either side of an addition; and
/// what is none of them.
pub fn rows() -> Vec<Row> {
    let six = (0..6).flat_map(|at| [UNKNOWN, NO].map(|symbol| of_six(at, symbol)));
    six.flatten().chain(others()).collect()
}

fn of_six(at: usize, symbol: u8) -> Vec<Row> {
    let (name, made) = SIX[at];
    let clear = || made(symbol, x(30).no_symbol_if(at == TEMPLATE));
    let is_string = at == ADDITION;
    // What is left where the literal is the left side's, and where it is the right one.
    let emptied = |left: Node| sum(FLAGGED, 10, left, literal(0, 50));
    let call = |left: Node| sum(FLAGGED, 9, left, f(60));
    vec![
        (format!("{name} in a template"), template(FLAGGED, 10, &[clear()]), None),
        in_template(at, symbol),
        (format!("{name} right of a string"), sum(FLAGGED, 10, literal(5, 10), clear()), None),
        (
            format!("{name} right of a string that is a left side"),
            call(sum(FLAGGED, 10, literal(5, 10), clear())),
            Some(call(literal(0, 10))),
        ),
        (
            format!("{name} left of a string"),
            sum(FLAGGED, 10, clear(), literal(5, 50)),
            (!is_string).then(|| emptied(clear())),
        ),
        (
            format!("{name} left of a string that is a left side"),
            call(sum(FLAGGED, 10, clear(), literal(5, 50))),
            Some(call(if is_string { literal(0, 25) } else { emptied(clear()) })),
        ),
    ]
}

/// Behind a possible symbol, with `f()` in it.
fn in_template(at: usize, symbol: u8) -> Row {
    let (name, made) = SIX[at];
    let s = identifier(19, 0, 13);
    let call = f(30).no_symbol_if(at == TEMPLATE);
    let tree = template(FLAGGED, 10, &[s.clone(), made(FLAGGED | symbol, call.clone())]).text(9);
    let is_string = at == ADDITION;
    let left = if is_string { sum(FLAGGED | symbol, 25, call, literal(0, 40)) } else { call };
    let before = template(FLAGGED, if is_string { 25 } else { 30 }, &[s]);
    (
        format!("{name} in a template behind a possible symbol"),
        tree,
        Some(sequence(FLAGGED, 10, &[before, left])),
    )
}

/// What waits in a template, and stays on the right of a string.
fn others() -> Vec<Row> {
    let waits = [
        ("other unary", minus(UNKNOWN, 25)),
        ("other unary that is a symbol", minus(YES, 25)),
        ("an addition without a string part", sum(UNKNOWN, 25, x(25), x(29))),
        ("an addition without a string part that is a symbol", sum(YES, 25, x(25), x(29))),
        ("an addition with a left one that is recorded as a string", left_string(UNKNOWN, 25)),
        ("the same that is a symbol", left_string(YES, 25)),
        ("a + (b + \"s\")", right_part(UNKNOWN, 25)),
        ("a + (b + \"s\") that is a symbol", right_part(YES, 25)),
    ];
    let rows = waits.into_iter().flat_map(|(name, waits)| {
        let whole = template(FLAGGED, 10, std::slice::from_ref(&waits));
        let right = |text| sum(FLAGGED, 10, literal(text, 10), waits.clone());
        [
            (format!("{name} in a template"), whole.clone(), Some(whole.clone())),
            (format!("{name} in a template with text"), whole.clone().text(9), Some(whole)),
            (format!("{name} right of a string"), right(5), Some(right(0))),
        ]
    });
    rows.collect()
}

/// The words of a row, its tree and its effects.
type Listed = (String, Node, Vec<u64>);

/// Each of the six of unknown symbol, with a flagged part, and what is none of them.
pub fn effects() -> Vec<Listed> {
    let entry = |place: u64, kind: u8, coercion: u64| place * 512 + u64::from(kind) * 2 + coercion;
    let y = || identifier(25, FLAGGED, 30);
    let mut rows = Vec::new();
    for (at, (name, made)) in SIX.into_iter().enumerate() {
        // In a typeof of an identifier nothing is listed; in a template it is a possible symbol itself.
        let coerced = (at == TEMPLATE).then(|| entry(30, kind::IDENTIFIER, 1));
        let of_y = (at != 2).then(|| entry(30, kind::IDENTIFIER, 0));
        let of_sum = (at == ADDITION).then(|| entry(30, kind::IDENTIFIER, 1));
        let due: Vec<u64> = of_y.into_iter().chain(coerced).chain(of_sum).collect();
        let six = || made(UNKNOWN, y());
        rows.extend([
            (format!("{name} in a template"), template(0, 10, &[six()]), due.clone()),
            (format!("{name} right of a string"), sum(0, 10, literal(5, 10), six()), due.clone()),
            (format!("{name} left of a string"), sum(0, 10, six(), literal(5, 50)), due),
        ]);
    }
    let waits = [minus(0, 25), minus(YES, 25), sum(YES, 25, x(25), x(29)), right_part(0, 25)];
    let parts: [&[u64]; 4] = [&[], &[], &[], &[entry(30, kind::IDENTIFIER, 1)]];
    for ((waits, parts), kind) in waits.into_iter().zip(parts).zip([14, 14, 15, 15]) {
        let due = [parts, &[entry(25, kind, 1)]].concat();
        rows.push((
            "coerced".to_string(),
            template(0, 10, std::slice::from_ref(&waits)),
            due.clone(),
        ));
        rows.push(("coerced".to_string(), sum(0, 10, literal(5, 10), waits), due));
    }
    rows
}

/// The words of a row, its file, and the numbers of Reduce and of List effects (0: taken).
type Refused = (String, Vec<u8>, u8, u8);

/// Files in which one of the six is said to be a symbol, beside other faults.
pub fn refused() -> Vec<Refused> {
    let mut rows = Vec::new();
    for (name, made) in SIX {
        let bad = |facts: u8| made(facts, x(30));
        rows.push((format!("{name} that is a symbol"), bad(YES).file(), 5, 5));
        rows.push((format!("{name} of symbol 3"), bad(BAD).file(), 5, 5));
        rows.push((format!("{name}: string yes, symbol unknown"), bad(16).file(), 5, 5));
    }
    rows.extend(beside_others());
    rows.extend(chains());
    rows
}

fn beside_others() -> Vec<Refused> {
    let not = |facts: u8| SIX[1].1(facts, x(30));
    let addition = || SIX[ADDITION].1(YES, x(30));
    let logical = |sub: u8| node(kind::LOGICAL, 0, sub, 1, &[x(1), x(5)]);
    let misshapen = || node(kind::CONDITIONAL, 0, 0, 1, &[x(1)]);
    let both = |first: Node, second: Node| sequence(0, 0, &[first, second]).file();
    let strings = sum(YES, 0, node(kind::LOGICAL, 18, sub::OR, 0, &[x(1), x(5)]), x(9));
    vec![
        ("a not before a kind 22".into(), both(not(YES), node(22, 0, 0, 1, &[x(2)])), 5, 5),
        ("a not behind a wrong shape".into(), both(misshapen(), not(YES)), 5, 5),
        ("an addition before an or".into(), both(addition(), logical(sub::OR)), 6, 5),
        ("an addition behind a kind 20 of sub 0".into(), both(logical(0), addition()), 6, 6),
        ("an addition before a wrong shape".into(), both(addition(), misshapen()), 7, 7),
        ("an addition behind a wrong shape".into(), both(misshapen(), addition()), 7, 7),
        ("an addition behind a bad not".into(), both(not(BAD), addition()), 5, 5),
        ("an or that is a string, left of an addition".into(), strings.file(), 6, 5),
    ]
}

/// Chains of additions: so many, which of them says that it is a symbol (1 is the top), which leaf is a
/// string, and the numbers.
fn chains() -> Vec<Refused> {
    let (reduce, list) = (Limits::REDUCE.depth, Limits::LIST_EFFECTS.depth);
    let (long, longest) = ((Limits::REDUCE.records - 1) / 2, Limits::LIST_EFFECTS.records / 2);
    let mut rows = Vec::new();
    for (additions, deep) in [
        (reduce - 1, [0, 0]),
        (reduce, [8, 0]),
        (list, [8, 8]),
        (list + 200, [8, 8]),
        (long, [8, 8]),
        (longest, [4, 8]),
    ] {
        let refused = if deep[0] == 4 { [4, 5] } else { [5, 5] };
        let middle = additions / 2;
        let mut row = |yes: usize, string: usize, due: [u8; 2]| {
            let words = format!("of {additions} additions {yes} a symbol, leaf {string} a string");
            rows.push((words, chain(additions, yes, string), due[0], due[1]));
        };
        for yes in [1, 2, middle, additions] {
            row(yes, additions, refused);
            row(yes, yes, refused);
            row(yes, yes - 1, deep);
            row(yes, 0, deep);
        }
        row(middle, middle + 1, refused);
    }
    rows
}

/// Of leaf 0 there is none.
fn chain(additions: usize, yes: usize, string: usize) -> Vec<u8> {
    let mut file = trees::chain_file(&mut Random::new(1), additions, &[string]);
    never_symbol::record_yes(file::record_mut(&mut file, yes - 1));
    file
}
