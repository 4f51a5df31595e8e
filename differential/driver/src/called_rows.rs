//! Rows of document 02, N5, with their answers and effects: "f() flagged impure call".

use port::{kind, sub};

use crate::rows::{FLAGGED, Node, f, node, spread, x};

/// Bits of the settings.
const ANNOTATIONS: u8 = 1;
const TREE_SHAKE_ONLY: u8 = 2;
const BOTH: u8 = ANNOTATIONS | TREE_SHAKE_ONLY;
/// Bits of a call's facts.
const ANNOTATED: u8 = 32;
const LISTED: u8 = 64;
const SUMMARY_FREE: u8 = 128;

pub struct Row {
    pub words: String,
    pub settings: u8,
    pub tree: Node,
    /// What is left.
    pub left: Node,
    pub effects: Vec<u64>,
}

fn effect(place: u64, kind: u8) -> u64 {
    place * 512 + u64::from(kind) * 2
}

/// A call or `new` at 10, of a callee at 11, with `void f()` at 30 as its argument: `f()` is at 31.
fn called(kind: u8, facts: u8, callee: u8, callee_facts: u8) -> Node {
    let callee = node(callee, callee_facts, 0, 11, &[]);
    node(kind, facts, 0, 10, &[callee, void(30, f(31))])
}

fn void(place: u32, argument: Node) -> Node {
    node(kind::UNARY, FLAGGED, sub::VOID, place, &[argument])
}

const F: u64 = 31 * 512 + 16 * 2;

/// It stays whole, its argument unreduced.
fn stays(words: &str, settings: u8, callee: u8, facts: u8) -> Row {
    let tree = called(kind::CALL, facts, callee, 0);
    let itself = (facts & FLAGGED != 0).then_some(effect(10, kind::CALL));
    let effects = [F].into_iter().chain(itself).collect();
    Row { words: words.to_string(), settings, left: tree.clone(), tree, effects }
}

/// It is pure: its argument, reduced, is left.
fn pure(words: &str, settings: u8, kind: u8, callee: u8, facts: u8) -> Row {
    let tree = called(kind, facts, callee, 0);
    Row { words: words.to_string(), settings, tree, left: f(31), effects: vec![F] }
}

pub fn rows() -> Vec<Row> {
    let mut rows: Vec<Row> = [kind::FUNCTION, kind::ARROW].into_iter().flat_map(of).collect();
    let all = FLAGGED | ANNOTATED | LISTED;
    rows.push(pure("the callee an identifier", BOTH, kind::CALL, kind::IDENTIFIER, all));
    rows.push(pure("summary free", TREE_SHAKE_ONLY, kind::CALL, kind::IDENTIFIER, SUMMARY_FREE));
    rows.extend(placed());
    rows
}

/// Of a function or an arrow.
fn of(callee: u8) -> Vec<Row> {
    let (call, new) = (kind::CALL, kind::NEW);
    let either = ANNOTATED | LISTED;
    let flagged_callee = called(call, LISTED, callee, FLAGGED);
    vec![
        stays("annotated", BOTH, callee, ANNOTATED),
        stays("annotated, flagged", BOTH, callee, FLAGGED | ANNOTATED),
        stays("annotated, derived on", BOTH | 4, callee, ANNOTATED),
        stays("annotated, annotations off", TREE_SHAKE_ONLY, callee, ANNOTATED),
        stays("listed", BOTH, callee, LISTED),
        stays("listed, annotations off", TREE_SHAKE_ONLY, callee, LISTED),
        stays("listed, flagged", TREE_SHAKE_ONLY, callee, FLAGGED | LISTED),
        stays("annotated and listed", BOTH, callee, either),
        stays("annotated and listed, annotations off", TREE_SHAKE_ONLY, callee, either),
        stays("neither", BOTH, callee, 0),
        stays("summary free", BOTH, callee, SUMMARY_FREE),
        pure("annotated, tree-shake-only off", ANNOTATIONS, call, callee, ANNOTATED),
        pure("listed, tree-shake-only off", 0, call, callee, LISTED),
        pure(
            "annotated and listed, flagged, tree-shake-only off",
            5,
            call,
            callee,
            FLAGGED | either,
        ),
        pure("new, annotated", BOTH, new, callee, ANNOTATED),
        pure("new, listed", TREE_SHAKE_ONLY, new, callee, LISTED),
        pure("new, annotated and listed, flagged", BOTH, new, callee, FLAGGED | either),
        Row {
            words: "listed, the callee flagged".to_string(),
            settings: TREE_SHAKE_ONLY,
            left: flagged_callee.clone(),
            tree: flagged_callee,
            effects: vec![effect(11, callee), F],
        },
    ]
}

/// Such a call in other nodes, and with other arguments.
fn placed() -> Vec<Row> {
    let one = || called(kind::CALL, ANNOTATED, kind::ARROW, 0);
    let row = |words: &str, tree: Node, left: Node, effects: Vec<u64>| Row {
        words: words.to_string(),
        settings: BOTH,
        tree,
        left,
        effects,
    };
    let of_arguments = |facts: u8, arguments: &[Node]| {
        let callee = node(kind::FUNCTION, 0, 0, 51, &[]);
        node(kind::CALL, facts, 0, 50, &[&[callee], arguments].concat())
    };
    let in_call = |facts: u8| node(kind::CALL, facts, 0, 5, &[x(5), one()]);
    let in_array = node(kind::ARRAY, FLAGGED, 0, 5, &[one(), x(80)]);
    let of_spread = of_arguments(LISTED, &[spread(0, 60), spread(FLAGGED, 70)]);
    let within = of_arguments(LISTED | FLAGGED, &[one()]);
    let around = [F, effect(50, kind::CALL)];
    vec![
        row("argument of a pure call", in_call(LISTED), one(), vec![F]),
        row("argument of an impure call", in_call(FLAGGED), in_call(FLAGGED), {
            vec![F, effect(5, kind::CALL)]
        }),
        row("element of an array", in_array, one(), vec![F]),
        row("spreads as arguments", of_spread.clone(), of_spread, vec![effect(70, kind::SPREAD)]),
        row("one within another", within.clone(), within, around.to_vec()),
    ]
}
