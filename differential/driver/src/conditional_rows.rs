//! Rows of document 02, N1, with their answers: "f(), g() flagged impure calls, x unflagged".

use port::{element, kind, sub};

use crate::rows::{FLAGGED, NO_SYMBOL, Node, f, g, identifier, node, number, sequence, spread, x};

const STRING: u8 = 16;

fn conditional(facts: u8, place: u32, parts: [Node; 3]) -> Node {
    node(kind::CONDITIONAL, facts, 0, place, &parts)
}

fn logical(sub: u8, facts: u8, place: u32, sides: [Node; 2]) -> Node {
    node(kind::LOGICAL, facts, sub, place, &sides)
}

fn not(facts: u8, place: u32, argument: Node) -> Node {
    node(kind::UNARY, facts, sub::NOT, place, &[argument])
}

fn not_x(place: u32) -> Node {
    not(0, place, x(place + 1))
}

/// The words of a row, its tree, and what is left of it.
type Row = (&'static str, Node, Option<Node>);

/// Each outcome of the handler, and conditionals in each other and in every other place.
pub fn rows() -> Vec<Row> {
    [outcomes(), flags(), nested(), standing()].concat()
}

fn outcomes() -> Vec<Row> {
    let kept = |consequent: Node, alternate: Node| {
        conditional(FLAGGED | NO_SYMBOL | STRING, 1, [not_x(2), consequent, alternate]).text(5)
    };
    vec![
        (
            "!x ? f() : 1 leaves !x && f(), the test as it is",
            conditional(FLAGGED, 1, [not_x(2), f(7), number(13)]),
            Some(logical(sub::AND, FLAGGED, 1, [not_x(2), f(7)])),
        ),
        (
            "!x ? 1 : f() leaves !x || f()",
            conditional(FLAGGED | NO_SYMBOL, 1, [not_x(2), number(7), f(13)]).text(5),
            Some(logical(sub::OR, FLAGGED, 1, [not_x(2), f(13)])),
        ),
        (
            "!f() ? 1 : 2 leaves f()",
            conditional(FLAGGED, 1, [not(FLAGGED, 2, f(3)), number(8), number(12)]),
            Some(f(3)),
        ),
        (
            "!x ? 1 : 2 is removable",
            conditional(FLAGGED, 1, [not_x(2), number(7), number(11)]),
            None,
        ),
        ("f() ? f() : g(), unflagged, is removable", conditional(0, 1, [f(1), f(7), g(13)]), None),
        (
            "!x ? (f(), 1) : !g() stays with its facts, text and test, and with reduced arms",
            kept(sequence(FLAGGED, 7, &[f(8), number(13)]), not(FLAGGED, 17, g(18))),
            Some(kept(sequence(FLAGGED, 7, &[f(8)]), g(18))),
        ),
    ]
}

/// The flag of the logical that is made: "set if a child's is".
fn flags() -> Vec<Row> {
    let new_x = || node(kind::NEW, 0, 0, 9, &[x(13)]);
    let not_f = || not(FLAGGED, 1, f(2));
    vec![
        (
            "x ? new x() : 1 leaves a logical that is unflagged, as its test and arm are",
            conditional(FLAGGED, 1, [x(1), new_x(), number(17)]),
            Some(logical(sub::AND, 0, 1, [x(1), new_x()])),
        ),
        (
            "!f() ? new x() : 1 leaves a logical that is flagged, as its test is",
            conditional(FLAGGED, 1, [not_f(), new_x(), number(17)]),
            Some(logical(sub::AND, FLAGGED, 1, [not_f(), new_x()])),
        ),
    ]
}

fn nested() -> Vec<Row> {
    let inner =
        |place: u32| conditional(FLAGGED, place, [x(place), f(place + 4), number(place + 10)]);
    let joined = |place: u32| logical(sub::AND, FLAGGED, place, [x(place), f(place + 4)]);
    let conditional = |parts| conditional(FLAGGED, 10, parts);
    vec![
        (
            "(x ? f() : 1) ? 1 : g() leaves (x ? f() : 1) || g()",
            conditional([inner(11), number(30), g(34)]),
            Some(logical(sub::OR, FLAGGED, 10, [inner(11), g(34)])),
        ),
        (
            "(x ? f() : 1) ? 1 : 2 leaves x && f()",
            conditional([inner(11), number(30), number(34)]),
            Some(joined(11)),
        ),
        (
            "x ? (x ? f() : 1) : 1 leaves x && (x && f()), which is not regrouped",
            conditional([x(10), inner(15), number(34)]),
            Some(logical(sub::AND, FLAGGED, 10, [x(10), joined(15)])),
        ),
        (
            "x ? 1 : (x ? f() : 1) leaves x || (x && f())",
            conditional([x(10), number(14), inner(18)]),
            Some(logical(sub::OR, FLAGGED, 10, [x(10), joined(18)])),
        ),
        (
            "(f(), x) ? 1 : g() leaves (f(), x) || g(), which is not regrouped",
            conditional([sequence(FLAGGED, 11, &[f(11), x(16)]), number(20), g(24)]),
            Some(logical(sub::OR, FLAGGED, 10, [sequence(FLAGGED, 11, &[f(11), x(16)]), g(24)])),
        ),
        (
            "x ? (x ? f() : 1) : g() stays, with x && f()",
            conditional([x(10), inner(15), g(34)]),
            Some(conditional([x(10), joined(15), g(34)])),
        ),
    ]
}

/// `!x ? f() : 1`, flagged, and what is left of it where it is reduced.
fn choice() -> Node {
    conditional(FLAGGED, 20, [not_x(20), f(25), number(30)])
}

fn joined() -> Node {
    logical(sub::AND, FLAGGED, 20, [not_x(20), f(25)])
}

/// Conditionals where other nodes have their children, some of which are not reduced.
fn standing() -> Vec<Row> {
    [in_classes(), in_others()].concat()
}

fn in_classes() -> Vec<Row> {
    let class = |sub: u8, child: Node| node(kind::CLASS, FLAGGED, sub, 10, &[child]);
    let element = |sub: u8, child: Node| node(kind::ELEMENT, 0, sub, 18, &[child]);
    let static_p = element::PROPERTY | element::STATIC | element::VALUE;
    let computed = element::PROPERTY | element::COMPUTED_KEY;
    let clear = conditional(0, 20, [x(20), x(24), x(28)]);
    let extracted = || Some(sequence(FLAGGED, 10, &[choice()]));
    let value = class(0, element(static_p, clear.clone()));
    vec![
        ("as heritage", class(sub::CLASS_HERITAGE, choice()), extracted()),
        ("as computed key", class(0, element(computed, choice())), extracted()),
        ("as static value", value, Some(sequence(0, 10, &[clear]))),
    ]
}

fn in_others() -> Vec<Row> {
    let call = |facts: u8, children: &[Node]| node(kind::CALL, FLAGGED | facts, 0, 10, children);
    let called = call(0, &[choice()]);
    let keyed = node(kind::PROPERTY, 0, sub::KEY_AND_VALUE, 12, &[choice(), number(40)]);
    let string = conditional(NO_SYMBOL | STRING, 20, [x(20), x(24), x(28)]);
    let sum = |left: Node| node(kind::BINARY, FLAGGED, sub::ADDITION, 10, &[left, g(40)]);
    let empty = node(kind::STRING_LITERAL, 18, 0, 20, &[]);
    let test = sequence(FLAGGED, 20, &[f(21), f(26)]);
    let of_test = conditional(FLAGGED, 20, [test, number(32), number(36)]);
    let less = node(kind::BINARY, FLAGGED, sub::COMPARISON, 10, &[of_test, g(40)]);
    vec![
        ("as callee", called.clone(), Some(called)),
        ("as callee of a pure call", call(LISTED, &[choice(), g(40)]), Some(g(40))),
        ("as argument", call(LISTED, &[x(10), choice()]), Some(joined())),
        ("as key", node(kind::OBJECT, FLAGGED, 0, 10, &[keyed]), Some(joined())),
        ("as element", node(kind::ARRAY, FLAGGED, 0, 10, &[choice()]), Some(joined())),
        ("as argument of not", not(FLAGGED, 10, choice()), Some(joined())),
        ("as a string on the left", sum(string), Some(sum(empty))),
        (
            "as a side that leaves its test, a sequence",
            less,
            Some(sequence(FLAGGED, 10, &[f(21), f(26), g(40)])),
        ),
    ]
}

const LISTED: u8 = 64;

fn effect(place: u64, kind: u8) -> u64 {
    place * 512 + u64::from(kind) * 2
}

/// The words of a row, its tree, the places that count as yes, and the effects.
type Listed = (&'static str, Node, Vec<u32>, Vec<u64>);

/// What runs under which list. The conditional itself and the logical itself are no effects.
pub fn effects() -> Vec<Listed> {
    let y = |place: u32| identifier(25, FLAGGED, place);
    let of_y = |place: u64| effect(place, kind::IDENTIFIER);
    let of_call = |place: u64| effect(place, kind::CALL);
    let choice = || conditional(FLAGGED, 1, [not(0, 2, y(3)), f(7), g(13)]);
    let two = |sub: u8| logical(sub, FLAGGED, 1, [not(0, 2, y(3)), f(7)]);
    // (y ? f() : g()) ? f() : g(), with the places that it has in a source: both tests are at 1.
    let inner = || conditional(FLAGGED, 1, [y(1), f(5), g(11)]);
    let outer = || conditional(FLAGGED, 0, [inner(), f(18), g(24)]);
    vec![
        ("no place", choice(), vec![], vec![of_y(3), of_call(13)]),
        ("the test's place", choice(), vec![2], vec![of_y(3), of_call(7)]),
        ("all other places", choice(), vec![3, 7, 13, 1], vec![of_y(3), of_call(13)]),
        ("the test's place twice", choice(), vec![9, 2, 2], vec![of_y(3), of_call(7)]),
        ("and on no", two(sub::AND), vec![1, 3, 7], vec![of_y(3)]),
        ("and on yes", two(sub::AND), vec![2], vec![of_y(3), of_call(7)]),
        ("or on no", two(sub::OR), vec![1, 3, 7], vec![of_y(3), of_call(7)]),
        ("or on yes", two(sub::OR), vec![2], vec![of_y(3)]),
        ("two tests at one place, no", outer(), vec![], vec![of_y(1), of_call(11), of_call(24)]),
        ("two tests at one place, yes", outer(), vec![1], vec![of_y(1), of_call(5), of_call(18)]),
    ]
}

/// The words of a row, its tree, and the numbers of Reduce and of List effects (0: taken).
type Refused = (&'static str, Node, u8, u8);

/// Files that Reduce refuses.
pub fn refused() -> Vec<Refused> {
    [refused_logicals(), refused_conditionals()].concat()
}

fn leaves(count: u32) -> Vec<Node> {
    (0..count).map(|i| x(2 + i)).collect()
}

fn refused_logicals() -> Vec<Refused> {
    let of = |facts: u8, sub: u8, children: &[Node]| node(kind::LOGICAL, facts, sub, 1, children);
    let two = |sub: u8| of(0, sub, &leaves(2));
    let test = node(kind::CONDITIONAL, 1, 0, 1, &[two(sub::AND), x(8), x(9)]);
    vec![
        ("kind 20, sub 0", two(0), 6, 6),
        ("kind 20, sub 1", two(sub::AND), 6, 0),
        ("kind 20, sub 2", two(sub::OR), 6, 0),
        ("kind 20, sub 3", two(3), 5, 5),
        ("kind 20, sub 255", two(255), 5, 5),
        ("kind 20, facts 19", of(19, sub::AND, &leaves(2)), 6, 0),
        ("kind 20, facts 31", of(31, sub::AND, &leaves(2)), 5, 5),
        ("kind 20, facts 32", of(32, sub::AND, &leaves(2)), 5, 5),
        ("kind 20 with one child", of(0, sub::AND, &leaves(1)), 6, 7),
        ("kind 20 with three children", of(0, sub::OR, &leaves(3)), 6, 7),
        ("kind 20 with a spread", of(0, sub::AND, &[x(1), spread(1, 4)]), 6, 7),
        ("kind 20, sub 2 and sub 0", sequence(0, 1, &[two(sub::OR), two(0)]), 6, 6),
        ("kind 20, sub 0 and sub 3", sequence(0, 1, &[two(0), two(3)]), 5, 5),
        ("kind 20 as a test", test, 6, 0),
        ("kind 22", node(kind::ASSIGNMENT, 0, 0, 1, &leaves(1)), 6, 6),
        ("kind 22, sub 1", node(kind::ASSIGNMENT, 0, 1, 1, &leaves(1)), 5, 5),
    ]
}

fn refused_conditionals() -> Vec<Refused> {
    let of = |children: &[Node]| node(kind::CONDITIONAL, FLAGGED, 0, 1, children);
    let headed = |facts: u8, sub: u8| node(kind::CONDITIONAL, facts, sub, 1, &leaves(3));
    let elision = node(kind::ELISION, 0, 0, 5, &[]);
    vec![
        ("kind 21, sub 1", headed(FLAGGED, 1), 5, 5),
        ("kind 21, facts 31", headed(31, 0), 5, 5),
        ("kind 21, facts 32", headed(32, 0), 5, 5),
        ("kind 21 with no child", of(&[]), 7, 7),
        ("kind 21 with two children", of(&leaves(2)), 7, 7),
        ("kind 21 with four children", of(&leaves(4)), 7, 7),
        ("kind 21 with a spread as test", of(&[spread(1, 1), x(8), x(9)]), 7, 7),
        ("kind 21 with a spread as consequent", of(&[x(1), spread(1, 4), x(9)]), 7, 7),
        ("kind 21 with a spread as alternate", of(&[x(1), x(3), spread(1, 5)]), 7, 7),
        ("kind 21 with an elision as arm", of(&[x(1), x(3), elision]), 7, 7),
    ]
}
