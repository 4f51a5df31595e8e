//! Rows of document 02, N6, with their answers: "f(), g() flagged impure calls, x unflagged". Each node has
//! a start and an end of its own.

use std::slice;

use port::{Limits, element, kind, sub};

use crate::damage::Damaged;
use crate::ends;
use crate::file;
use crate::random::Random;
use crate::rows::{self, FLAGGED, Node, identifier, node, number, sequence};
use crate::trees;

const LISTED: u8 = 64;

fn call(name: u32, start: u32, end: u32) -> Node {
    let callee = identifier(name, 0, start).to(start + 1);
    node(kind::CALL, FLAGGED, 0, start, &[callee]).to(end)
}

fn f(start: u32, end: u32) -> Node {
    call(6, start, end)
}

fn g(start: u32, end: u32) -> Node {
    call(7, start, end)
}

fn x(start: u32) -> Node {
    rows::x(start).to(start + 1)
}

fn one(start: u32) -> Node {
    number(start).to(start + 1)
}

fn literal(text: u32, start: u32, end: u32) -> Node {
    node(kind::STRING_LITERAL, 18, 0, start, &[]).text(text).to(end)
}

fn spread(facts: u8, start: u32, end: u32) -> Node {
    node(kind::SPREAD, facts, 0, start, &[x(start + 3)]).to(end)
}

fn void(start: u32, end: u32, argument: Node) -> Node {
    node(kind::UNARY, FLAGGED, sub::VOID, start, &[argument]).to(end)
}

fn sum(start: u32, end: u32, left: Node, right: Node) -> Node {
    node(kind::BINARY, FLAGGED, sub::ADDITION, start, &[left, right]).to(end)
}

fn less(start: u32, end: u32, left: Node, right: Node) -> Node {
    node(kind::BINARY, FLAGGED, sub::COMPARISON, start, &[left, right]).to(end)
}

fn conditional(start: u32, end: u32, parts: [Node; 3]) -> Node {
    node(kind::CONDITIONAL, FLAGGED, 0, start, &parts).to(end)
}

fn list(kind: u8, facts: u8, start: u32, end: u32, children: &[Node]) -> Node {
    node(kind, facts, 0, start, children).to(end)
}

/// The words of a row, its tree, and what is left of it.
type Row = (&'static str, Node, Node);

/// Each kind of made node, and nodes that stay.
pub fn rows() -> Vec<Row> {
    [sequences(), templates_and_objects(), literals(), others(), kept()].concat()
}

/// "Place that of the node rewritten."
fn sequences() -> Vec<Row> {
    let made = |children: &[Node]| sequence(FLAGGED, 10, children).to(70);
    let two = [f(20, 29), g(31, 43)];
    let pure = |kind: u8| {
        let arguments = [x(10), two[0].clone(), two[1].clone(), x(50)];
        list(kind, FLAGGED | LISTED, 10, 70, &arguments)
    };
    let of_two = sequence(FLAGGED, 11, &two).to(45);
    vec![
        ("[f(), g()]", list(kind::ARRAY, FLAGGED, 10, 70, &two), made(&two)),
        ("a listed call of f() and g()", pure(kind::CALL), made(&two)),
        ("a listed new of f() and g()", pure(kind::NEW), made(&two)),
        ("f() < g()", less(10, 70, two[0].clone(), two[1].clone()), made(&two)),
        (
            "(f(), g()) < f(): the left one is made anew",
            less(10, 70, of_two.clone(), f(50, 59)),
            made(&[two[0].clone(), two[1].clone(), f(50, 59)]),
        ),
        (
            "f() < (f(), g()): the right one is gone",
            less(10, 70, f(10, 13), of_two.clone()),
            made(&[f(10, 13), two[0].clone(), two[1].clone()]),
        ),
        ("class {static p = 1; [f()]}", class(), made(&[one(28), f(36, 44)])),
    ]
}

fn class() -> Node {
    let of = |sub: u8, start: u32, end: u32, child: Node| {
        node(kind::ELEMENT, 0, sub, start, &[child]).to(end)
    };
    let value = element::PROPERTY | element::STATIC | element::VALUE;
    let key = element::PROPERTY | element::COMPUTED_KEY;
    let elements = [of(value, 17, 30, one(28)), of(key, 35, 46, f(36, 44))];
    list(kind::CLASS, 0, 10, 70, &elements)
}

/// "At the kept one's place after reduction; the rest ... take the template's place." "The next property
/// makes them an object at its own place, the end at the object's place."
fn templates_and_objects() -> Vec<Row> {
    let s = |start: u32| identifier(19, 0, start).to(start + 2);
    let made =
        |start: u32, end: u32, child: Node| list(kind::TEMPLATE, FLAGGED, start, end, &[child]);
    let object = |facts: u8, start: u32, end: u32, children: &[Node]| {
        list(kind::OBJECT, facts, start, end, children)
    };
    let property = |value: Node| list(kind::PROPERTY, 0, 18, 30, &[value]);
    let [clear, flagged] = [spread(0, 12, 17), spread(FLAGGED, 33, 38)];
    vec![
        (
            "a template of s, void f() and s",
            list(kind::TEMPLATE, FLAGGED, 10, 40, &[s(13), void(17, 30, f(22, 29)), s(33)]).text(9),
            sequence(FLAGGED, 10, &[made(22, 29, s(13)), f(22, 29), made(10, 40, s(33))]).to(40),
        ),
        (
            "a template of s and 1, of which a template of s is left",
            list(kind::TEMPLATE, FLAGGED, 10, 40, &[s(13), one(33)]).text(9),
            made(10, 40, s(13)),
        ),
        (
            "{...x, k: f(), ...x}",
            object(FLAGGED, 10, 50, &[clear.clone(), property(f(21, 29)), flagged.clone()]),
            sequence(
                FLAGGED,
                10,
                &[
                    object(0, 18, 30, slice::from_ref(&clear)),
                    f(21, 29),
                    object(FLAGGED, 10, 50, &[flagged]),
                ],
            )
            .to(50),
        ),
        (
            "{...x, k: x}, of which {...x} is left at the property's place",
            object(FLAGGED, 10, 50, &[clear.clone(), property(x(21))]),
            object(0, 18, 30, &[clear]),
        ),
    ]
}

/// "The empty literal at its own place."
fn literals() -> Vec<Row> {
    vec![
        (
            "\"a\" + f()",
            sum(10, 20, literal(1, 11, 14), f(16, 19)),
            sum(10, 20, literal(0, 11, 14), f(16, 19)),
        ),
        (
            "(\"a\" + 1) + f(): the left side is what is left of it",
            sum(9, 40, sum(10, 20, literal(1, 11, 14), one(16)), f(30, 33)),
            sum(9, 40, literal(0, 11, 14), f(30, 33)),
        ),
        (
            "(x + \"a\") + f(), the left side unflagged, is emptied whole",
            sum(9, 40, unflagged_sum(), f(30, 33)),
            sum(9, 40, literal(0, 10, 20), f(30, 33)),
        ),
        (
            "x + \"a\"",
            sum(10, 20, x(10), literal(1, 15, 18)),
            sum(10, 20, x(10), literal(0, 15, 18)),
        ),
    ]
}

fn unflagged_sum() -> Node {
    node(kind::BINARY, 0, sub::ADDITION, 10, &[x(10), literal(1, 15, 18)]).to(20)
}

/// "In an array at the spread's place"; "takes the conditional's place" (02, N1).
fn others() -> Vec<Row> {
    let logical = |sub: u8, arm: Node| node(kind::LOGICAL, FLAGGED, sub, 10, &[x(12), arm]).to(60);
    let array = list(kind::ARRAY, FLAGGED, 20, 25, &[spread(FLAGGED, 20, 25)]);
    let pure = |arguments: &[Node]| {
        list(kind::CALL, FLAGGED | LISTED, 10, 60, &[&[x(10)][..], arguments].concat())
    };
    let clear = spread(0, 50, 55);
    vec![
        (
            "a listed call of ...x, f() and an unflagged spread",
            pure(&[spread(FLAGGED, 20, 25), f(30, 33), clear.clone()]),
            sequence(FLAGGED, 10, &[array.clone(), f(30, 33)]).to(60),
        ),
        ("a listed call of ...x", pure(&[spread(FLAGGED, 20, 25), clear]), array),
        (
            "x ? f() : 1",
            conditional(10, 60, [x(12), f(20, 23), one(30)]),
            logical(sub::AND, f(20, 23)),
        ),
        (
            "x ? 1 : f()",
            conditional(10, 60, [x(12), one(20), f(30, 33)]),
            logical(sub::OR, f(30, 33)),
        ),
    ]
}

/// Nodes that stay, and such as take another's place, have their own ends.
fn kept() -> Vec<Row> {
    let array = |children: &[Node]| list(kind::ARRAY, FLAGGED, 10, 60, children);
    let stays = |arm: Node| conditional(10, 60, [x(12), arm, g(40, 43)]);
    let largest = identifier(6, FLAGGED, 0).to(u32::MAX);
    let last = identifier(6, FLAGGED, u32::MAX).to(u32::MAX);
    vec![
        ("f()", f(10, 13), f(10, 13)),
        ("from 0 to the last place", largest.clone(), largest),
        ("at the last place", last.clone(), last),
        ("[x, f()]", array(&[x(11), f(20, 23)]), f(20, 23)),
        ("void f()", void(10, 60, f(20, 23)), f(20, 23)),
        (
            "(x, f())",
            sequence(FLAGGED, 10, &[x(11), f(20, 23)]).to(60),
            sequence(FLAGGED, 10, &[f(20, 23)]).to(60),
        ),
        ("[x, ...x]", array(&[x(11), spread(FLAGGED, 20, 25)]), array(&[spread(FLAGGED, 20, 25)])),
        ("x ? void f() : g()", stays(void(20, 30, f(22, 25))), stays(f(22, 25))),
        ("x ? 1 : 2, f() the test", conditional(10, 60, [f(12, 15), one(20), one(30)]), f(12, 15)),
    ]
}

/// The words of a row, its tree, the places that count as yes, and the effects.
type Listed = (&'static str, Node, Vec<u32>, Vec<u64>);

/// "Effects still carry the start", and tests go by theirs.
pub fn effects() -> Vec<Listed> {
    let effect = |place: u64, kind: u8| place * 512 + u64::from(kind) * 2;
    let choice = || conditional(10, 60, [x(12), f(20, 23), g(30, 33)]);
    let a = call(1, 4, 7);
    let b = list(kind::SPREAD, FLAGGED, 9, 13, &[identifier(2, 0, 12).to(13)]);
    let example = list(kind::ARRAY, FLAGGED, 0, 14, &[one(1), a, b]);
    let s = identifier(19, 0, 13).to(20);
    vec![
        ("[1, a(), ...b]", example, vec![], vec![effect(4, kind::CALL), effect(9, kind::SPREAD)]),
        (
            "a coercion",
            list(kind::TEMPLATE, FLAGGED, 10, 30, &[s]),
            vec![],
            vec![effect(13, kind::IDENTIFIER) + 1],
        ),
        ("the test's start", choice(), vec![12], vec![effect(20, kind::CALL)]),
        ("the test's end", choice(), vec![13], vec![effect(30, kind::CALL)]),
    ]
}

/// The words of a row, and its file with the numbers that are due.
type Refused = (String, Damaged);

pub fn refused() -> Vec<Refused> {
    let mut rows = versions();
    rows.extend(ends_before());
    rows.extend(beside_others());
    rows.extend(short());
    rows
}

fn refused_by(words: &str, file: Vec<u8>, reduce: u8, list: u8) -> Refused {
    (words.to_string(), Damaged::whole(file, reduce, list))
}

/// A sequence of x and x.
fn two() -> Node {
    sequence(0, 5, &[x(6), x(9)]).to(20)
}

/// A file's header with this version and these settings.
fn headed(mut file: Vec<u8>, version: u16, settings: u8) -> Vec<u8> {
    file[3..5].copy_from_slice(&version.to_le_bytes());
    file[5] = settings;
    file
}

fn versions() -> Vec<Refused> {
    let row = |words: String, file: Vec<u8>, number: u8| {
        (words, Damaged::lent(file, 200, 20, number, number))
    };
    let mut rows = Vec::new();
    for (file, name) in [(two().file(), "16 bytes"), (two().file_with_ends(), "20 bytes")] {
        for version in [0, 3, 4, 256, 257, 258, 512, 513, 514, u16::MAX] {
            let words = format!("version {version}, records of {name}");
            rows.push(row(words, headed(file.clone(), version, 0), 2));
        }
        rows.push(row(format!("version 3, settings 8, {name}"), headed(file.clone(), 3, 8), 2));
        let unmarked = [b"UXt", &headed(file, 3, 0)[3..]].concat();
        rows.push(row(format!("version 3, no mark, {name}"), unmarked, 1));
    }
    let file = two().file_with_ends();
    let cut = |bytes: usize| file[..file.len() - bytes].to_vec();
    let of_none = [&file[..6], &[0, 0], &file[file::HEADER..]].concat();
    let others = [
        ("version 2, settings 8", headed(file.clone(), 2, 8), 3),
        ("version 2, no records", of_none, 4),
        ("version 1, records of 20 bytes", headed(file.clone(), 1, 0), 4),
        ("version 2, records of 16 bytes", headed(two().file(), 2, 0), 4),
        ("version 2, one byte short", cut(1), 4),
        ("version 2, without the last end", cut(4), 4),
        ("version 2, without the last record", cut(file::WIDTH_2), 4),
        ("version 2, one byte more", [&file[..], &[0]].concat(), 4),
    ];
    rows.extend(others.map(|(words, file, number)| row(words.to_string(), file, number)));
    rows
}

/// An end before its start, alone, at each record and by each distance; and none where it is not.
fn ends_before() -> Vec<Refused> {
    let at = |start: u32, end: u32| identifier(6, FLAGGED, start).to(end).file_with_ends();
    let half = 1 << 31;
    vec![
        refused_by("at the root", sequence(0, 5, &[x(6), x(9)]).to(4).file_with_ends(), 17, 17),
        refused_by("inside", sequence(0, 5, &[x(6).to(5), x(9)]).to(20).file_with_ends(), 17, 17),
        refused_by(
            "at the last",
            sequence(0, 5, &[x(6), x(9).to(8)]).to(20).file_with_ends(),
            17,
            17,
        ),
        refused_by(
            "at all",
            sequence(0, 5, &[x(6).to(0), x(9).to(1)]).to(2).file_with_ends(),
            17,
            17,
        ),
        refused_by("from 1 to 0", at(1, 0), 17, 17),
        refused_by("from the last place to 0", at(u32::MAX, 0), 17, 17),
        refused_by("from the last place to the one before", at(u32::MAX, u32::MAX - 1), 17, 17),
        refused_by("from the upper half to the lower one", at(half, half - 1), 17, 17),
        refused_by("from 256 to 255", at(256, 255), 17, 17),
        refused_by("from the lower half to the upper one", at(half - 1, half), 0, 0),
        refused_by("from 255 to 256", at(255, 256), 0, 0),
        refused_by("from 0 to 0", at(0, 0), 0, 0),
    ]
}

/// An end before its start beside another fault, which stands before or behind it.
fn beside_others() -> Vec<Refused> {
    let bad = || x(9).to(8);
    let bad_leaf = || node(kind::IDENTIFIER, 6, 0, 3, &[]).to(4);
    let assignment = || list(kind::ASSIGNMENT, 0, 3, 4, &[x(3)]);
    let logical = || node(kind::LOGICAL, 0, sub::AND, 3, &[x(3), x(5)]).to(8);
    let misshapen = || list(kind::CONDITIONAL, 0, 3, 8, &[x(3)]);
    let symbol = || node(kind::BINARY, 4, sub::ADDITION, 3, &[x(3), literal(1, 5, 8)]).to(8);
    let others: [(&str, &dyn Fn() -> Node, u8, u8); 5] = [
        ("bad facts", &bad_leaf, 5, 5),
        ("a kind 22", &assignment, 6, 6),
        ("an and", &logical, 6, 17),
        ("a wrong shape", &misshapen, 7, 7),
        ("an addition with a string that is a symbol", &symbol, 5, 5),
    ];
    let mut rows = Vec::new();
    for (words, other, reduce, list) in others {
        for children in [[bad(), other()], [other(), bad()]] {
            let file = sequence(0, 0, &children).to(20).file_with_ends();
            rows.push(refused_by(words, file, reduce, list));
        }
    }
    let (reduce, listing) = (Limits::REDUCE, Limits::LIST_EFFECTS);
    for (depth, due) in [(reduce.depth, 17), (reduce.depth + 1, 17), (listing.depth + 1, 17)] {
        let file = trees::deep_file(&mut Random::new(1), depth);
        rows.extend(at_each_end(&format!("depth {depth}"), &file, due, 17));
    }
    for (records, reduce, list) in [
        (reduce.records, 17, 17),
        (reduce.records + 1, 4, 17),
        (listing.records, 4, 17),
        (listing.records + 1, 4, 4),
    ] {
        let file = trees::wide_file(&mut Random::new(1), records);
        rows.extend(at_each_end(&format!("{records} records"), &file, reduce, list));
    }
    rows
}

/// The file in version 2, with an end before its start at the root or at the last record.
fn at_each_end(words: &str, file: &[u8], reduce: u8, list: u8) -> [Refused; 2] {
    let mut random = Random::new(1);
    [0, file::count(file) - 1].map(|i| {
        let mut file = ends::added(&mut random, file);
        ends::put_before(&mut random, file::record_mut(&mut file, i));
        refused_by(&format!("{words}, record {i}"), file, reduce, list)
    })
}

/// Too little lent, and nothing. "N = 1 needs 28 bytes, and 27 is 9"; 17 comes first.
fn short() -> Vec<Refused> {
    let good = || identifier(6, FLAGGED, 9).to(9).file_with_ends();
    let bad = || identifier(6, FLAGGED, 9).to(8).file_with_ends();
    let row = |file: Vec<u8>, output: usize, entries: usize, reduce: u8, list: u8| {
        let words = format!("{output} bytes and {entries} entries");
        (words, Damaged::lent(file, output, entries, reduce, list))
    };
    vec![
        row(good(), 28, 2, 0, 0),
        row(good(), 27, 2, 9, 0),
        row(good(), 24, 2, 9, 0),
        row(good(), 28, 1, 0, 10),
        row(bad(), 27, 1, 17, 17),
        row(bad(), 0, 0, 17, 17),
        row(two().file_with_ends(), 8 + 20 * 5, 6, 0, 0),
        row(two().file_with_ends(), 8 + 20 * 5 - 1, 5, 9, 10),
        row(two().file_with_ends(), 8 + 16 * 5, 6, 9, 0),
    ]
}
