//! Rows A to L of document 01, with their answers: "f(), g() flagged impure calls, x unflagged".

use port::{element, kind, sub};

use crate::file::{self, WIDTH_2};

/// A tree by hand.
#[derive(Clone)]
pub struct Node {
    kind: u8,
    facts: u8,
    sub: u8,
    text: u32,
    place: u32,
    end: u32,
    children: Vec<Node>,
}

pub const FLAGGED: u8 = 1;
pub const NO_SYMBOL: u8 = 2;

pub fn node(kind: u8, facts: u8, sub: u8, place: u32, children: &[Node]) -> Node {
    Node { kind, facts, sub, text: 0, place, end: place, children: children.to_vec() }
}

impl Node {
    pub fn text(self, text: u32) -> Node {
        Node { text, ..self }
    }

    /// The end of its place, which is else its start.
    pub fn to(self, end: u32) -> Node {
        Node { end, ..self }
    }

    pub fn no_symbol_if(self, condition: bool) -> Node {
        Node { facts: self.facts | if condition { NO_SYMBOL } else { 0 }, ..self }
    }

    /// The tree's file of version 1 with all settings off.
    pub fn file(&self) -> Vec<u8> {
        self.file_under(0)
    }

    /// The same with these settings.
    pub fn file_under(&self, settings: u8) -> Vec<u8> {
        self.assembled(1, settings)
    }

    /// The tree's file of version 2 with all settings off.
    pub fn file_with_ends(&self) -> Vec<u8> {
        self.assembled(2, 0)
    }

    fn assembled(&self, version: u8, settings: u8) -> Vec<u8> {
        let mut records = Vec::new();
        self.write(&mut records);
        let mut file = b"UXT".to_vec();
        file.extend([version, 0, settings]);
        file.extend((records.len() as u16).to_le_bytes());
        let width = file::width(&file);
        records.iter().for_each(|record| file.extend(&record[..width]));
        file
    }

    fn write(&self, records: &mut Vec<[u8; WIDTH_2]>) {
        let at = records.len();
        records.push([0; WIDTH_2]);
        self.children.iter().for_each(|child| child.write(records));
        let size = (records.len() - at) as u16;
        let record = &mut records[at];
        record[..3].copy_from_slice(&[self.kind, self.facts, self.sub]);
        record[4..6].copy_from_slice(&(self.children.len() as u16).to_le_bytes());
        record[6..8].copy_from_slice(&size.to_le_bytes());
        record[8..12].copy_from_slice(&self.text.to_le_bytes());
        record[12..16].copy_from_slice(&self.place.to_le_bytes());
        record[16..].copy_from_slice(&self.end.to_le_bytes());
    }
}

pub fn identifier(text: u32, facts: u8, place: u32) -> Node {
    node(kind::IDENTIFIER, facts, 0, place, &[]).text(text)
}

pub fn x(place: u32) -> Node {
    identifier(24, 0, place)
}

/// A flagged impure call of a function with this name.
pub fn call(name: u32, facts: u8, place: u32) -> Node {
    node(kind::CALL, FLAGGED | facts, 0, place, &[identifier(name, 0, place)])
}

pub fn f(place: u32) -> Node {
    call(6, 0, place)
}

pub fn g(place: u32) -> Node {
    call(7, 0, place)
}

pub fn spread(facts: u8, place: u32) -> Node {
    node(kind::SPREAD, facts, 0, place, &[x(place + 3)])
}

pub fn sequence(facts: u8, place: u32, children: &[Node]) -> Node {
    node(kind::SEQUENCE, facts, 0, place, children)
}

pub fn number(place: u32) -> Node {
    node(kind::OTHER_LEAF, NO_SYMBOL, 0, place, &[]).text(1)
}

/// Each row's letter, tree and answer; no answer: removable.
pub fn rows() -> Vec<(char, Node, Option<Node>)> {
    let property = |place, value: Node| node(kind::PROPERTY, 0, 0, place, &[value]);
    let object = |facts, children: &[Node]| node(kind::OBJECT, facts, 0, 10, children);
    let template =
        |facts, place, children: &[Node]| node(kind::TEMPLATE, facts, 0, place, children);
    let s = identifier(19, 0, 13);
    let no_symbol_f = call(6, NO_SYMBOL, 17);
    let static_p = element::PROPERTY | element::STATIC | element::VALUE;
    let class = node(kind::CLASS, 0, 0, 10, &[node(kind::ELEMENT, 0, static_p, 17, &[number(28)])]);
    let less = node(kind::BINARY, FLAGGED, sub::COMPARISON, 10, &[f(10), g(16)]);
    let sum = |left: Node| node(kind::BINARY, FLAGGED, sub::ADDITION, 10, &[left, f(16)]);
    let literal = |text| node(kind::STRING_LITERAL, 18, 0, 10, &[]).text(text);
    let typeof_y = node(kind::UNARY, FLAGGED, sub::TYPEOF, 10, &[identifier(25, FLAGGED, 17)]);
    let new_x = node(kind::NEW, 0, 0, 10, &[x(14)]);
    let spread_only = object(FLAGGED, &[spread(FLAGGED, 12)]);
    let only_s = template(FLAGGED, 10, std::slice::from_ref(&s));
    let made_object = node(kind::OBJECT, 0, 0, 20, &[spread(0, 12)]);
    vec![
        ('A', node(kind::ARRAY, 0, 0, 10, &[]), None),
        ('B', node(kind::ARRAY, FLAGGED, 0, 10, &[f(11), spread(0, 16)]), Some(f(11))),
        ('C', sequence(FLAGGED, 10, &[f(11), number(16)]), Some(sequence(FLAGGED, 10, &[f(11)]))),
        ('D', typeof_y, None),
        ('E', spread_only.clone(), Some(spread_only)),
        (
            'F',
            object(FLAGGED, &[spread(0, 12), property(20, f(23))]),
            Some(sequence(FLAGGED, 10, &[made_object, f(23)])),
        ),
        ('G', only_s.clone(), Some(only_s)),
        (
            'H',
            template(FLAGGED, 10, &[s.clone(), no_symbol_f.clone()]).text(9),
            Some(sequence(FLAGGED, 10, &[template(FLAGGED, 17, &[s]), no_symbol_f])),
        ),
        ('I', class, Some(sequence(0, 10, &[number(28)]))),
        ('J', less, Some(sequence(FLAGGED, 10, &[f(10), g(16)]))),
        ('K', sum(literal(1)), Some(sum(literal(0)))),
        ('L', new_x.clone(), Some(new_x)),
    ]
}

/// Corners that random trees seldom meet, with their answers.
pub fn corners() -> Vec<(&'static str, Node, Node)> {
    let new_x = |place: u32| node(kind::NEW, 0, 0, place, &[x(place + 4)]);
    let flagged_sequence = sequence(FLAGGED | NO_SYMBOL, 11, &[new_x(12)]).text(5);
    let comparison =
        |left: Node, right: Node| node(kind::BINARY, FLAGGED, sub::COMPARISON, 10, &[left, right]);
    let s = identifier(19, 0, 13);
    let f = call(6, NO_SYMBOL, 22);
    let void_f = node(kind::UNARY, FLAGGED | NO_SYMBOL, sub::VOID, 17, std::slice::from_ref(&f));
    let template =
        |facts, place, children: &[Node]| node(kind::TEMPLATE, facts, 0, place, children);
    vec![
        (
            "a sequence from join_sequence is a made node: no flag, text 0, the comparison's place",
            comparison(flagged_sequence.clone(), new_x(20)),
            sequence(0, 10, &[new_x(12), new_x(20)]),
        ),
        (
            "a sequence on the right gets the left in front, and is gone",
            comparison(new_x(20), flagged_sequence.clone()),
            sequence(0, 10, &[new_x(20), new_x(12)]),
        ),
        (
            "two sequences: the right one is appended whole",
            comparison(flagged_sequence.clone(), flagged_sequence.clone()),
            sequence(FLAGGED, 10, &[new_x(12), flagged_sequence]),
        ),
        (
            "a made template takes the kept one's place after reduction",
            template(FLAGGED, 10, &[s.clone(), void_f]).text(9),
            sequence(FLAGGED, 10, &[template(FLAGGED, 22, &[s]), f]),
        ),
    ]
}

/// "For `[1, a(), ...b]`, array, call and spread flagged": the tree, its answer, and the effects
/// that both have, 4/16/0 and 9/9/0.
pub fn example() -> (Node, Node, [u64; 2]) {
    let a = || call(1, 0, 4);
    let b = || node(kind::SPREAD, FLAGGED, 0, 9, &[identifier(2, 0, 12)]);
    let array = |children: &[Node]| node(kind::ARRAY, FLAGGED, 0, 0, children);
    let effect = |place: u64, kind: u8| place * 512 + u64::from(kind) * 2;
    let effects = [effect(4, kind::CALL), effect(9, kind::SPREAD)];
    (array(&[number(1), a(), b()]), array(&[a(), b()]), effects)
}
