//! From a tree file to the stand-in tree.

use oxc_allocator::{ArenaBox, ArenaVec};
use oxc_ast::{Record, ast::*, left_out};

use crate::TraverseCtx;

/// How many bytes a record of this file has: "version 2 records have 20 bytes, the last four the end"
/// (02, N6).
pub fn width(file: &[u8]) -> usize {
    match file[3] {
        1 => 16,
        2 => 20,
        version => panic!("no version {version}"),
    }
}

/// The tree of an accepted file, and the context that answers for its facts.
pub fn tree<'a>(file: &[u8]) -> (Expression<'a>, TraverseCtx<'a>) {
    let (records, width) = (&file[8..], width(file));
    let count = records.len() / width;
    let mut decoder =
        Decoder { records, width, next: 0, ctx: TraverseCtx::of_tree(file[5], count) };
    let root = decoder.expression();
    assert_eq!(decoder.next, count, "records are left over");
    (root, decoder.ctx)
}

/// One record's fields.
#[derive(Clone, Copy)]
struct Node {
    kind: u8,
    facts: u8,
    sub: u8,
    count: usize,
    text: u32,
    span: Span,
}

impl Node {
    fn record(self) -> Record {
        Record::Recorded { facts: self.facts, text: self.text, span: self.span }
    }

    fn bit(self, bit: u8) -> bool {
        self.sub >> bit & 1 != 0
    }

    fn leaf(self) -> Leaf {
        Leaf { span: self.span, record: self.record() }
    }

    /// One of several operators that document 01 does not tell apart, so that each is met.
    fn one_of<T: Copy>(self, operators: &[T]) -> T {
        operators[self.span.owner as usize % operators.len()]
    }
}

/// Reads the records in order.
struct Decoder<'r, 'a> {
    records: &'r [u8],
    width: usize,
    next: usize,
    ctx: TraverseCtx<'a>,
}

impl<'a> Decoder<'_, 'a> {
    fn peek(&self) -> u8 {
        self.records[self.width * self.next]
    }

    fn node(&mut self) -> Node {
        let r = &self.records[self.width * self.next..][..self.width];
        let number = |at: usize| u32::from_le_bytes([r[at], r[at + 1], r[at + 2], r[at + 3]]);
        // The last four bytes: the end, or the start where there is none.
        let span = Span { start: number(12), end: number(self.width - 4), owner: self.next as u32 };
        self.next += 1;
        let count = u16::from_le_bytes([r[4], r[5]]).into();
        Node { kind: r[0], facts: r[1], sub: r[2], count, text: number(8), span }
    }

    fn expression(&mut self) -> Expression<'a> {
        let node = self.node();
        match node.kind {
            1 => Expression::StringLiteral(ArenaBox::new(string_literal(node))),
            2 => Expression::Identifier(ArenaBox::new(IdentifierReference {
                span: node.span,
                record: node.record(),
                name: node.text,
            })),
            3 => Expression::FunctionExpression(ArenaBox::new(node.leaf())),
            4 => Expression::ArrowFunctionExpression(ArenaBox::new(node.leaf())),
            5 => Expression::OtherLeaf(ArenaBox::new(node.leaf())),
            6 => Expression::ThisExpression(ArenaBox::new(node.leaf())),
            7 => Expression::ArrayExpression(ArenaBox::new(self.array(node))),
            10 => Expression::ObjectExpression(ArenaBox::new(self.object(node))),
            12 => Expression::TemplateLiteral(ArenaBox::new(self.template(node))),
            13 => Expression::SequenceExpression(ArenaBox::new(self.sequence(node))),
            14 => Expression::UnaryExpression(ArenaBox::new(self.unary(node))),
            15 => Expression::BinaryExpression(ArenaBox::new(self.binary(node))),
            16 => Expression::CallExpression(ArenaBox::new(self.call(node))),
            17 => Expression::NewExpression(ArenaBox::new(self.new_expression(node))),
            18 => Expression::ClassExpression(ArenaBox::new(self.class(node))),
            20 => left_out("the logical handler"),
            21 => Expression::ConditionalExpression(ArenaBox::new(self.conditional(node))),
            22 => left_out("the assignment handler"),
            kind => panic!("kind {kind} is no expression"),
        }
    }

    fn list<T>(&mut self, count: usize, mut item: impl FnMut(&mut Self) -> T) -> ArenaVec<'a, T> {
        (0..count).map(|_| item(self)).collect::<Vec<T>>().into()
    }

    fn spread(&mut self) -> ArenaBox<'a, SpreadElement<'a>> {
        let node = self.node();
        ArenaBox::new(SpreadElement {
            span: node.span,
            text: node.text,
            flagged: node.facts & 1 != 0,
            argument: self.expression(),
        })
    }

    fn array(&mut self, node: Node) -> ArrayExpression<'a> {
        let elements = self.list(node.count, |decoder| match decoder.peek() {
            8 => ArrayExpressionElement::Elision(decoder.node().leaf()),
            9 => ArrayExpressionElement::SpreadElement(decoder.spread()),
            _ => ArrayExpressionElement::Expression(decoder.expression()),
        });
        ArrayExpression { span: node.span, record: node.record(), elements }
    }

    fn object(&mut self, node: Node) -> ObjectExpression<'a> {
        let properties = self.list(node.count, |decoder| match decoder.peek() {
            9 => ObjectPropertyKind::SpreadProperty(decoder.spread()),
            _ => ObjectPropertyKind::ObjectProperty(ArenaBox::new(decoder.property())),
        });
        ObjectExpression { span: node.span, record: node.record(), properties }
    }

    fn property(&mut self) -> ObjectProperty<'a> {
        let node = self.node();
        let key = self.key(node.bit(0));
        ObjectProperty { span: node.span, text: node.text, key, value: self.expression() }
    }

    fn key(&mut self, has_node: bool) -> PropertyKey<'a> {
        if has_node {
            PropertyKey::Expression(self.expression())
        } else {
            PropertyKey::StaticIdentifier(())
        }
    }

    /// A text other than 0 stands in one of the pieces.
    fn template(&mut self, node: Node) -> TemplateLiteral<'a> {
        let pieces = node.count + 1;
        let quasis = (0..pieces).map(|piece| {
            let here = node.text != 0 && node.span.owner as usize % pieces == piece;
            let raw = if here { node.text.to_string() } else { String::new() };
            let value = TemplateElementValue { cooked: Some(raw.clone()), raw };
            TemplateElement { value, tail: piece == node.count }
        });
        TemplateLiteral {
            span: node.span,
            record: node.record(),
            quasis: quasis.collect::<Vec<_>>().into(),
            expressions: self.list(node.count, Self::expression),
        }
    }

    fn sequence(&mut self, node: Node) -> SequenceExpression<'a> {
        let expressions = self.list(node.count, Self::expression);
        SequenceExpression { span: node.span, record: node.record(), expressions }
    }

    fn unary(&mut self, node: Node) -> UnaryExpression<'a> {
        use UnaryOperator::*;
        let operator = match node.sub {
            1 => Void,
            2 => LogicalNot,
            3 => Typeof,
            _ => node.one_of(&[UnaryPlus, UnaryNegation, BitwiseNot, Delete]),
        };
        let argument = self.expression();
        UnaryExpression { span: node.span, record: node.record(), operator, argument }
    }

    fn binary(&mut self, node: Node) -> BinaryExpression<'a> {
        let operator = match node.sub {
            1 => node.one_of(&COMPARISONS),
            2 => BinaryOperator::Addition,
            _ => node.one_of(&OTHER_BINARY),
        };
        let left = self.expression();
        let right = self.expression();
        BinaryExpression { span: node.span, record: node.record(), operator, left, right }
    }

    /// The callee of a call or new, and its arguments. Listed and summary free are facts of the
    /// call that the Rust looks up by the callee.
    fn callee_and_arguments(&mut self, node: Node) -> (Expression<'a>, ArenaVec<'a, Argument<'a>>) {
        let callee = self.expression();
        if node.facts & 64 != 0 {
            self.ctx.set_listed(&callee);
        }
        if node.facts & 128 != 0 {
            self.ctx.set_summary_free(&callee);
        }
        let arguments = self.list(node.count - 1, |decoder| match decoder.peek() {
            9 => Argument::SpreadElement(decoder.spread()),
            _ => Argument::Expression(decoder.expression()),
        });
        (callee, arguments)
    }

    fn call(&mut self, node: Node) -> CallExpression<'a> {
        let (callee, arguments) = self.callee_and_arguments(node);
        let pure = node.facts & 32 != 0;
        CallExpression { span: node.span, record: node.record(), pure, callee, arguments }
    }

    fn new_expression(&mut self, node: Node) -> NewExpression<'a> {
        let (callee, arguments) = self.callee_and_arguments(node);
        let pure = node.facts & 32 != 0;
        NewExpression { span: node.span, record: node.record(), pure, callee, arguments }
    }

    fn conditional(&mut self, node: Node) -> ConditionalExpression<'a> {
        let test = self.expression();
        let consequent = self.expression();
        let alternate = self.expression();
        let record = node.record();
        ConditionalExpression { span: node.span, record, test, consequent, alternate }
    }

    fn class(&mut self, node: Node) -> Class<'a> {
        let heritage = node.bit(1).then(|| ClassHeritage { expression: self.expression() });
        let elements = node.count - usize::from(node.bit(1));
        let body = ClassBody { body: self.list(elements, Self::element) };
        Class {
            span: node.span,
            record: node.record(),
            decorators: decorators(node.bit(0)),
            heritage,
            body: ArenaBox::new(body),
        }
    }

    fn element(&mut self) -> ClassElement<'a> {
        let node = self.node();
        let (span, text) = (node.span, node.text);
        match node.sub & 7 {
            1 => ClassElement::MethodDefinition(self.member(node)),
            2 => ClassElement::PropertyDefinition(self.member(node)),
            3 => ClassElement::AccessorProperty(self.member(node)),
            4 => {
                let body = if node.bit(7) { vec![Statement] } else { vec![] };
                ClassElement::StaticBlock(ArenaBox::new(StaticBlock {
                    span,
                    text,
                    body: body.into(),
                }))
            }
            5 => ClassElement::TSIndexSignature(ArenaBox::new(IndexSignature { span, text })),
            form => panic!("no class element of form {form}"),
        }
    }

    fn member(&mut self, node: Node) -> ArenaBox<'a, MemberDefinition<'a>> {
        ArenaBox::new(MemberDefinition {
            span: node.span,
            text: node.text,
            decorators: decorators(node.bit(5)),
            computed: node.bit(4),
            r#static: node.bit(3),
            key: self.key(node.bit(4)),
            value: node.bit(6).then(|| self.expression()),
        })
    }
}

fn decorators<'a>(decorated: bool) -> ArenaVec<'a, Decorator> {
    if decorated { vec![Decorator].into() } else { vec![].into() }
}

fn string_literal(node: Node) -> StringLiteral {
    let value = if node.text == 0 { String::new() } else { node.text.to_string() };
    StringLiteral { span: node.span, value: StringValue(value) }
}

/// "One of the Rust's eight."
const COMPARISONS: [BinaryOperator; 8] = [
    BinaryOperator::Equality,
    BinaryOperator::Inequality,
    BinaryOperator::StrictEquality,
    BinaryOperator::StrictInequality,
    BinaryOperator::LessThan,
    BinaryOperator::LessEqualThan,
    BinaryOperator::GreaterThan,
    BinaryOperator::GreaterEqualThan,
];

const OTHER_BINARY: [BinaryOperator; 13] = [
    BinaryOperator::Subtraction,
    BinaryOperator::Multiplication,
    BinaryOperator::Division,
    BinaryOperator::Remainder,
    BinaryOperator::Exponential,
    BinaryOperator::ShiftLeft,
    BinaryOperator::ShiftRight,
    BinaryOperator::ShiftRightZeroFill,
    BinaryOperator::BitwiseOR,
    BinaryOperator::BitwiseXOR,
    BinaryOperator::BitwiseAnd,
    BinaryOperator::In,
    BinaryOperator::Instanceof,
];
