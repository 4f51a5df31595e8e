//! From the stand-in tree, as the published handlers left it, back to a tree file.
//!
//! Kinds, subs, children and both ends of places are read off the tree; facts and text are those
//! recorded for the node. For a made node they are what document 01 says: "text 0, symbol and string
//! unknown ...; flag set if a child's is, and on every made template."

use oxc_ast::{Record, ast::*};

use crate::decode;

/// The file of a kept tree, with the version and settings of the file that it was reduced from.
pub fn file(from: &[u8], tree: &Expression) -> Vec<u8> {
    let mut encoder = Encoder { records: Vec::new() };
    encoder.expression(tree);
    let mut file = from[..6].to_vec();
    file.extend((encoder.records.len() as u16).to_le_bytes());
    let width = decode::width(from);
    encoder.records.iter().for_each(|record| file.extend(&record[..width]));
    file
}

/// Records of version 2. Those of version 1 are the same without their last four bytes, the end.
struct Encoder {
    records: Vec<[u8; 20]>,
}

/// What a record says besides its children.
struct Head {
    kind: u8,
    sub: u8,
    span: Span,
    content: Content,
}

/// Where facts and text come from.
enum Content {
    Recorded { facts: u8, text: u32 },
    Made,
}

impl Head {
    /// A node that keeps its recorded facts, if it has not been made.
    fn of(kind: u8, sub: u8, span: Span, record: Record) -> Head {
        let content = match record.recorded(span) {
            Some((facts, text)) => Content::Recorded { facts, text },
            None => Content::Made,
        };
        Head { kind, sub, span, content }
    }

    fn plain(kind: u8, sub: u8, span: Span, facts: u8, text: u32) -> Head {
        Head { kind, sub, span, content: Content::Recorded { facts, text } }
    }
}

impl Encoder {
    /// Writes a node's record and its children; answers with the node's flag.
    fn node(&mut self, head: Head, children: impl FnOnce(&mut Self, &mut Children)) -> bool {
        let at = self.records.len();
        self.records.push([0; 20]);
        let mut written = Children { count: 0, flagged: false };
        children(self, &mut written);
        let (facts, text) = match head.content {
            Content::Recorded { facts, text } => (facts, text),
            Content::Made => (u8::from(written.flagged || head.kind == 12), 0),
        };
        let size = (self.records.len() - at) as u16;
        let record = &mut self.records[at];
        record[..3].copy_from_slice(&[head.kind, facts, head.sub]);
        record[4..6].copy_from_slice(&written.count.to_le_bytes());
        record[6..8].copy_from_slice(&size.to_le_bytes());
        record[8..12].copy_from_slice(&text.to_le_bytes());
        record[12..16].copy_from_slice(&head.span.start.to_le_bytes());
        record[16..].copy_from_slice(&head.span.end.to_le_bytes());
        facts & 1 != 0
    }

    fn leaf(&mut self, head: Head) -> bool {
        self.node(head, |_, _| {})
    }

    fn expressions(&mut self, head: Head, children: &[&Expression]) -> bool {
        self.node(head, |s, c| children.iter().for_each(|child| c.add(s.expression(child))))
    }

    fn expression(&mut self, tree: &Expression) -> bool {
        match tree {
            Expression::StringLiteral(e) => {
                self.leaf(Head::plain(1, 0, e.span, tree.facts(), text_number(&e.value.0)))
            }
            Expression::Identifier(e) => self.leaf(Head::plain(2, 0, e.span, tree.facts(), e.name)),
            Expression::FunctionExpression(e) => self.leaf(Head::of(3, 0, e.span, e.record)),
            Expression::ArrowFunctionExpression(e) => self.leaf(Head::of(4, 0, e.span, e.record)),
            Expression::OtherLeaf(e) => self.leaf(Head::of(5, 0, e.span, e.record)),
            Expression::ThisExpression(e) => self.leaf(Head::of(6, 0, e.span, e.record)),
            Expression::ArrayExpression(e) => self.array(e),
            Expression::ObjectExpression(e) => self.object(e),
            Expression::TemplateLiteral(e) => self.template(e),
            Expression::SequenceExpression(e) => {
                let head = Head::of(13, 0, e.span, e.record);
                self.node(head, |s, c| e.expressions.iter().for_each(|e| c.add(s.expression(e))))
            }
            Expression::UnaryExpression(e) => {
                let head = Head::of(14, unary_sub(e.operator), e.span, e.record);
                self.expressions(head, &[&e.argument])
            }
            Expression::BinaryExpression(e) => {
                let head = Head::of(15, binary_sub(e.operator), e.span, e.record);
                self.expressions(head, &[&e.left, &e.right])
            }
            Expression::CallExpression(e) => {
                let head = Head::of(16, 0, e.span, e.record);
                self.node(head, |s, c| s.arguments(c, &e.callee, &e.arguments))
            }
            Expression::NewExpression(e) => {
                let head = Head::of(17, 0, e.span, e.record);
                self.node(head, |s, c| s.arguments(c, &e.callee, &e.arguments))
            }
            Expression::ClassExpression(e) => self.class(e),
            Expression::LogicalExpression(e) => self.logical(e),
            Expression::ConditionalExpression(e) => self.conditional(e),
            _ => panic!("the answer holds a node that no tree file has"),
        }
    }

    fn spread(&mut self, spread: &SpreadElement) -> bool {
        let head = Head::plain(9, 0, spread.span, spread.flagged.into(), spread.text);
        self.node(head, |s, c| c.add(s.expression(&spread.argument)))
    }

    fn array(&mut self, array: &ArrayExpression) -> bool {
        let head = Head::of(7, 0, array.span, array.record);
        self.node(head, |s, c| {
            for element in &array.elements {
                c.add(match element {
                    ArrayExpressionElement::Elision(e) => s.leaf(Head::of(8, 0, e.span, e.record)),
                    ArrayExpressionElement::SpreadElement(spread) => s.spread(spread),
                    ArrayExpressionElement::Expression(e) => s.expression(e),
                });
            }
        })
    }

    fn object(&mut self, object: &ObjectExpression) -> bool {
        let head = Head::of(10, 0, object.span, object.record);
        self.node(head, |s, c| {
            for property in &object.properties {
                c.add(match property {
                    ObjectPropertyKind::SpreadProperty(spread) => s.spread(spread),
                    ObjectPropertyKind::ObjectProperty(property) => s.property(property),
                });
            }
        })
    }

    fn property(&mut self, property: &ObjectProperty) -> bool {
        let key = property.key.as_expression();
        let head = Head::plain(11, key.is_some().into(), property.span, 0, property.text);
        self.node(head, |s, c| {
            key.into_iter().for_each(|key| c.add(s.expression(key)));
            c.add(s.expression(&property.value));
        })
    }

    /// The text number, if any, stands in one of the pieces. Those of a made template are empty.
    fn template(&mut self, template: &TemplateLiteral) -> bool {
        let head = Head::of(12, 0, template.span, template.record);
        let pieces = template.quasis.iter().map(|quasi| quasi.value.raw.as_str());
        let text = text_number(&pieces.collect::<String>());
        match head.content {
            Content::Recorded { text: recorded, .. } => assert_eq!(text, recorded),
            Content::Made => assert_eq!(text, 0, "a made template has text"),
        }
        let tails: Vec<bool> = template.quasis.iter().map(|quasi| quasi.tail).collect();
        let last = template.expressions.len();
        assert!(tails.iter().enumerate().all(|(i, &tail)| tail == (i == last)));
        self.node(head, |s, c| template.expressions.iter().for_each(|e| c.add(s.expression(e))))
    }

    fn arguments(&mut self, c: &mut Children, callee: &Expression, arguments: &[Argument]) {
        c.add(self.expression(callee));
        for argument in arguments {
            c.add(match argument {
                Argument::SpreadElement(spread) => self.spread(spread),
                Argument::Expression(e) => self.expression(e),
            });
        }
    }

    fn logical(&mut self, e: &LogicalExpression) -> bool {
        let head = Head::of(20, logical_sub(e.operator), e.span, e.record);
        self.expressions(head, &[&e.left, &e.right])
    }

    fn conditional(&mut self, e: &ConditionalExpression) -> bool {
        let head = Head::of(21, 0, e.span, e.record);
        self.expressions(head, &[&e.test, &e.consequent, &e.alternate])
    }

    fn class(&mut self, class: &Class) -> bool {
        let decorated = u8::from(!class.decorators.is_empty());
        let heritage = class.heritage_expression();
        let sub = decorated | u8::from(heritage.is_some()) << 1;
        let head = Head::of(18, sub, class.span, class.record);
        self.node(head, |s, c| {
            heritage.into_iter().for_each(|heritage| c.add(s.expression(heritage)));
            class.body.body.iter().for_each(|element| c.add(s.element(element)));
        })
    }

    fn element(&mut self, element: &ClassElement) -> bool {
        match element {
            ClassElement::MethodDefinition(member) => self.member(1, member),
            ClassElement::PropertyDefinition(member) => self.member(2, member),
            ClassElement::AccessorProperty(member) => self.member(3, member),
            ClassElement::StaticBlock(block) => {
                let sub = 4 | u8::from(!block.body.is_empty()) << 7;
                self.leaf(Head::plain(19, sub, block.span, 0, block.text))
            }
            ClassElement::TSIndexSignature(signature) => {
                self.leaf(Head::plain(19, 5, signature.span, 0, signature.text))
            }
        }
    }

    fn member(&mut self, form: u8, member: &MemberDefinition) -> bool {
        let key = member.key.as_expression();
        let sub = form
            | u8::from(member.r#static) << 3
            | u8::from(member.computed) << 4
            | u8::from(!member.decorators.is_empty()) << 5
            | u8::from(member.value.is_some()) << 6;
        self.node(Head::plain(19, sub, member.span, 0, member.text), |s, c| {
            key.into_iter().for_each(|key| c.add(s.expression(key)));
            member.value.iter().for_each(|value| c.add(s.expression(value)));
        })
    }
}

/// The children of a node as they are written.
struct Children {
    count: u16,
    flagged: bool,
}

impl Children {
    fn add(&mut self, flagged: bool) {
        self.count += 1;
        self.flagged |= flagged;
    }
}

fn text_number(text: &str) -> u32 {
    if text.is_empty() { 0 } else { text.parse().expect("a text is its number's digits") }
}

fn unary_sub(operator: UnaryOperator) -> u8 {
    match operator {
        UnaryOperator::Void => 1,
        UnaryOperator::LogicalNot => 2,
        UnaryOperator::Typeof => 3,
        _ => 4,
    }
}

fn binary_sub(operator: BinaryOperator) -> u8 {
    match operator {
        BinaryOperator::Equality
        | BinaryOperator::Inequality
        | BinaryOperator::StrictEquality
        | BinaryOperator::StrictInequality
        | BinaryOperator::LessThan
        | BinaryOperator::LessEqualThan
        | BinaryOperator::GreaterThan
        | BinaryOperator::GreaterEqualThan => 1,
        BinaryOperator::Addition => 2,
        _ => 3,
    }
}

/// "Sub 1 for and, 2 for or."
fn logical_sub(operator: LogicalOperator) -> u8 {
    match operator {
        LogicalOperator::And => 1,
        LogicalOperator::Or => 2,
        LogicalOperator::Coalesce => panic!("the conditional handler makes no such node"),
    }
}
