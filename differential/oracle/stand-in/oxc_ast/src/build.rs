//! The builders that the published handlers call. Each makes a node without recorded facts.

use oxc_allocator::{ArenaBox, ArenaVec};
use oxc_span::Span;
use oxc_syntax::left_out;

use crate::ast::*;
use crate::record::Record;

impl<'a> Expression<'a> {
    pub fn new_sequence_expression<A>(
        span: Span,
        expressions: ArenaVec<'a, Expression<'a>>,
        _: &A,
    ) -> Self {
        let node = SequenceExpression { span, record: Record::Made, expressions };
        Expression::SequenceExpression(ArenaBox::new(node))
    }

    pub fn new_array_expression<A>(
        span: Span,
        elements: impl Into<ArenaVec<'a, ArrayExpressionElement<'a>>>,
        _: &A,
    ) -> Self {
        let node = ArrayExpression { span, record: Record::Made, elements: elements.into() };
        Expression::ArrayExpression(ArenaBox::new(node))
    }

    pub fn new_object_expression<A>(
        span: Span,
        properties: ArenaVec<'a, ObjectPropertyKind<'a>>,
        _: &A,
    ) -> Self {
        let node = ObjectExpression { span, record: Record::Made, properties };
        Expression::ObjectExpression(ArenaBox::new(node))
    }

    pub fn new_template_literal<A>(
        span: Span,
        quasis: ArenaVec<'a, TemplateElement>,
        expressions: ArenaVec<'a, Expression<'a>>,
        _: &A,
    ) -> Self {
        let node = TemplateLiteral { span, record: Record::Made, quasis, expressions };
        Expression::TemplateLiteral(ArenaBox::new(node))
    }

    pub fn new_string_literal<A>(span: Span, value: &str, _raw: Option<()>, _: &A) -> Self {
        let node = StringLiteral { span, value: StringValue(value.to_string()) };
        Expression::StringLiteral(ArenaBox::new(node))
    }

    pub fn new_unary_expression<A>(_: Span, _: UnaryOperator, _: Expression<'a>, _: &A) -> Self {
        left_out("Expression::new_unary_expression")
    }

    pub fn new_logical_expression<A>(
        span: Span,
        left: Expression<'a>,
        operator: LogicalOperator,
        right: Expression<'a>,
        _: &A,
    ) -> Self {
        let node = LogicalExpression { span, record: Record::Made, left, operator, right };
        Expression::LogicalExpression(ArenaBox::new(node))
    }
}

impl TemplateElement {
    pub fn new<A>(_: Span, value: TemplateElementValue, tail: bool, _: &A) -> Self {
        TemplateElement { value, tail }
    }
}
