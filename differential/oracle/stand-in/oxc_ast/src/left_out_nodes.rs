//! Nodes that only left-out handlers take apart. Each holds a value of a type that has none, so
//! that no run can come to hold one.

use oxc_allocator::ArenaBox;
use oxc_span::Span;
use oxc_syntax::left_out;

use crate::ast::{Expression, IdentifierReference};
use crate::operators::AssignmentOperator;

pub enum Never {}

pub struct NumericLiteral {
    pub value: f64,
    pub never: Never,
}

pub struct BooleanLiteral {
    pub value: bool,
    pub never: Never,
}

pub struct AssignmentExpression<'a> {
    pub span: Span,
    pub operator: AssignmentOperator,
    pub left: AssignmentTarget<'a>,
    pub right: Expression<'a>,
    pub never: Never,
}

pub enum AssignmentTarget<'a> {
    StaticMemberExpression(ArenaBox<'a, StaticMemberExpression<'a>>),
    ComputedMemberExpression(ArenaBox<'a, ComputedMemberExpression<'a>>),
    PrivateFieldExpression(ArenaBox<'a, PrivateFieldExpression<'a>>),
    AssignmentTargetIdentifier(ArenaBox<'a, IdentifierReference>),
}

pub enum SimpleAssignmentTarget<'a> {
    AssignmentTargetIdentifier(ArenaBox<'a, IdentifierReference>),
}

impl<'a> AssignmentTarget<'a> {
    pub fn as_simple_assignment_target(&self) -> Option<&SimpleAssignmentTarget<'a>> {
        left_out("as_simple_assignment_target")
    }
}

pub struct StaticMemberExpression<'a> {
    pub object: Expression<'a>,
    pub property: IdentifierName,
    pub never: Never,
}

pub struct ComputedMemberExpression<'a> {
    pub object: Expression<'a>,
    pub expression: Expression<'a>,
    pub never: Never,
}

pub struct PrivateFieldExpression<'a> {
    pub object: Expression<'a>,
    pub never: Never,
}

pub struct IdentifierName {
    pub name: String,
}
