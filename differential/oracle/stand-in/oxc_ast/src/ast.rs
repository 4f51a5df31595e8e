use oxc_allocator::{ArenaBox, ArenaVec, TakeIn};
use oxc_syntax::{left_out, reference::ReferenceId};

pub use crate::left_out_nodes::*;
pub use crate::match_expression;
pub use crate::operators::*;
use crate::record::Record;
pub use oxc_span::{GetSpan, Span};

pub enum Expression<'a> {
    StringLiteral(ArenaBox<'a, StringLiteral>),
    Identifier(ArenaBox<'a, IdentifierReference>),
    FunctionExpression(ArenaBox<'a, Leaf>),
    ArrowFunctionExpression(ArenaBox<'a, Leaf>),
    /// Kind 5: any of the expressions that no handler names.
    OtherLeaf(ArenaBox<'a, Leaf>),
    ThisExpression(ArenaBox<'a, Leaf>),
    ArrayExpression(ArenaBox<'a, ArrayExpression<'a>>),
    ObjectExpression(ArenaBox<'a, ObjectExpression<'a>>),
    TemplateLiteral(ArenaBox<'a, TemplateLiteral<'a>>),
    SequenceExpression(ArenaBox<'a, SequenceExpression<'a>>),
    UnaryExpression(ArenaBox<'a, UnaryExpression<'a>>),
    BinaryExpression(ArenaBox<'a, BinaryExpression<'a>>),
    CallExpression(ArenaBox<'a, CallExpression<'a>>),
    NewExpression(ArenaBox<'a, NewExpression<'a>>),
    ClassExpression(ArenaBox<'a, Class<'a>>),
    ConditionalExpression(ArenaBox<'a, ConditionalExpression<'a>>),
    /// Made of a conditional alone: no tree file that is reduced has one.
    LogicalExpression(ArenaBox<'a, LogicalExpression<'a>>),
    /// What `take_in` leaves behind.
    Taken,
    // No tree file makes one of these.
    AssignmentExpression(ArenaBox<'a, AssignmentExpression<'a>>),
    NumericLiteral(ArenaBox<'a, NumericLiteral>),
    BooleanLiteral(ArenaBox<'a, BooleanLiteral>),
    NullLiteral(Never),
    BigIntLiteral(Never),
    RegExpLiteral(Never),
    ImportMeta(Never),
    Super(Never),
    StaticMemberExpression(Never),
    ComputedMemberExpression(Never),
    ChainExpression(Never),
    ImportExpression(Never),
    AwaitExpression(Never),
}

pub struct Leaf {
    pub span: Span,
    pub record: Record,
}

pub struct StringLiteral {
    pub span: Span,
    pub value: StringValue,
}

/// A string's value: the decimal digits of its text number, or nothing for text 0.
#[derive(PartialEq)]
pub struct StringValue(pub String);

impl StringValue {
    pub fn as_str(&self) -> Option<&str> {
        left_out("StringValue::as_str")
    }
}

impl PartialEq<&str> for StringValue {
    fn eq(&self, _: &&str) -> bool {
        left_out("a comparison of a string's value")
    }
}

pub struct IdentifierReference {
    pub span: Span,
    pub record: Record,
    pub name: u32,
}

impl IdentifierReference {
    pub fn reference_id(&self) -> ReferenceId {
        ReferenceId(self.span.owner)
    }
}

pub struct ArrayExpression<'a> {
    pub span: Span,
    pub record: Record,
    pub elements: ArenaVec<'a, ArrayExpressionElement<'a>>,
}

pub enum ArrayExpressionElement<'a> {
    SpreadElement(ArenaBox<'a, SpreadElement<'a>>),
    Elision(Leaf),
    Expression(Expression<'a>),
}

impl<'a> ArrayExpressionElement<'a> {
    pub fn to_expression_mut(&mut self) -> &mut Expression<'a> {
        match self {
            ArrayExpressionElement::Expression(expression) => expression,
            _ => panic!("to_expression_mut of an element that is no expression"),
        }
    }

    pub fn into_expression(self) -> Expression<'a> {
        match self {
            ArrayExpressionElement::Expression(expression) => expression,
            _ => panic!("into_expression of an element that is no expression"),
        }
    }
}

pub struct SpreadElement<'a> {
    pub span: Span,
    pub text: u32,
    pub flagged: bool,
    pub argument: Expression<'a>,
}

pub struct ObjectExpression<'a> {
    pub span: Span,
    pub record: Record,
    pub properties: ArenaVec<'a, ObjectPropertyKind<'a>>,
}

pub enum ObjectPropertyKind<'a> {
    ObjectProperty(ArenaBox<'a, ObjectProperty<'a>>),
    SpreadProperty(ArenaBox<'a, SpreadElement<'a>>),
}

impl ObjectPropertyKind<'_> {
    pub fn is_spread(&self) -> bool {
        matches!(self, ObjectPropertyKind::SpreadProperty(_))
    }
}

pub struct ObjectProperty<'a> {
    pub span: Span,
    pub text: u32,
    pub key: PropertyKey<'a>,
    pub value: Expression<'a>,
}

/// A key without a node of its own is a static identifier.
pub enum PropertyKey<'a> {
    StaticIdentifier(()),
    PrivateIdentifier(Never),
    Expression(Expression<'a>),
}

impl<'a> PropertyKey<'a> {
    pub fn into_expression(self) -> Expression<'a> {
        match self {
            PropertyKey::Expression(expression) => expression,
            _ => panic!("into_expression of a key that is no expression"),
        }
    }

    pub fn as_expression(&self) -> Option<&Expression<'a>> {
        match self {
            PropertyKey::Expression(expression) => Some(expression),
            _ => None,
        }
    }

    pub fn as_expression_mut(&mut self) -> Option<&mut Expression<'a>> {
        match self {
            PropertyKey::Expression(expression) => Some(expression),
            _ => None,
        }
    }
}

pub struct TemplateLiteral<'a> {
    pub span: Span,
    pub record: Record,
    pub quasis: ArenaVec<'a, TemplateElement>,
    pub expressions: ArenaVec<'a, Expression<'a>>,
}

/// A piece of a template's text. The pieces of a recorded template hold the digits of its text
/// number, or nothing for text 0.
pub struct TemplateElement {
    pub value: TemplateElementValue,
    pub tail: bool,
}

pub struct TemplateElementValue {
    pub raw: String,
    pub cooked: Option<String>,
}

pub struct SequenceExpression<'a> {
    pub span: Span,
    pub record: Record,
    pub expressions: ArenaVec<'a, Expression<'a>>,
}

pub struct UnaryExpression<'a> {
    pub span: Span,
    pub record: Record,
    pub operator: UnaryOperator,
    pub argument: Expression<'a>,
}

pub struct BinaryExpression<'a> {
    pub span: Span,
    pub record: Record,
    pub operator: BinaryOperator,
    pub left: Expression<'a>,
    pub right: Expression<'a>,
}

pub enum Argument<'a> {
    SpreadElement(ArenaBox<'a, SpreadElement<'a>>),
    Expression(Expression<'a>),
}

impl<'a> Argument<'a> {
    pub fn into_expression(self) -> Expression<'a> {
        match self {
            Argument::Expression(expression) => expression,
            Argument::SpreadElement(_) => panic!("into_expression of a spread"),
        }
    }
}

pub struct CallExpression<'a> {
    pub span: Span,
    pub record: Record,
    /// "Annotated."
    pub pure: bool,
    pub callee: Expression<'a>,
    pub arguments: ArenaVec<'a, Argument<'a>>,
}

pub struct NewExpression<'a> {
    pub span: Span,
    pub record: Record,
    /// "Annotated."
    pub pure: bool,
    pub callee: Expression<'a>,
    pub arguments: ArenaVec<'a, Argument<'a>>,
}

pub struct Class<'a> {
    pub span: Span,
    pub record: Record,
    pub decorators: ArenaVec<'a, Decorator>,
    pub heritage: Option<ClassHeritage<'a>>,
    pub body: ArenaBox<'a, ClassBody<'a>>,
}

impl<'a> Class<'a> {
    pub fn heritage_expression(&self) -> Option<&Expression<'a>> {
        self.heritage.as_ref().map(|heritage| &heritage.expression)
    }
}

pub struct ConditionalExpression<'a> {
    pub span: Span,
    pub record: Record,
    pub test: Expression<'a>,
    pub consequent: Expression<'a>,
    pub alternate: Expression<'a>,
}

pub struct LogicalExpression<'a> {
    pub span: Span,
    pub record: Record,
    pub left: Expression<'a>,
    pub operator: LogicalOperator,
    pub right: Expression<'a>,
}

pub struct Decorator;

pub struct ClassHeritage<'a> {
    pub expression: Expression<'a>,
}

pub struct ClassBody<'a> {
    pub body: ArenaVec<'a, ClassElement<'a>>,
}

pub enum ClassElement<'a> {
    MethodDefinition(ArenaBox<'a, MemberDefinition<'a>>),
    PropertyDefinition(ArenaBox<'a, MemberDefinition<'a>>),
    AccessorProperty(ArenaBox<'a, MemberDefinition<'a>>),
    StaticBlock(ArenaBox<'a, StaticBlock<'a>>),
    TSIndexSignature(ArenaBox<'a, IndexSignature>),
}

/// A method, property or accessor. A method's value is a function, which no tree file records.
pub struct MemberDefinition<'a> {
    pub span: Span,
    pub text: u32,
    pub decorators: ArenaVec<'a, Decorator>,
    pub computed: bool,
    pub r#static: bool,
    pub key: PropertyKey<'a>,
    pub value: Option<Expression<'a>>,
}

pub struct StaticBlock<'a> {
    pub span: Span,
    pub text: u32,
    pub body: ArenaVec<'a, Statement>,
}

pub struct Statement;

pub struct IndexSignature {
    pub span: Span,
    pub text: u32,
}

impl<'a> ClassElement<'a> {
    fn member(&self) -> Option<&MemberDefinition<'a>> {
        match self {
            ClassElement::MethodDefinition(member)
            | ClassElement::PropertyDefinition(member)
            | ClassElement::AccessorProperty(member) => Some(member),
            ClassElement::StaticBlock(_) | ClassElement::TSIndexSignature(_) => None,
        }
    }

    pub fn computed(&self) -> bool {
        self.member().is_some_and(|member| member.computed)
    }

    pub fn r#static(&self) -> bool {
        self.member().is_some_and(|member| member.r#static)
    }

    pub fn has_decorator(&self) -> bool {
        self.member().is_some_and(|member| !member.decorators.is_empty())
    }

    pub fn property_key(&self) -> Option<&PropertyKey<'a>> {
        self.member().map(|member| &member.key)
    }
}

impl TakeIn for Expression<'_> {
    fn taken() -> Self {
        Expression::Taken
    }
}

/// "A literal has exactly 18", a made one too.
const LITERAL_FACTS: u8 = 18;

impl Expression<'_> {
    /// The facts recorded for the node.
    pub fn facts(&self) -> u8 {
        match self {
            Expression::StringLiteral(_) => LITERAL_FACTS,
            _ => self.record().facts(self.span()),
        }
    }

    fn record(&self) -> Record {
        match self {
            Expression::Identifier(e) => e.record,
            Expression::FunctionExpression(e)
            | Expression::ArrowFunctionExpression(e)
            | Expression::OtherLeaf(e)
            | Expression::ThisExpression(e) => e.record,
            Expression::ArrayExpression(e) => e.record,
            Expression::ObjectExpression(e) => e.record,
            Expression::TemplateLiteral(e) => e.record,
            Expression::SequenceExpression(e) => e.record,
            Expression::UnaryExpression(e) => e.record,
            Expression::BinaryExpression(e) => e.record,
            Expression::CallExpression(e) => e.record,
            Expression::NewExpression(e) => e.record,
            Expression::ClassExpression(e) => e.record,
            Expression::ConditionalExpression(e) => e.record,
            Expression::LogicalExpression(e) => e.record,
            _ => panic!("a handler asked for the facts of a node that no tree file has"),
        }
    }

    pub fn is_identifier_reference(&self) -> bool {
        matches!(self, Expression::Identifier(_))
    }

    pub fn is_function(&self) -> bool {
        matches!(self, Expression::FunctionExpression(_) | Expression::ArrowFunctionExpression(_))
    }

    pub fn is_specific_string_literal(&self, value: &str) -> bool {
        matches!(self, Expression::StringLiteral(literal) if literal.value.0 == value)
    }

    pub fn is_null(&self) -> bool {
        left_out("Expression::is_null")
    }
}

impl GetSpan for Expression<'_> {
    fn span(&self) -> Span {
        match self {
            Expression::StringLiteral(e) => e.span,
            Expression::Identifier(e) => e.span,
            Expression::FunctionExpression(e)
            | Expression::ArrowFunctionExpression(e)
            | Expression::OtherLeaf(e)
            | Expression::ThisExpression(e) => e.span,
            Expression::ArrayExpression(e) => e.span,
            Expression::ObjectExpression(e) => e.span,
            Expression::TemplateLiteral(e) => e.span,
            Expression::SequenceExpression(e) => e.span,
            Expression::UnaryExpression(e) => e.span,
            Expression::BinaryExpression(e) => e.span,
            Expression::CallExpression(e) => e.span,
            Expression::NewExpression(e) => e.span,
            Expression::ClassExpression(e) => e.span,
            Expression::ConditionalExpression(e) => e.span,
            Expression::LogicalExpression(e) => e.span,
            _ => panic!("a handler asked for the span of a node that no tree file has"),
        }
    }
}

impl GetSpan for ObjectProperty<'_> {
    fn span(&self) -> Span {
        self.span
    }
}
