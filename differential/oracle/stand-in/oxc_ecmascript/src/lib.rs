//! Stand-in for `oxc_ecmascript`: every question is answered by the facts that the tree file
//! records for the node asked about.

use oxc_ast::ast::Expression;

/// What a value is as a primitive, as far as recorded.
#[derive(Clone, Copy)]
pub struct Primitive {
    symbol: u8,
    string: u8,
}

/// "0 unknown, 1 no, 2 yes."
fn known(fact: u8) -> Option<bool> {
    match fact {
        0 => None,
        1 => Some(false),
        2 => Some(true),
        _ => panic!("3 is bad in either pair"),
    }
}

impl Primitive {
    pub fn is_symbol(self) -> Option<bool> {
        known(self.symbol)
    }

    pub fn is_string(self) -> Option<bool> {
        known(self.string)
    }
}

pub trait ToPrimitive<'a> {
    fn to_primitive<C>(&self, ctx: &C) -> Primitive;
}

impl<'a> ToPrimitive<'a> for Expression<'a> {
    fn to_primitive<C>(&self, _: &C) -> Primitive {
        let facts = self.facts();
        Primitive { symbol: facts >> 1 & 3, string: facts >> 3 & 3 }
    }
}

pub mod side_effects {
    use oxc_ast::ast::{ArrayExpressionElement, Expression, ObjectPropertyKind};

    pub trait MayHaveSideEffectsContext<'a> {
        fn annotations(&self) -> bool;
        fn manual_pure_functions(&self, callee: &Expression<'a>) -> bool;
    }

    /// The effect flag.
    pub trait MayHaveSideEffects<'a> {
        fn may_have_side_effects(&self, ctx: &impl MayHaveSideEffectsContext<'a>) -> bool;
    }

    impl<'a> MayHaveSideEffects<'a> for Expression<'a> {
        fn may_have_side_effects(&self, _: &impl MayHaveSideEffectsContext<'a>) -> bool {
            self.facts() & 1 != 0
        }
    }

    impl<'a> MayHaveSideEffects<'a> for ArrayExpressionElement<'a> {
        fn may_have_side_effects(&self, _: &impl MayHaveSideEffectsContext<'a>) -> bool {
            match self {
                ArrayExpressionElement::SpreadElement(spread) => spread.flagged,
                _ => panic!("the array handler asks this of spreads alone"),
            }
        }
    }

    impl<'a> MayHaveSideEffects<'a> for ObjectPropertyKind<'a> {
        fn may_have_side_effects(&self, _: &impl MayHaveSideEffectsContext<'a>) -> bool {
            match self {
                ObjectPropertyKind::SpreadProperty(spread) => spread.flagged,
                ObjectPropertyKind::ObjectProperty(_) => {
                    panic!("the object handler asks this of spreads alone")
                }
            }
        }
    }
}

pub mod constant_evaluation {
    use oxc_ast::ast::Expression;
    use oxc_ast::left_out;

    pub struct ValueType;

    impl ValueType {
        pub fn is_boolean(&self) -> bool {
            left_out("ValueType::is_boolean")
        }
    }

    pub trait DetermineValueType<'a> {
        fn value_type<C>(&self, ctx: &C) -> ValueType;
    }

    impl<'a> DetermineValueType<'a> for Expression<'a> {
        fn value_type<C>(&self, _: &C) -> ValueType {
            left_out("value_type")
        }
    }
}
