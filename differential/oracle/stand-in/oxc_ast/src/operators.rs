use oxc_syntax::left_out;

#[derive(Clone, Copy, PartialEq, Eq)]
pub enum UnaryOperator {
    UnaryPlus,
    UnaryNegation,
    LogicalNot,
    BitwiseNot,
    Typeof,
    Void,
    Delete,
}

impl UnaryOperator {
    pub fn is_not(self) -> bool {
        left_out("UnaryOperator::is_not")
    }

    pub fn is_typeof(self) -> bool {
        left_out("UnaryOperator::is_typeof")
    }
}

#[derive(Clone, Copy, PartialEq, Eq)]
pub enum BinaryOperator {
    Equality,
    Inequality,
    StrictEquality,
    StrictInequality,
    LessThan,
    LessEqualThan,
    GreaterThan,
    GreaterEqualThan,
    Addition,
    Subtraction,
    Multiplication,
    Division,
    Remainder,
    Exponential,
    ShiftLeft,
    ShiftRight,
    ShiftRightZeroFill,
    BitwiseOR,
    BitwiseXOR,
    BitwiseAnd,
    In,
    Instanceof,
}

impl BinaryOperator {
    pub fn is_equality(self) -> bool {
        left_out("BinaryOperator::is_equality")
    }

    pub fn equality_inverse_operator(self) -> Option<Self> {
        left_out("BinaryOperator::equality_inverse_operator")
    }

    pub fn compare_inverse_operator(self) -> Option<Self> {
        left_out("BinaryOperator::compare_inverse_operator")
    }
}

#[derive(Clone, Copy, PartialEq, Eq)]
pub enum LogicalOperator {
    And,
    Or,
    Coalesce,
}

impl LogicalOperator {
    pub fn is_and(self) -> bool {
        left_out("LogicalOperator::is_and")
    }

    pub fn is_or(self) -> bool {
        left_out("LogicalOperator::is_or")
    }

    pub fn is_coalesce(self) -> bool {
        left_out("LogicalOperator::is_coalesce")
    }
}

#[derive(Clone, Copy, PartialEq, Eq)]
pub enum AssignmentOperator {
    Assign,
    LogicalNullish,
}
