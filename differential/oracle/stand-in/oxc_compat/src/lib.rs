//! Stand-in for `oxc_compat`: named by the logical handler alone, which document 01 leaves out.

#[derive(Clone, Copy)]
pub enum ESFeature {
    ES2020OptionalChaining,
    ES2020NullishCoalescingOperator,
    ES2021LogicalAssignmentOperators,
}
