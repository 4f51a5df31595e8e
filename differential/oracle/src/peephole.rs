//! The published files, and what they name beside each other.

use oxc_ast::{ast::*, left_out};

use crate::TraverseCtx;

pub struct PeepholeOptimizations;

mod remove_unused_expression {
    include!(concat!(env!("UXT_RUST"), "/remove_unused_expression.rs"));
}

// The two other files also hold functions that no handler of document 01 calls.
#[allow(dead_code)]
mod minimize_sequences {
    include!(concat!(env!("UXT_RUST"), "/minimize_sequences.rs"));
}

#[allow(dead_code)]
mod minimize_not_expression {
    include!(concat!(env!("UXT_RUST"), "/minimize_not_expression.rs"));
}

mod fold_constants {
    use super::*;

    pub fn is_cjs_module_exports_hint(_: &Expression) -> bool {
        left_out("is_cjs_module_exports_hint")
    }
}

/// The conditional handler's, of a file that is not at hand: the two are joined as they stand. Whether
/// and how the published function regroups them is not known here.
impl<'a> PeepholeOptimizations {
    fn join_with_left_associative_op(
        span: Span,
        operator: LogicalOperator,
        left: Expression<'a>,
        right: Expression<'a>,
        ctx: &TraverseCtx<'a>,
    ) -> Expression<'a> {
        Expression::new_logical_expression(span, left, operator, right, ctx)
    }
}

/// Functions of files that are not compiled here. Only left-out handlers call them.
impl<'a> PeepholeOptimizations {
    pub fn minimize_expression_in_boolean_context(_: &mut Expression<'a>, _: &mut TraverseCtx<'a>) {
        left_out("minimize_expression_in_boolean_context")
    }

    fn inject_optional_chaining_if_matched(
        _: u32,
        _: &mut Expression<'a>,
        _: &mut Expression<'a>,
        _: &mut TraverseCtx<'a>,
    ) -> bool {
        left_out("inject_optional_chaining_if_matched")
    }

    fn can_compress_to_logical_assignment(
        _: &AssignmentTarget<'a>,
        _: &Expression<'a>,
        _: &TraverseCtx<'a>,
    ) -> bool {
        left_out("can_compress_to_logical_assignment")
    }

    fn mark_assignment_target_as_read(_: &AssignmentTarget<'a>, _: &TraverseCtx<'a>) {
        left_out("mark_assignment_target_as_read")
    }

    fn is_script_root_scope(_: &TraverseCtx<'a>) -> bool {
        left_out("is_script_root_scope")
    }

    fn preserve_indirect_access_if_needed(
        _: Span,
        _: Expression<'a>,
        _: &TraverseCtx<'a>,
    ) -> Expression<'a> {
        left_out("preserve_indirect_access_if_needed")
    }
}
