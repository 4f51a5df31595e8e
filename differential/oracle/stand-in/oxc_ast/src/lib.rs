//! Stand-in for `oxc_ast`: a syntax tree whose facts come from a tree file.
//!
//! Only what the published handlers name is here. `ast` holds the nodes that a tree file can have;
//! `left_out_nodes` those that only left-out handlers take apart, of which none can be made.

pub mod ast;
mod build;
mod left_out_nodes;
mod operators;
mod record;

pub use oxc_syntax::left_out;
pub use record::Record;

/// The variants of an enum that hold an expression.
#[macro_export]
macro_rules! match_expression {
    ($enum:ident) => {
        $enum::Expression(_)
    };
}
