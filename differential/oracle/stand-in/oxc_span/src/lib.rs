//! Stand-in for `oxc_span`.

/// Where a node stands. Start and end are the tree file's; a file of version 1 has no ends, and the start
/// is there for both. The owner is the index of the node's record, which tells spans apart where places
/// are equal. The published handlers look into no span: they hand it on whole.
#[derive(Clone, Copy, Debug, PartialEq, Eq)]
pub struct Span {
    pub start: u32,
    pub end: u32,
    pub owner: u32,
}

pub trait GetSpan {
    fn span(&self) -> Span;
}
