use oxc_span::Span;

/// What the tree file says of a node, or that the Rust made it.
#[derive(Clone, Copy)]
pub enum Record {
    /// The facts and text recorded for the node, and the span that it had then.
    Recorded {
        facts: u8,
        text: u32,
        span: Span,
    },
    Made,
}

impl Record {
    /// The recorded facts. The published handlers ask no made node for its facts, nor a node whose
    /// span they have replaced.
    pub fn facts(self, now: Span) -> u8 {
        match self {
            Record::Recorded { facts, span, .. } if span == now => facts,
            _ => panic!("a handler asked for the facts of a made node"),
        }
    }

    /// Facts and text as recorded; none for a made node. A node with another span than the one it
    /// was recorded with is a made node: `join_sequence` reuses a sequence's box and gives it the
    /// comparison's span.
    pub fn recorded(self, now: Span) -> Option<(u8, u32)> {
        match self {
            Record::Recorded { facts, text, span } if span == now => Some((facts, text)),
            _ => None,
        }
    }
}
