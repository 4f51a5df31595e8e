//! The Derived question, answered by the published function.

use crate::TraverseCtx;
use crate::peephole::PeepholeOptimizations;

/// Stand-in for the generated ancestors: those that the published function tells apart.
#[derive(Clone, Copy)]
pub enum Ancestor {
    PropertyDefinitionValue(()),
    AccessorPropertyValue(()),
    MethodDefinitionValue(MethodDefinition),
    ClassBody(Class),
    Other,
}

impl Ancestor {
    pub fn method_definition_value(constructor: bool) -> Self {
        Ancestor::MethodDefinitionValue(MethodDefinition { constructor })
    }

    pub fn class_body(heritage: bool) -> Self {
        Ancestor::ClassBody(Class { heritage })
    }
}

#[derive(Clone, Copy)]
pub struct MethodDefinition {
    constructor: bool,
}

impl MethodDefinition {
    pub fn kind(self) -> MethodDefinitionKind {
        MethodDefinitionKind { constructor: self.constructor }
    }
}

pub struct MethodDefinitionKind {
    constructor: bool,
}

impl MethodDefinitionKind {
    pub fn is_constructor(&self) -> bool {
        self.constructor
    }
}

#[derive(Clone, Copy)]
pub struct Class {
    heritage: bool,
}

impl Class {
    pub fn heritage(self) -> Option<()> {
        self.heritage.then_some(())
    }
}

/// Bytes 0 and 1 stand for more than one ancestor of the Rust: the question is asked with each.
pub fn answer(scopes: &[u8], ancestors: &[u8]) -> bool {
    let other = [Ancestor::Other, Ancestor::method_definition_value(false)];
    let value = [Ancestor::PropertyDefinitionValue(()), Ancestor::AccessorPropertyValue(())];
    let [first, second] = [0, 1].map(|way| {
        let ancestor = |&byte: &u8| match byte {
            0 => other[way],
            1 => value[way],
            2 => Ancestor::method_definition_value(true),
            3 => Ancestor::class_body(false),
            4 => Ancestor::class_body(true),
            _ => panic!("no ancestor {byte}"),
        };
        let ctx = TraverseCtx::of_lists(scopes.to_vec(), ancestors.iter().map(ancestor).collect());
        PeepholeOptimizations::derived_constructor_this_scope(&ctx).is_some()
    });
    assert_eq!(first, second, "an ancestor byte stands for ancestors that answer differently");
    first
}
