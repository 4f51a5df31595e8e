//! Stand-in for the crate's own context: the settings, the facts that are asked for by callee, and
//! the lists of the Derived question.

use oxc_ast::{
    ast::{Expression, GetSpan, IdentifierReference},
    left_out,
};
use oxc_compat::ESFeature;
use oxc_ecmascript::side_effects::MayHaveSideEffectsContext;
use oxc_syntax::{
    reference::ReferenceId,
    scope::{ScopeFlags, ScopeId},
    symbol::{SymbolFlags, SymbolId},
};
use std::marker::PhantomData;

use crate::{CompressOptionsUnused, generated::ancestor::Ancestor, symbol_value::SymbolValue};

pub struct TraverseCtx<'a> {
    pub state: State,
    annotations: bool,
    tree_shake_only: bool,
    /// By record: the callee of a call or new that is listed.
    listed: Vec<bool>,
    scoping: Scoping,
    ancestors: Vec<Ancestor>,
    arena: PhantomData<&'a ()>,
}

pub struct State {
    pub symbols: Symbols,
}

impl<'a> TraverseCtx<'a> {
    /// The context of a tree under the file's settings. The callees that are listed or summary
    /// free are filled in as the tree is read.
    pub fn of_tree(settings: u8, records: usize) -> Self {
        // Inside the constructor of a derived class, or outside of any.
        let derived = settings & 4 != 0;
        let scopes = if derived { vec![4] } else { vec![] };
        let ancestors = vec![Ancestor::method_definition_value(true), Ancestor::class_body(true)];
        TraverseCtx {
            annotations: settings & 1 != 0,
            tree_shake_only: settings & 2 != 0,
            listed: vec![false; records],
            state: State { symbols: Symbols { summary_free: vec![false; records] } },
            ..TraverseCtx::of_lists(scopes, ancestors)
        }
    }

    /// The context of a Derived question.
    pub fn of_lists(scopes: Vec<u8>, ancestors: Vec<Ancestor>) -> Self {
        TraverseCtx {
            state: State { symbols: Symbols { summary_free: vec![] } },
            annotations: false,
            tree_shake_only: false,
            listed: vec![],
            scoping: Scoping { scopes },
            ancestors,
            arena: PhantomData,
        }
    }

    pub fn set_listed(&mut self, callee: &Expression<'a>) {
        self.listed[callee.span().owner as usize] = true;
    }

    pub fn set_summary_free(&mut self, callee: &Expression<'a>) {
        self.state.symbols.summary_free[callee.span().owner as usize] = true;
    }

    pub fn is_tree_shake_only(&self) -> bool {
        self.tree_shake_only
    }

    pub fn scoping(&self) -> &Scoping {
        &self.scoping
    }

    pub fn ancestor_scopes(&self) -> impl Iterator<Item = ScopeId> {
        (0..self.scoping.scopes.len()).map(ScopeId)
    }

    pub fn ancestors(&self) -> impl Iterator<Item = Ancestor> {
        self.ancestors.iter().copied()
    }

    pub fn replace_expression(&mut self, slot: &mut Expression<'a>, new: Expression<'a>) {
        *slot = new;
    }

    pub fn replace_expression_with(
        &mut self,
        slot: &mut Expression<'a>,
        make: impl FnOnce(Expression<'a>, &mut TraverseCtx<'a>) -> Expression<'a>,
    ) {
        let old = std::mem::replace(slot, Expression::Taken);
        *slot = make(old, self);
    }

    // Change bookkeeping, which document 01 leaves out.

    pub fn drop_expression(&mut self, _: &Expression<'a>) {}

    pub fn notice_change(&mut self) {}

    // What only left-out handlers call.

    pub fn supports_feature(&self, _: ESFeature) -> bool {
        left_out("supports_feature")
    }

    pub fn is_global_reference(&self, _: &IdentifierReference) -> bool {
        left_out("is_global_reference")
    }

    pub fn options(&self) -> &Options {
        left_out("options")
    }

    pub fn current_scope_flags(&self) -> ScopeFlags {
        left_out("current_scope_flags")
    }
}

impl<'a> MayHaveSideEffectsContext<'a> for TraverseCtx<'a> {
    fn annotations(&self) -> bool {
        self.annotations
    }

    /// "Listed" is a property of the callee in the Rust and of the call in the tree file.
    fn manual_pure_functions(&self, callee: &Expression<'a>) -> bool {
        self.listed[callee.span().owner as usize]
    }
}

pub struct Options {
    pub unused: CompressOptionsUnused,
}

pub struct Scoping {
    scopes: Vec<u8>,
}

impl Scoping {
    pub fn scope_flags(&self, scope: ScopeId) -> ScopeFlags {
        ScopeFlags(self.scopes[scope.0])
    }

    pub fn get_reference(&self, id: ReferenceId) -> Reference {
        Reference(id)
    }

    pub fn symbol_flags(&self, _: SymbolId) -> SymbolFlags {
        left_out("symbol_flags")
    }

    pub fn get_resolved_reference_ids(&self, _: SymbolId) -> &[ReferenceId] {
        left_out("get_resolved_reference_ids")
    }
}

pub struct Reference(ReferenceId);

impl Reference {
    /// A resolved symbol is part of the fact "summary free".
    pub fn symbol_id(&self) -> Option<SymbolId> {
        Some(SymbolId(self.0.0))
    }
}

pub struct Symbols {
    /// By record: the identifier that a call with that fact has as its callee.
    summary_free: Vec<bool>,
}

impl Symbols {
    pub fn function_summary(&self, symbol: SymbolId) -> FunctionSummary {
        FunctionSummary { side_effect_free: self.summary_free[symbol.0 as usize] }
    }

    pub fn member_write_effect(&self, _: SymbolId) -> MemberWriteEffect {
        left_out("member_write_effect")
    }

    pub fn is_implicitly_observable(&self, _: SymbolId) -> bool {
        left_out("is_implicitly_observable")
    }

    pub fn value(&self, _: SymbolId) -> Option<&SymbolValue> {
        left_out("Symbols::value")
    }
}

pub struct FunctionSummary {
    side_effect_free: bool,
}

impl FunctionSummary {
    pub fn is_side_effect_free(&self) -> bool {
        self.side_effect_free
    }
}

pub struct MemberWriteEffect;

impl MemberWriteEffect {
    pub fn may_mutate_prototype(&self) -> bool {
        left_out("may_mutate_prototype")
    }

    pub fn is_hazardous(&self) -> bool {
        left_out("is_hazardous")
    }
}
