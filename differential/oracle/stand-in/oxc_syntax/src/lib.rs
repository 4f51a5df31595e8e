//! Stand-in for `oxc_syntax`.

pub mod scope {
    #[derive(Clone, Copy)]
    pub struct ScopeId(pub usize);

    /// A scope byte of the Derived question: bits block, arrow, constructor.
    #[derive(Clone, Copy)]
    pub struct ScopeFlags(pub u8);

    impl ScopeFlags {
        pub fn is_block(self) -> bool {
            self.0 & 1 != 0
        }

        pub fn is_arrow(self) -> bool {
            self.0 & 2 != 0
        }

        pub fn is_constructor(self) -> bool {
            self.0 & 4 != 0
        }

        pub fn contains_direct_eval(self) -> bool {
            crate::left_out("ScopeFlags::contains_direct_eval")
        }
    }
}

pub mod reference {
    /// The owner of the identifier's span.
    #[derive(Clone, Copy)]
    pub struct ReferenceId(pub u32);
}

pub mod symbol {
    /// Every reference has a symbol of its own.
    #[derive(Clone, Copy)]
    pub struct SymbolId(pub u32);

    pub struct SymbolFlags;

    impl SymbolFlags {
        pub fn is_const_variable(&self) -> bool {
            crate::left_out("SymbolFlags::is_const_variable")
        }
    }
}

/// What only left-out handlers call. A run that comes here fails.
pub fn left_out(name: &str) -> ! {
    panic!("{name} was reached: only handlers that document 01 leaves out call it")
}
