//! The Derived question.

/// Its answer.
#[derive(Clone, Copy, Debug, PartialEq, Eq)]
pub enum Derived {
    Yes,
    No,
    Refused(u8),
}

// "A scope byte ... (bits block, arrow, constructor)"
const BLOCK: u8 = 1;
const ARROW: u8 = 2;
const CONSTRUCTOR: u8 = 4;

// "An ancestor byte ... (0 other, 1 field or accessor value, 2 constructor method, 3 class body,
// 4 with heritage)"
const FIELD_OR_ACCESSOR_VALUE: u8 = 1;
const CONSTRUCTOR_METHOD: u8 = 2;
const CLASS_BODY: u8 = 3;
const CLASS_BODY_WITH_HERITAGE: u8 = 4;

/// "Lists run innermost first. Skip scopes that are block or arrow. The first other decides: not a
/// constructor, no. Else walk ancestors."
pub fn derived(scopes: &[u8], ancestors: &[u8]) -> Derived {
    if scopes.iter().any(|&scope| scope > 7) {
        return Derived::Refused(11);
    }
    if ancestors.iter().any(|&ancestor| ancestor > CLASS_BODY_WITH_HERITAGE) {
        return Derived::Refused(12);
    }
    let deciding = scopes.iter().find(|&scope| scope & (BLOCK | ARROW) == 0);
    match deciding {
        Some(scope) if scope & CONSTRUCTOR != 0 => walk(ancestors),
        _ => Derived::No,
    }
}

/// "A field or accessor value, no; after a constructor method, the next class body answers by its
/// heritage. End of list: no."
fn walk(ancestors: &[u8]) -> Derived {
    let mut found_constructor_method = false;
    for &ancestor in ancestors {
        match ancestor {
            FIELD_OR_ACCESSOR_VALUE => return Derived::No,
            CONSTRUCTOR_METHOD => found_constructor_method = true,
            CLASS_BODY if found_constructor_method => return Derived::No,
            CLASS_BODY_WITH_HERITAGE if found_constructor_method => return Derived::Yes,
            _ => {}
        }
    }
    Derived::No
}
