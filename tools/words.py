"""The words of docs/SHOW.md."""

SETTINGS = {"annotations": 1, "tree-shake-only": 2, "derived": 4}
KINDS = ("string", "identifier", "function", "arrow", "other", "this", "array", "elision", "spread", "object",
         "property", "template", "sequence", "unary", "binary", "call", "new", "class", "element", "logical",
         "conditional", "assignment")
FACTS = {"effect": 1, "symbol-no": 2, "symbol-yes": 4, "string-no": 8, "string-yes": 16, "annotated": 32,
         "listed": 64, "summary-free": 128}
# The sub of a kind: at most one of its forms, numbered from 1 on, in bits 0 to 2; and its flags.
FORMS = {
    "unary": ("void", "not", "typeof", "other"),
    "binary": ("comparison", "addition", "other"),
    "element": ("method", "property", "accessor", "block", "index-signature"),
    "logical": ("and", "or"),
}
FLAGS = {
    "property": {"key": 1},
    "class": {"decorated": 1, "heritage": 2},
    "element": {"static": 8, "computed": 16, "decorated": 32, "value": 64, "nonempty": 128},
}


def set_in(byte, words):
    """The words whose bits are set."""
    return [word for word, bit in words.items() if byte & bit]
