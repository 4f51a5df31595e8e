"""What docs/FORMAT.md says, word for word, for what is quoted of it.

Each text stands within one line there. A row of a table is quoted with the bars between its cells. `explained.py` holds
all of them to the page.
"""

# The table of refusals: the file is refused if ..
MEANS = {
    1: "it has under 8 bytes, or its mark is wrong",
    2: "its version is neither 1 nor 2",
    3: "one of the setting bits 3 to 7 is set",
    4: "its count N is not in the operation's range, or its length is not 8 + 16 × N bytes, with 20 for 16 in version 2",
    5: "a record's kind is not 1 to 22, or its facts or its sub do not fit its kind, or its byte 3 is not 0, or it is an addition"
       ' with a string part and its symbol fact is "yes"; this last is tested behind 7',
    6: "a record is of kind 22, or of kind 20 (List effects takes one with sub 1 or 2)",
    7: "a record's number of children does not fit its kind and sub, a subtree size does not fit the records, the root's size"
       " is not N, or a kind stands where it may not",
    17: "a record's end lies before its start",
    8: "the depth is over the operation's limit",
}

# What a file must meet.
RULES = {
    "header": "A file begins with these 8 bytes.",
    "mark": "0–2 | mark | `UXT`, that is 85, 88, 84",
    "version": "3–4 | version | 1 or 2",
    "settings": "5 | settings | bits 0–2 below; bits 3–7 are 0",
    "count": "6–7 | record count N | 1 to 2,000 for Reduce, 1 to 3,999 for List effects",
    "length": "N records follow the header, and nothing follows them: the file has exactly 8 + 16 × N bytes, in version 2 exactly"
              " 8 + 20 × N.",

    "kind": "0 | kind | 1 to 22",
    "string facts": "A string literal has exactly 18: no flag, symbol no, string yes.",
    "allowed facts": "No bit is set that the kind's allowed facts do not have.",
    "pairs": "Neither pair is 3.",
    "string yes": "String yes needs symbol no.",
    "never a symbol": "Symbol is not yes on a `void`, a `!`, a `typeof`, a comparison or a template.",
    "string part": "Symbol is not yes on an addition with a string part.",
    "sub": "2 | sub | see *Kinds*; 0 where a kind has no subs",
    "forms": "Forms 0, 6 and 7 do not exist.",
    "forms 4 and 5": "Forms 4 and 5 have bits 3 to 6 clear, so a static block does not have bit 3 set.",
    "bits 6 and 7": "Bit 7 may be set only for form 4, bit 6 only for forms 2 and 3.",
    "byte 3": "Byte 3 of every record is 0.",
    "reduced kinds": "Reduce takes kinds 1 to 19 and 21.",
    "listed kinds": "List effects takes kinds 1 to 21, a logical only with sub 1 or 2.",

    "children": "4–5 | children | the number of the node's children",
    "root's size": "So record 0 is the root, whose size is N.",
    "size": "The parent's size is 1 more than the sum of its children's sizes; that of a node without children is 1.",
    "no size": "6–7 | size | the number of records in the node's subtree, the node itself included",
    "whole": "A parent stands before its children, and the subtree of each child stands whole before that of the next.",
    "element's children": "An element has as many children as bits 4 and 6 are set: the computed key first, then the value.",

    "root": "The root is an expression: any kind but elision, spread, property and class element.",
    "in an array": "An array takes expressions, spreads and elisions.",
    "callee": "The callee of a call or `new` is an expression.",
    "argument": "The arguments are expressions or spreads.",
    "in an object": "An object takes only spreads and properties.",
    "in a class": "A class takes its heritage, an expression, if its sub has bit 1; after that only class elements.",
    "other child": "Every other child is an expression: the argument of a spread or a unary, both sides of a binary or a logical,"
                   " the test and both arms of a conditional, the expressions of a template and of a sequence, a property's key and"
                   " value, an element's key and value.",

    "end": "An end does not lie before its start; it may be equal to it.",

    "depth": "depth | at most 64 | at most 65",
}

# The rows of the kinds whose number of children or sub can be wrong by them.
ROWS = {
    1: "1 | string literal | 0 | exactly 18 | none",
    2: "2 | identifier, as a reference | 0 | 31 | none",
    3: "3 | function | 0 | 31 | none: parameters and body are not recorded",
    4: "4 | arrow | 0 | 31 | none: parameters and body are not recorded",
    5: "5 | other leaf: an expression of any other sort, recorded without its parts | 0 | 31 | none",
    6: "6 | `this` | 0 | 31 | none",
    8: "8 | elision: a hole of an array literal | 0 | 0 | none",
    9: "9 | spread: `...x` | 0 | 1 | one: the expression spread",
    11: "11 | property of an object literal | 0 value only, 1 key and value | 0 | sub 0: the value. Sub 1: the key, then the value",
    14: "14 | unary | 1 `void`, 2 `!`, 3 `typeof`, 4 other | 31 | one: the argument",
    15: "15 | binary | 1 comparison, 2 addition, 3 other | 31 | two: left, right",
    16: "16 | call | 0 | 255 | at least one: the callee, then the arguments",
    17: "17 | `new` | 0 | 127 | at least one: the callee, then the arguments",
    18: "18 | class | bit 0 decorated, bit 1 with heritage; so 0 to 3 | 31 | any: with bit 1 first its heritage, which then must be"
        " there; then its elements",
    20: "20 | logical | 0 `??`, 1 and, 2 or | 31 | two: left, right",
    21: "21 | conditional: `a ? b : c` | 0 | 31 | three: test, consequent, alternate",
}
