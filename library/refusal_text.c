/* A text for each number, in the words of docs/FORMAT.md's tables of refusals. */
#include "uxt.h"

const char *uxt_refusal_text(unsigned number) {
    switch (number) {
    case 0:
        return "accepted";
    case UXT_REFUSED_MARK:
        return "it has under 8 bytes, or its mark is wrong";
    case UXT_REFUSED_VERSION:
        return "its version is neither 1 nor 2";
    case UXT_REFUSED_SETTINGS:
        return "one of the setting bits 3 to 7 is set";
    case UXT_REFUSED_COUNT:
        return "its count N is not in the operation's range, or its length is not 8 + 16 * N bytes, with 20 for 16 in "
               "version 2";
    case UXT_REFUSED_RECORD:
        return "a record's kind is not 1 to 22, or its facts or its sub do not fit its kind, or its byte 3 is not 0, or it "
               "is an addition with a string part and its symbol fact is \"yes\"";
    case UXT_REFUSED_KIND:
        return "a record is of kind 22, or of kind 20 (List effects takes one with sub 1 or 2)";
    case UXT_REFUSED_SHAPE:
        return "a record's number of children does not fit its kind and sub, a subtree size does not fit the records, "
               "the root's size is not N, or a kind stands where it may not";
    case UXT_REFUSED_DEPTH:
        return "the depth is over the operation's limit";
    case UXT_REFUSED_OUT:
        return "under 8 + 16 * (2 * N - 1) bytes of output are lent, with 20 for 16 in version 2";
    case UXT_REFUSED_ENTRIES:
        return "under 2 * N entries are lent";
    case UXT_REFUSED_SCOPE:
        return "a scope byte is over 7";
    case UXT_REFUSED_ANCESTOR:
        return "an ancestor byte is over 4";
    case UXT_REFUSED_SPAN:
        return "a record's end lies before its start";
    default:
        return "no such refusal";
    }
}
