/* Prints the text of each number, a line each: those of the refusals, those between them, one before and one behind, and
 * the largest. tools/header.py holds the lines to docs/FORMAT.md. */
#include <limits.h>
#include <stdio.h>

#include "uxt.h"

int main(void) {
    for (unsigned number = 0; number <= UXT_REFUSED_SPAN + 1; number++) {
        printf("%u %s\n", number, uxt_refusal_text(number));
    }
    printf("%u %s\n", UINT_MAX, uxt_refusal_text(UINT_MAX));
    return 0;
}
