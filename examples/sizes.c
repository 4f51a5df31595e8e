/* Prints how many bytes, records and effects the tree file of standard input has, and how many are left.
 * Built by `./uxt lib`'s line; `./test` builds and runs it. */
#include <stdio.h>

#include "uxt.h"

/* One byte more than is taken, so that a longer file is refused. */
static uint8_t file[UXT_MOST_SRC + 1], left[UXT_MOST_OUT];
static uint64_t entries[UXT_MOST_ENTRIES];

static unsigned records(const uint8_t *tree) {
    return tree[6] + 256u * tree[7];
}

/* Reduce has taken the file, and List effects takes all that Reduce takes or keeps. */
static unsigned effects(const uint8_t *tree, size_t length) {
    return UXT_COUNT(uxt_list_effects(tree, length, entries, UXT_MOST_ENTRIES));
}

int main(void) {
    size_t length = fread(file, 1, sizeof file, stdin);
    uint64_t answer = uxt_reduce(file, length, left, sizeof left);
    if (UXT_NUMBER(answer) != 0) {
        printf("refused %u\n", (unsigned)UXT_NUMBER(answer));
        return 0;
    }
    printf("before: %zu bytes, %u records, %u effects\n", length, records(file), effects(file, length));
    if (UXT_LENGTH(answer) == 0) {
        printf("after: removable\n");
        return 0;
    }
    unsigned kept = UXT_LENGTH(answer);
    printf("after: %u bytes, %u records, %u effects\n", kept, records(left), effects(left, kept));
    return 0;
}
