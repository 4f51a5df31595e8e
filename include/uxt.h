/* The C functions of libuxt.a and libuxt.so, which `./uxt lib` writes to target/library/ and `./uxt install PREFIX`
 * puts under PREFIX.
 *
 * The library is for x86-64 Linux; to link it needs memcpy and memset, which every C library has, and nothing
 * else. No function allocates, keeps state or ends the program, and each may be called from several threads at
 * once. 256 KB of stack are enough. What a function returns and writes is proved, but for uxt_refusal_text.
 *
 * What the caller owes, and nothing checks: a pointer is not null and its length counts what it points
 * to, also where the length is 0; memory that a function writes to does not overlap what it reads,
 * and nothing else uses it during the call.
 *
 * What a function returns says whether it refused: see each. It has 64 bits, and all of them count. Of
 * uxt_reduce, uxt_list_effects and uxt_list_effects_given the number of a refusal stands in the upper 32: where
 * these are lost, as in an int or through a function that is not declared, a refusal reads as a removable tree or
 * as no effects.
 */
#ifndef UXT_H
#define UXT_H

#include <stddef.h>
#include <stdint.h>

#ifdef __cplusplus
extern "C" {
#endif

/* Of the library. A tree file has a version of its own, 1 or 2. */
#define UXT_VERSION "3.1.0"

/* Why a file, or what is lent, is refused; docs/FORMAT.md has each in full. 0 stands for no refusal. */
#define UXT_REFUSED_MARK 1      /* under 8 bytes, or another mark */
#define UXT_REFUSED_VERSION 2   /* another version of the tree file */
#define UXT_REFUSED_SETTINGS 3  /* a setting that does not exist */
#define UXT_REFUSED_COUNT 4     /* too many records, none, or another length than they take */
#define UXT_REFUSED_RECORD 5    /* a kind that does not exist, or facts, a sub or a byte 3 that do not fit */
#define UXT_REFUSED_KIND 6      /* an assignment, or a logical; a listing takes one that is an and or an or */
#define UXT_REFUSED_SHAPE 7     /* child counts or sizes that do not fit, or a kind where it may not stand */
#define UXT_REFUSED_DEPTH 8     /* too many levels */
#define UXT_REFUSED_OUT 9       /* uxt_reduce: out is too short */
#define UXT_REFUSED_ENTRIES 10  /* uxt_list_effects and uxt_list_effects_given: too few entries */
#define UXT_REFUSED_SCOPE 11    /* uxt_derived: a scope byte over 7 */
#define UXT_REFUSED_ANCESTOR 12 /* uxt_derived: an ancestor byte over 4 */
#define UXT_REFUSED_SPAN 17     /* an end before its start, in a file of version 2 */

/* What UXT_KIND gives of an entry, and byte 0 of a record. */
#define UXT_KIND_STRING 1
#define UXT_KIND_IDENTIFIER 2
#define UXT_KIND_FUNCTION 3
#define UXT_KIND_ARROW 4
#define UXT_KIND_OTHER 5
#define UXT_KIND_THIS 6
#define UXT_KIND_ARRAY 7
#define UXT_KIND_ELISION 8
#define UXT_KIND_SPREAD 9
#define UXT_KIND_OBJECT 10
#define UXT_KIND_PROPERTY 11
#define UXT_KIND_TEMPLATE 12
#define UXT_KIND_SEQUENCE 13
#define UXT_KIND_UNARY 14
#define UXT_KIND_BINARY 15
#define UXT_KIND_CALL 16
#define UXT_KIND_NEW 17
#define UXT_KIND_CLASS 18
#define UXT_KIND_ELEMENT 19
#define UXT_KIND_LOGICAL 20
#define UXT_KIND_CONDITIONAL 21
#define UXT_KIND_ASSIGNMENT 22

/* A short text for the number of a refusal, "accepted" for 0, and a text for any other number, too. It is never
 * null, lasts as long as the program, and is not to be freed. Not proved. */
const char *uxt_refusal_text(unsigned number);

/* The number that uxt_reduce would refuse the tree file src with if out were long enough: 1 to 8 or 17, or 0 where
 * it would take the file. src holds the whole file (docs/FORMAT.md). A file longer than UXT_MOST_SRC is refused, so
 * one byte more is enough of any input to read. */
#define UXT_MOST_SRC 40008

uint64_t uxt_check(const uint8_t *src, size_t src_len);

/* What uxt_reduce, uxt_list_effects and uxt_list_effects_given return holds the number of the refusal, 0 where
 * there is none, and the length or the count. */
#define UXT_NUMBER(answer) ((uint32_t)((answer) >> 32))
#define UXT_LENGTH(answer) ((uint32_t)(answer))
#define UXT_COUNT(answer) ((uint32_t)(answer))

/* Reduces the tree file src to the file that stands for its effects, and writes that to out.
 *
 * src holds the whole file (docs/FORMAT.md). out needs 8 + 16 * (2 * N - 1) bytes, with 20 for 16 in version 2,
 * where N is the record count that bytes 6 and 7 of the file give, lower byte first; UXT_MOST_OUT are enough for
 * every file. out must not overlap src: a tree cannot be reduced where it stands.
 *
 * Returns the number of the refusal, 0 where there is none, times 2^32, plus the length of the file written
 * in bytes. The length is 0 where there is a refusal, and where the tree is removable: nothing of it need
 * stay. The first bytes of out are the file, with the version and the settings of src, and all others keep what
 * they held; where the length is 0 all do. Refused with 1 to 8 or 17 for a fault of the file, under Reduce's
 * limits of 2,000 records and 64 levels; with 9 where out_len is under the need.
 *
 * The file written has at most 2 * N - 1 records and at most one level more than src. uxt_list_effects takes
 * every such file; uxt_reduce only those within its own limits, and none with a logical. */
#define UXT_MOST_OUT 79988

uint64_t uxt_reduce(const uint8_t *src, size_t src_len, uint8_t *out, size_t out_len);

/* Lists the effects of the tree file src in entries, in ECMA-262's order, repeats kept.
 *
 * src holds the whole file (docs/FORMAT.md). entries needs room for twice the record count that bytes 6
 * and 7 of the file give, lower byte first; UXT_MOST_ENTRIES are enough for every file.
 *
 * Returns the number of the refusal, 0 where there is none, times 2^32, plus the count of the effects, 0
 * where there is a refusal. The first entries are the list, and all others keep what they held. Refused
 * with 1 to 8 or 17 for a fault of the file, under List effects' limits of 3,999 records and 65 levels; with 10
 * where entries_len is under twice the record count. Then all entries keep what they held. A file longer than
 * UXT_MOST_LISTED_SRC is refused; that is as long as one that uxt_reduce writes can be.
 *
 * Every test of a conditional or a logical counts as no: uxt_list_effects_given takes those that count as yes.
 *
 * An entry is place * 512 + kind * 2, plus 1 if it is a coercion. The place is the start, in version 2 too. */
#define UXT_MOST_LISTED_SRC 79988
#define UXT_MOST_ENTRIES 7998
#define UXT_PLACE(entry) ((uint32_t)((entry) >> 9))
#define UXT_KIND(entry) ((uint8_t)((entry) >> 1))
#define UXT_COERCION(entry) ((int)((entry) & 1))

uint64_t uxt_list_effects(const uint8_t *src, size_t src_len, uint64_t *entries, size_t entries_len);

/* Lists the effects of the tree file src as uxt_list_effects does, but with tests that count as yes.
 *
 * The first child of a conditional or a logical is its test, which says what runs of the others (docs/FORMAT.md). It
 * counts as yes where its start is one of the yes_len places in yes, and else as no. yes may have any length and
 * any order, and a place may come twice; with yes_len 0 the answer is that of uxt_list_effects.
 *
 * src, entries, what is returned and written, and the refusals are those of uxt_list_effects. Each conditional or
 * logical that is met takes at most one pass over yes. */
uint64_t uxt_list_effects_given(const uint8_t *src, size_t src_len, const uint32_t *yes, size_t yes_len,
                                uint64_t *entries, size_t entries_len);

/* The Derived question: is `this` that of the constructor of a derived class?
 *
 * Both lists run innermost first. A scope byte is the sum of 1 for a block, 2 for an arrow, 4 for a
 * constructor. An ancestor byte is 1 for a field or accessor value, 2 for a constructor method, 3 for a
 * class body, 4 for one with a heritage, 0 for any other.
 *
 * Returns 0 for no and 1 for yes; 11 where a scope byte is over 7, else 12 where an ancestor byte is over 4. */
uint64_t uxt_derived(const uint8_t *scopes, size_t scopes_len, const uint8_t *ancestors, size_t ancestors_len);

#ifdef __cplusplus
}
#endif

#endif
