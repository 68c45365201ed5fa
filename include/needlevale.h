/* Needlevale as a C library: the program's answer, a term store of the caller's with its calls, the texts of terms,
 * and best and variants of a table file (x86-64 Linux). Installed, it is linked by the words of `pkg-config
 * --cflags --libs needlevale`; else with the archive of `rt lib` in crates/needlevale_c. The rules are in
 * docs/RULES.md; R-order-4 and the like are its names. Paths are those of the sources.
 *
 * Proved of every call, for every content of the buffers and every number: it returns; it reads and writes nothing
 * but its buffers, and of those that are const it writes nothing; what comes back and what the buffers hold then is
 * exactly what the definitions written from the rules say (each call names its own; `lent_store` of
 * crates/lent/specs/Records.antt makes a store of two arrays); a refusal comes back as one of -1 to -17, is the
 * first of the call's order that holds, and changes no buffer. The statements are in crates/needlevale_c/src, what
 * follows from them in crates/needlevale_c/specs/Promises.antt and on the page of each definition's crate.
 *
 * Not proved, and the caller's part:
 * - each pointer stands for as many readable elements as its length says, and those that are not const are
 *   writable;
 * - no two buffers of a call overlap;
 * - a null pointer goes with length 0, and no length in bytes is over 2^63-1;
 * - there is stack for the call: NEEDLEVALE_STACK_ and the call's name below. A thread with less ends with a fault
 *   at its guard page.
 * Not proved either: this header, the C compiler, the linker, and the C library's memory functions.
 *
 * A call keeps nothing between calls and may run in several threads at once, on buffers of their own; const ones
 * they may share. */
#ifndef NEEDLEVALE_H
#define NEEDLEVALE_H

#include <stdbool.h>
#include <stddef.h>
#include <stdint.h>

#ifdef __cplusplus
extern "C" {
#endif

/* The version, here and nowhere else: the Makefile reads these lines. While the first number is 0, the second goes up
 * with every change that a caller must follow, and programs built for one do not run with another. */
#define NEEDLEVALE_VERSION_MAJOR 0
#define NEEDLEVALE_VERSION_MINOR 2
#define NEEDLEVALE_VERSION_PATCH 0

/* The same as a text: three numbers with a dot between. */
#define NEEDLEVALE_VERSION \
    NEEDLEVALE_TEXT(NEEDLEVALE_VERSION_MAJOR) \
    "." NEEDLEVALE_TEXT(NEEDLEVALE_VERSION_MINOR) "." NEEDLEVALE_TEXT(NEEDLEVALE_VERSION_PATCH)
#define NEEDLEVALE_TEXT(number) NEEDLEVALE_TEXT_OF(number)
#define NEEDLEVALE_TEXT_OF(number) #number

/* The same as one number, and that of the library that is linked. */
#define NEEDLEVALE_VERSION_NUMBER \
    (NEEDLEVALE_VERSION_MAJOR * 1000000 + NEEDLEVALE_VERSION_MINOR * 1000 + NEEDLEVALE_VERSION_PATCH)
uint64_t needlevale_version(void);

/* The refusals, from the table of docs/RULES.md (scripts/refusals writes them). A call returns minus the number,
 * exactly when: */
enum needlevale_refusal {
    NEEDLEVALE_SHORT = 1,         /* the input ends before a field does */
    NEEDLEVALE_BAD_VERSION = 2,   /* the version is not 1 */
    NEEDLEVALE_BAD_SIZE = 3,      /* a class count or the running total of classes is over 512; an arity or a count of
                                     children is over 8; a row count is over 1,024; a let start count is over
                                     4,294,966,271 */
    NEEDLEVALE_BAD_NAME = 4,      /* a name's length is 0 or over 31, or a byte of it is not allowed; a let prefix may
                                     be empty */
    NEEDLEVALE_DUP_NAME = 5,      /* a function's name comes again */
    NEEDLEVALE_BAD_SORT = 6,      /* a sort number is not below the number of sorts, or an output sort is a base
                                     sort */
    NEEDLEVALE_BAD_FUNCTION = 7,  /* a row's function is not below the number of functions */
    NEEDLEVALE_BAD_VALUE = 8,     /* a cell is not below the bound of its column */
    NEEDLEVALE_TRAILING = 9,      /* a pad bit is set, or bytes follow */
    NEEDLEVALE_BAD_ROOT = 10,     /* the sort that is asked for is not below the number of sorts, or the value is not
                                     below its bound: the class count of an eq sort, the number of literals of a base
                                     sort */
    NEEDLEVALE_NO_TERM = 11,      /* best only: no term derives the root */
    NEEDLEVALE_TOO_DEAR = 12,     /* best: some term derives the root and each costs 2^64-1 or more; variants: the cost
                                     of a kept one is 2^64-1 after saturation */
    NEEDLEVALE_NO_ROOM = 13,      /* the new terms or names are more than the store has room for, or the result is
                                     longer than the lent buffer */
    NEEDLEVALE_BAD_TERM = 14,     /* a term number is not in the store: it is not below the count of terms */
    NEEDLEVALE_ABSENT = 15,       /* lookup only: the term is not there */
    NEEDLEVALE_BAD_MODE = 16,     /* the program's query has mode 3 */
    NEEDLEVALE_BAD_STORE = 17     /* the lent store is not well formed */
};

/* The longest input that is not refused: three bytes of query, then the longest table file. */
#define NEEDLEVALE_LONGEST_INPUT (3 + 21385)

/* The room that the program has for its output. The call itself takes any. */
#define NEEDLEVALE_PROGRAM_OUTPUT 16384

/* Numbers of a record in the flat form (kind, symbol, count, eight children), and bytes of a name (length, bytes,
 * zeros). */
#define NEEDLEVALE_RECORD 11
#define NEEDLEVALE_NAME 32

/* The most terms and names that a store can have. */
#define NEEDLEVALE_MOST_TERMS 1024
#define NEEDLEVALE_MOST_NAMES 128

/* The stack of a thread that is to make a call, in bytes: what the call took at most on its deepest inputs (a term
 * 1,024 deep, a table 512 classes deep, the longest file, a full store), a tenth more, and 12 KiB for the thread
 * itself. Measured and tested, not proved: scripts/stacks measures and writes these lines, and holds them to the
 * library. A call from a thread that goes on needs as much of its stack to be free. */
#define NEEDLEVALE_STACK_ANSWER 618496
#define NEEDLEVALE_STACK_READ 139264
#define NEEDLEVALE_STACK_ADD_LITERAL_FLAT 32768
#define NEEDLEVALE_STACK_BEST 716800
#define NEEDLEVALE_STACK_VARIANTS 585728
#define NEEDLEVALE_STACK_PLAIN_TEXT 307200
#define NEEDLEVALE_STACK_LET_TEXT 344064
#define NEEDLEVALE_STACK_SIZE 147456
#define NEEDLEVALE_STACK_GET 147456
#define NEEDLEVALE_STACK_COMPARE 147456
#define NEEDLEVALE_STACK_SORT 172032
#define NEEDLEVALE_STACK_FIND_LITERAL 147456
#define NEEDLEVALE_STACK_FIND_VARIABLE 147456
#define NEEDLEVALE_STACK_FIND_APPLICATION 147456
#define NEEDLEVALE_STACK_ADD_LITERAL 253952
#define NEEDLEVALE_STACK_ADD_VARIABLE 258048
#define NEEDLEVALE_STACK_ADD_APPLICATION 258048

/* The same for every call. */
#define NEEDLEVALE_STACK 716800

/* ---- The program */

/* The answer to the query and table file at input: its text, without a zero at the end, is put at the start of
 * output and its length is returned; or minus a refusal's number. Bytes past the text stay. The term store is the
 * call's own and starts empty, with room for 1,024 terms and 128 names. NoRoom is given exactly when that store or
 * output_length is too small. Equal to `replied` of crates/program_rules/specs/Reply.antt. Refusals, in order
 * (R-order-1): the query's 1 and 16, the file's first fault (1 to 9), 10, 11 (best only), 12, 13. */
int64_t needlevale_answer(const uint8_t *input, size_t input_length, uint8_t *output, size_t output_length);

/* ---- A table file */

/* Status 0 and how many sorts, literals, functions and rows there are; or minus a refusal's number, and zeros. */
typedef struct needlevale_shape {
    int64_t status;
    size_t sorts, literals, functions, rows;
} needlevale_shape;

/* Whether a table file is accepted, and how much it holds. Equal to `shape_of` of crates/c_told/specs/Files.antt, of
 * `table_at` of crates/file_rules/specs/File.antt. Refusals (R-order-2): the file's first fault, 1 to 9. */
needlevale_shape needlevale_read(const uint8_t *file, size_t file_length);

/* ---- A term store of the caller's */

/* A term record: its kind (0 literal, 1 variable, 2 application), the number of its symbol, the count of its children,
 * its literal, and child numbers. What its kind does not use is zero. */
typedef struct needlevale_term {
    uint64_t kind, symbol, count;
    int64_t literal;
    uint64_t children[8];
} needlevale_term;

/* A name's entry: its length, 1 to 31, its bytes, and zeros. */
typedef struct needlevale_entry {
    uint8_t bytes[NEEDLEVALE_NAME];
} needlevale_entry;

/* A store is an array of term records and an array of name entries, and how many of each are in use: terms,
 * terms_length, names, names_length, term_count and name_count of a call. It has room for as many terms and names
 * as the arrays are long, at most 1,024 and 128; of a longer array the rest is no part of it and stays. What the
 * records and entries past the counts hold is free, and stays where a call does not use it. A store with nothing in
 * use is well formed, whatever the arrays hold, and so is what the calls leave of one; a store of the caller's own
 * making is, if R-term-6 holds. Every call looks at the whole store first, and gives 17 where it is not well
 * formed. */

/* Status 0 and a count or a term's number; or minus a refusal's number, and 0. */
typedef struct needlevale_number {
    int64_t status;
    size_t number;
} needlevale_number;

/* Status 0 and a term's number; or minus a refusal's number, and 0. Then the counts of the store after the call, which
 * are those before it where it was refused: they can be taken over in any case. */
typedef struct needlevale_added {
    int64_t status;
    size_t term, term_count, name_count;
} needlevale_added;

/* Status 0 and a term's record; or minus a refusal's number, and a record of zeros. */
typedef struct needlevale_got {
    int64_t status;
    needlevale_term term;
} needlevale_got;

/* Status 0, and -1, 0 or 1 as the first term is less than the second, the same or more; or minus a refusal's number,
 * and 0. */
typedef struct needlevale_order {
    int64_t status, order;
} needlevale_order;

/* The number of a literal's term, which is added if it is not there. If it is there, that needs no room. Equal to
 * `add_literal` of crates/term/specs/Calls.antt. Refusals, in order (R-order-6): 17, 13. */
needlevale_added needlevale_add_literal(needlevale_term *terms, size_t terms_length, const needlevale_entry *names,
                                        size_t names_length, size_t term_count, size_t name_count, int64_t literal);

/* The number of a variable's term, which is added if it is not there, with its name if that is new. Equal to
 * `add_variable` there. Refusals, in order (R-order-5): 17, 4, 13. */
needlevale_added needlevale_add_variable(needlevale_term *terms, size_t terms_length, needlevale_entry *names,
                                         size_t names_length, size_t term_count, size_t name_count,
                                         const uint8_t *name, size_t name_length);

/* The number of an application's term, likewise: its head's name, and the numbers of its children, 0 to 8. Equal to
 * `add_application` there. Refusals, in order (R-order-4): 17, 4, 3, 14, 13. */
needlevale_added needlevale_add_application(needlevale_term *terms, size_t terms_length, needlevale_entry *names,
                                            size_t names_length, size_t term_count, size_t name_count,
                                            const uint8_t *name, size_t name_length, const uint64_t *children,
                                            size_t children_length);

/* The number of a literal's term that is there. Equal to `find_literal` there. Refusals, in order (R-order-9): 17,
 * 15. */
needlevale_number needlevale_find_literal(const needlevale_term *terms, size_t terms_length,
                                          const needlevale_entry *names, size_t names_length, size_t term_count,
                                          size_t name_count, int64_t literal);

/* The number of a variable's term that is there. Equal to `find_variable` there. Refusals, in order (R-order-8): 17, 4,
 * 15. */
needlevale_number needlevale_find_variable(const needlevale_term *terms, size_t terms_length,
                                           const needlevale_entry *names, size_t names_length, size_t term_count,
                                           size_t name_count, const uint8_t *name, size_t name_length);

/* The number of an application's term that is there. Equal to `find_application` there. Refusals, in order (R-order-7):
 * 17, 4, 3, 14, 15. */
needlevale_number needlevale_find_application(const needlevale_term *terms, size_t terms_length,
                                              const needlevale_entry *names, size_t names_length, size_t term_count,
                                              size_t name_count, const uint8_t *name, size_t name_length,
                                              const uint64_t *children, size_t children_length);

/* How many terms there are, once the store is found well formed. Equal to `size_of` there. Refusals (R-order-10):
 * 17. */
needlevale_number needlevale_size(const needlevale_term *terms, size_t terms_length, const needlevale_entry *names,
                                  size_t names_length, size_t term_count, size_t name_count);

/* The record of a term. Equal to `get_term` there. Refusals, in order (R-order-11): 17, 14. */
needlevale_got needlevale_get(const needlevale_term *terms, size_t terms_length, const needlevale_entry *names,
                              size_t names_length, size_t term_count, size_t name_count, size_t term);

/* How two terms stand in the order of terms (R-term-14). Equal to `compare_terms` there. It goes down into the first
 * children that differ, with no list of pairs that wait and without calling itself: its stack is that of reading the
 * store, however deep the terms are. Refusals, in order (R-order-11): 17, 14. */
needlevale_order needlevale_compare(const needlevale_term *terms, size_t terms_length, const needlevale_entry *names,
                                    size_t names_length, size_t term_count, size_t name_count, size_t first,
                                    size_t second);

/* Sorts a list of term numbers into that order, and keeps repeats: 0, or minus a refusal's number. Equal to
 * `sort_terms` there. Its stack does not grow with the list. Refusals, in order (R-order-11): 17, 14. */
int64_t needlevale_sort(const needlevale_term *terms, size_t terms_length, const needlevale_entry *names,
                        size_t names_length, size_t term_count, size_t name_count, uint64_t *list,
                        size_t list_length);

/* ---- The texts of a term */

/* The length of a let text, or minus a refusal's number; and the next unused count, or 0. */
typedef struct needlevale_let_length {
    int64_t length;
    uint64_t next;
} needlevale_let_length;

/* The plain text of a term, without a zero at the end, at the start of output: its length, or minus a refusal's
 * number. Bytes past the text stay. Equal to `plain_told` of crates/text/specs/Told.antt. Refusals, in order
 * (R-order-12): 17, 14, 13. */
int64_t needlevale_plain_text(const needlevale_term *terms, size_t terms_length, const needlevale_entry *names,
                              size_t names_length, size_t term_count, size_t name_count, size_t term, uint8_t *output,
                              size_t output_length);

/* The let text of a term, likewise. A let name is the prefix, which may be empty, the hint and a count from start on;
 * where bare is true, count 0 is not printed. Equal to `let_told` of crates/text/specs/LetTold.antt. Refusals, in order
 * (R-order-13): 17, 14, 4 of the prefix, 4 of the hint, 3 of start, 13. */
needlevale_let_length needlevale_let_text(const needlevale_term *terms, size_t terms_length,
                                          const needlevale_entry *names, size_t names_length, size_t term_count,
                                          size_t name_count, size_t term, const uint8_t *prefix, size_t prefix_length,
                                          const uint8_t *hint, size_t hint_length, uint64_t start, bool bare,
                                          uint8_t *output, size_t output_length);

/* ---- Best and variants of a table file */

/* Status 0, the cost, the term's number and the passes; or minus a refusal's number, and zeros. Then the counts of the
 * store, as above. */
typedef struct needlevale_best_term {
    int64_t status;
    uint64_t cost;
    size_t term;
    uint64_t passes;
    size_t term_count, name_count;
} needlevale_best_term;

/* Status 0, how many variants are kept and the passes; or minus a refusal's number, and zeros. Then the counts, as
 * above. */
typedef struct needlevale_kept {
    int64_t status;
    size_t count;
    uint64_t passes;
    size_t term_count, name_count;
} needlevale_kept;

/* The best term of a root of the table file at file, built in the store. Equal to `best_at` of
 * crates/answer_rules/specs/Best.antt. Refusals, in order (R-order-3): the file's first fault (1 to 9), 10, 17, 11,
 * 12, 13. */
needlevale_best_term needlevale_best(const uint8_t *file, size_t file_length, uint64_t sort, uint64_t value,
                                     needlevale_term *terms, size_t terms_length, needlevale_entry *names,
                                     size_t names_length, size_t term_count, size_t name_count);

/* At most `most` variants of a root of the table file at file, built in the store: their costs and term numbers at
 * the start of costs and found, the cheapest first; what is past them stays. A base root has one, whatever `most`
 * is. Equal to `variants_at` of crates/answer_rules/specs/Variants.antt. Refusals, in order (R-order-3): the file's
 * first fault (1 to 9), 10, 17, 12, 13, which is given too where costs or found is too short. */
needlevale_kept needlevale_variants(const uint8_t *file, size_t file_length, uint64_t sort, uint64_t value, size_t most,
                                    needlevale_term *terms, size_t terms_length, needlevale_entry *names,
                                    size_t names_length, size_t term_count, size_t name_count, uint64_t *costs,
                                    size_t costs_length, uint64_t *found, size_t found_length);

/* ---- The flat form of a store (R-term-7) */

/* The number of a literal's term in a flat store of so many terms and symbols, added if it is not there; or minus a
 * refusal's number. Where the number is terms, the store has one term more after the call. Lengths count elements:
 * NEEDLEVALE_RECORD numbers and one literal a term, NEEDLEVALE_NAME bytes a symbol. Equal to `add_literal` of
 * crates/term/specs/Calls.antt. Refusals, in order (R-order-6): 17, 13. */
int64_t needlevale_add_literal_flat(uint64_t *records, size_t records_length, int64_t *literals, size_t literals_length,
                                    const uint8_t *names, size_t names_length, size_t terms, size_t symbols,
                                    int64_t value);

/* The name of a refusal, for what a call returned below 0. */
static inline const char *needlevale_name(int64_t returned)
{
    static const char *const names[] = {
        "Short", "BadVersion", "BadSize", "BadName", "DupName", "BadSort", "BadFunction", "BadValue", "Trailing",
        "BadRoot", "NoTerm", "TooDear", "NoRoom", "BadTerm", "Absent", "BadMode", "BadStore",
    };
    return returned < 0 && returned >= -(int64_t)(sizeof names / sizeof *names) ? names[-returned - 1] : "no refusal";
}

#ifdef __cplusplus
}
#endif

#endif
