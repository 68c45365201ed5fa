/* `needlevale_compare` a second time, written from document 01's order of terms, with a fault where FAULT is 1 to 4:
 * the last pair of children that differs decides; the first pair always does; children are compared by number; child
 * counts are passed over. Linked with -Wl,--wrap=needlevale_compare, tests/c/scripts.c must agree with FAULT 0 and
 * notice each of the others. scripts/after-orders does so. Assumes a well-formed store and two of its terms. */
#include <string.h>

#include "needlevale.h"

#ifndef FAULT
#define FAULT 0
#endif

needlevale_order __wrap_needlevale_compare(const needlevale_term *, size_t, const needlevale_entry *, size_t, size_t,
                                           size_t, size_t, size_t);

static int numbers(uint64_t a, uint64_t b)
{
    return (a > b) - (a < b);
}

/* Byte by byte; where one name begins the other, the shorter first. */
static int words(const uint8_t *a, const uint8_t *b)
{
    int order = memcmp(a + 1, b + 1, a[0] < b[0] ? a[0] : b[0]);
    return order ? order : numbers(a[0], b[0]);
}

static int compared(const needlevale_term *terms, const needlevale_entry *names, uint64_t first, uint64_t second)
{
    const needlevale_term *a = &terms[first], *b = &terms[second];
    uint64_t shared = a->count < b->count ? a->count : b->count;
    int order = numbers(a->kind, b->kind);
    if (order || first == second)
        return order;
    if (!a->kind)
        return (a->literal > b->literal) - (a->literal < b->literal);
    order = words(names[a->symbol].bytes, names[b->symbol].bytes);
    if (!order && FAULT != 4)
        order = numbers(a->count, b->count);
    for (uint64_t k = 0; !order && k < (FAULT == 2 && shared ? 1 : shared); k++) {
        uint64_t at = FAULT == 1 ? shared - 1 - k : k;
        order = FAULT == 3 ? numbers(a->children[at], b->children[at])
                           : compared(terms, names, a->children[at], b->children[at]);
    }
    return order;
}

needlevale_order __wrap_needlevale_compare(const needlevale_term *terms, size_t terms_length,
                                           const needlevale_entry *names, size_t names_length, size_t term_count,
                                           size_t name_count, size_t first, size_t second)
{
    int order = compared(terms, names, first, second);
    needlevale_order told = {0, order > 0 ? 1 : order < 0 ? -1 : 0};
    (void)terms_length, (void)names_length, (void)term_count, (void)name_count;
    return told;
}
