/* Calls with a fault of our making, for the test of the tests: linked with -Wl,--wrap for each call here and
 * -DFAULT=1 to 5, tests/c/refusals.c must notice the fault. scripts/after-boundary does so. Assumes GNU's or LLVM's
 * linker. */
#include "needlevale.h"

needlevale_added __real_needlevale_add_variable(needlevale_term *, size_t, needlevale_entry *, size_t, size_t, size_t,
                                                const uint8_t *, size_t);
needlevale_added __wrap_needlevale_add_variable(needlevale_term *, size_t, needlevale_entry *, size_t, size_t, size_t,
                                                const uint8_t *, size_t);
needlevale_order __real_needlevale_compare(const needlevale_term *, size_t, const needlevale_entry *, size_t, size_t,
                                           size_t, size_t, size_t);
needlevale_order __wrap_needlevale_compare(const needlevale_term *, size_t, const needlevale_entry *, size_t, size_t,
                                           size_t, size_t, size_t);
int64_t __real_needlevale_plain_text(const needlevale_term *, size_t, const needlevale_entry *, size_t, size_t, size_t,
                                     size_t, uint8_t *, size_t);
int64_t __wrap_needlevale_plain_text(const needlevale_term *, size_t, const needlevale_entry *, size_t, size_t, size_t,
                                     size_t, uint8_t *, size_t);
int64_t __real_needlevale_sort(const needlevale_term *, size_t, const needlevale_entry *, size_t, size_t, size_t,
                               uint64_t *, size_t);
int64_t __wrap_needlevale_sort(const needlevale_term *, size_t, const needlevale_entry *, size_t, size_t, size_t,
                               uint64_t *, size_t);

/* Fault 1: a refusal changes what was lent. */
needlevale_added __wrap_needlevale_add_variable(needlevale_term *terms, size_t terms_length, needlevale_entry *names,
                                                size_t names_length, size_t term_count, size_t name_count,
                                                const uint8_t *name, size_t name_length)
{
    needlevale_added added = __real_needlevale_add_variable(terms, terms_length, names, names_length, term_count,
                                                            name_count, name, name_length);
    if (FAULT == 1 && added.status < 0 && terms_length)
        terms[terms_length - 1].children[7]++;
    return added;
}

/* Fault 2: the wrong way round. */
needlevale_order __wrap_needlevale_compare(const needlevale_term *terms, size_t terms_length,
                                           const needlevale_entry *names, size_t names_length, size_t term_count,
                                           size_t name_count, size_t first, size_t second)
{
    needlevale_order order = __real_needlevale_compare(terms, terms_length, names, names_length, term_count,
                                                       name_count, first, second);
    if (FAULT == 2)
        order.order = -order.order;
    return order;
}

/* Fault 3: a byte behind the buffer is written. Fault 4: a const buffer is. */
int64_t __wrap_needlevale_plain_text(const needlevale_term *terms, size_t terms_length, const needlevale_entry *names,
                                     size_t names_length, size_t term_count, size_t name_count, size_t term,
                                     uint8_t *output, size_t output_length)
{
    int64_t length = __real_needlevale_plain_text(terms, terms_length, names, names_length, term_count, name_count,
                                                  term, output, output_length);
    if (FAULT == 3 && length > 0)
        output[output_length] = 0;
    if (FAULT == 4 && terms_length)
        *(volatile uint64_t *)(uintptr_t)&terms[0].kind = terms[0].kind;
    return length;
}

/* Fault 5: a number before the list is read. */
int64_t __wrap_needlevale_sort(const needlevale_term *terms, size_t terms_length, const needlevale_entry *names,
                               size_t names_length, size_t term_count, size_t name_count, uint64_t *list,
                               size_t list_length)
{
    if (FAULT == 5 && list_length)
        (void)((volatile uint64_t *)list)[-1];
    return __real_needlevale_sort(terms, terms_length, names, names_length, term_count, name_count, list, list_length);
}
