/* Keeps a term store of its own: adds terms by hand, builds the best term of a table file beside them, and prints
 * each term's text.
 *
 *   gcc -O2 examples/c/store.c $(pkg-config --cflags --libs needlevale) -o store
 *   ./store examples/worked/table.bin
 *
 * Exit status 0; a refusal's name goes to standard error, 1; wrong usage is 2. Assumes an x86-64 Linux and, of the
 * first line, that `make install` was run. */
#include <inttypes.h>
#include <stdio.h>
#include <string.h>

#include "needlevale.h"

static needlevale_term terms[NEEDLEVALE_MOST_TERMS];
static needlevale_entry names[NEEDLEVALE_MOST_NAMES];
static size_t term_count, name_count;

static int refused(const char *what, int64_t status)
{
    fprintf(stderr, "%s is refused: %s (%d)\n", what, needlevale_name(status), (int)-status);
    return 1;
}

/* Takes the counts over, which are right after a refusal too. */
static int64_t taken_over(needlevale_added added)
{
    term_count = added.term_count;
    name_count = added.name_count;
    return added.status;
}

static int print_term(size_t term)
{
    uint8_t text[4096];
    needlevale_let_length lets = needlevale_let_text(terms, NEEDLEVALE_MOST_TERMS, names, NEEDLEVALE_MOST_NAMES,
                                                     term_count, name_count, term, NULL, 0, (const uint8_t *)"t", 1, 0,
                                                     false, text, sizeof text);
    if (lets.length < 0)
        return refused("a text", lets.length);
    printf("term %zu of %zu:%.*s\n", term, term_count, (int)lets.length, (const char *)text);
    return 0;
}

int main(int count, char **words)
{
    static uint8_t file[NEEDLEVALE_LONGEST_INPUT];
    FILE *opened = count == 2 ? fopen(words[1], "rb") : NULL;
    if (!opened) {
        fputs("store: give a table file, such as examples/worked/table.bin\n", stderr);
        return 2;
    }
    size_t length = fread(file, 1, sizeof file, opened);
    fclose(opened);

    /* (Half x 10), by hand. */
    uint64_t children[2] = {0, 1};
    int64_t status = taken_over(needlevale_add_variable(terms, NEEDLEVALE_MOST_TERMS, names, NEEDLEVALE_MOST_NAMES,
                                                        term_count, name_count, (const uint8_t *)"x", 1));
    if (!status)
        status = taken_over(needlevale_add_literal(terms, NEEDLEVALE_MOST_TERMS, names, NEEDLEVALE_MOST_NAMES,
                                                   term_count, name_count, 10));
    if (!status)
        status = taken_over(needlevale_add_application(terms, NEEDLEVALE_MOST_TERMS, names, NEEDLEVALE_MOST_NAMES,
                                                       term_count, name_count, (const uint8_t *)"Half", 4, children,
                                                       2));
    if (status < 0)
        return refused("a term", status);

    /* The best term of class 2 of sort 0, in the same store. */
    needlevale_best_term best = needlevale_best(file, length, 0, 2, terms, NEEDLEVALE_MOST_TERMS, names,
                                                NEEDLEVALE_MOST_NAMES, term_count, name_count);
    term_count = best.term_count;
    name_count = best.name_count;
    if (best.status < 0)
        return refused("best", best.status);
    printf("cost %" PRIu64 ", %" PRIu64 " passes\n", best.cost, best.passes);
    return print_term(2) || print_term(best.term);
}
