/* Replays recorded answers through the C boundary, on buffers with forbidden memory before and behind them.
 *
 *   replay FILE..        files of examples/recorded, replay-*.bin, whose README gives their form
 *
 * Each answer is asked for with its own room, at both edges of the memory; with one byte less, which is NoRoom; and
 * with more, or with none. A refusal is asked for with room and without. Then a literal is added to stores of many
 * small lengths, whole records or not, at both edges. Where a length is 0 the pointer is null at the front edge. A
 * touch outside a buffer ends the program, and what a call must leave alone is looked at each time. Two threads share
 * the cases, with buffers of their own and no more stack than needlevale.h says.
 * Prints one line, status 0; at the first difference, one sentence, status 1; wrong usage is 2. Assumes a 64-bit
 * Linux. */
#define _DEFAULT_SOURCE
#include <inttypes.h>
#include <pthread.h>
#include <stdio.h>
#include <stdlib.h>
#include <string.h>
#include <sys/mman.h>
#include <unistd.h>

#include "needlevale.h"

enum { ROOM = 1 << 16, UNTOUCHED = 0xA5, THREADS = 2 };
enum edge { FRONT, BACK };

/* ROOM bytes with forbidden memory on both sides. */
struct fenced {
    uint8_t *start, *end;
};

struct worker {
    const char *place;
    uint32_t number, cases, adds, mine;
    struct fenced input, output, names;
    char **paths;
    pthread_t thread;
};

static void expect(const struct worker *at, int holds, const char *what)
{
    if (holds)
        return;
    fprintf(stderr, "replay: %s, case %" PRIu32 ": %s\n", at->place, at->number, what);
    exit(1);
}

static struct fenced with_fences(const struct worker *at)
{
    size_t fence = (size_t)sysconf(_SC_PAGESIZE);
    struct fenced made = {NULL, NULL};
    void *whole = mmap(NULL, ROOM + 2 * fence, PROT_NONE, MAP_PRIVATE | MAP_ANONYMOUS, -1, 0);
    expect(at, whole != MAP_FAILED, "no memory for a buffer");
    made.start = (uint8_t *)whole + fence;
    made.end = made.start + ROOM;
    expect(at, !mprotect(made.start, ROOM, PROT_READ | PROT_WRITE), "no memory for a buffer");
    return made;
}

/* So many bytes at an edge. */
static uint8_t *lent(const struct fenced *memory, size_t length, enum edge edge)
{
    return edge == FRONT ? memory->start : memory->end - length;
}

static int untouched(const uint8_t *from, const uint8_t *to)
{
    return from == to || (*from == UNTOUCHED && !memcmp(from, from + 1, (size_t)(to - from) - 1));
}

/* Asks with the given room and looks at the whole buffer, before and behind the text too. */
static int64_t ask(struct worker *at, const uint8_t *input, size_t length, size_t room, enum edge edge,
                   const uint8_t *text)
{
    uint8_t *lent_input = lent(&at->input, length, edge), *output = lent(&at->output, room, edge);
    int nulls = edge == FRONT;
    memset(at->output.start, UNTOUCHED, ROOM);
    memcpy(lent_input, input, length);
    int64_t answer = needlevale_answer(nulls && !length ? NULL : lent_input, length,
                                       nulls && !room ? NULL : output, room);
    size_t written = answer < 0 ? 0 : (size_t)answer;
    expect(at, written <= room && !memcmp(output, text, written), "another text");
    expect(at, untouched(output + written, at->output.end), "bytes past the answer were changed");
    expect(at, untouched(at->output.start, output), "bytes before the buffer were changed");
    expect(at, !memcmp(lent_input, input, length), "the input was changed");
    return answer;
}

static void one_case(struct worker *at, const uint8_t *input, size_t length, const uint8_t *text, size_t wanted)
{
    enum edge here = at->number % 2 ? FRONT : BACK, there = here == FRONT ? BACK : FRONT;
    int64_t answer = (int64_t)wanted;
    if (!strncmp((const char *)text, "refused ", 8)) {
        int refusal = atoi((const char *)text + 8);
        expect(at, ask(at, input, length, NEEDLEVALE_PROGRAM_OUTPUT, here, text) == -refusal, "another refusal");
        if (refusal != NEEDLEVALE_NO_ROOM)
            expect(at, ask(at, input, length, 0, there, text) == -refusal, "another refusal without room");
        return;
    }
    expect(at, ask(at, input, length, wanted, here, text) == answer, "another length");
    expect(at, ask(at, input, length, wanted, there, text) == answer, "another length at the other edge");
    expect(at, ask(at, input, length, wanted - 1, here, text) == -NEEDLEVALE_NO_ROOM, "no NoRoom with one byte less");
    if (at->number % 4 < 2)
        expect(at, ask(at, input, length, NEEDLEVALE_PROGRAM_OUTPUT, there, text) == answer, "another with more room");
    else
        expect(at, ask(at, input, length, 0, there, text) == -NEEDLEVALE_NO_ROOM, "no NoRoom without room");
}

/* The next item: its length, four bytes, the lowest first, then its bytes and a zero of ours. */
static uint8_t *item(const struct worker *at, FILE *file, uint32_t *length)
{
    uint8_t head[4], *bytes;
    if (fread(head, 1, 4, file) != 4)
        return NULL;
    *length = head[0] | (uint32_t)head[1] << 8 | (uint32_t)head[2] << 16 | (uint32_t)head[3] << 24;
    expect(at, *length <= ROOM, "an item is too long");
    bytes = (uint8_t *)calloc(*length + 1, 1);
    expect(at, bytes && fread(bytes, 1, *length, file) == *length, "an item ends early");
    return bytes;
}

static void replay(struct worker *at, const char *path)
{
    FILE *file = fopen(path, "rb");
    uint8_t *input, *answer;
    uint32_t length, wanted;
    at->place = path;
    expect(at, file != NULL, "the file cannot be read");
    for (at->number = 0; (input = item(at, file, &length)); at->number++) {
        answer = item(at, file, &wanted);
        expect(at, answer != NULL, "an answer is missing");
        if (at->number % THREADS == at->mine) {
            one_case(at, input, length, answer, wanted);
            at->cases++;
        }
        free(input);
        free(answer);
    }
    expect(at, at->number > 0, "the file has no case");
    fclose(file);
}

/* A store of literals, the lowest first, and of names a, b, ..: lengths as lent, in elements, and counts. */
struct shape {
    size_t records, literals, names, terms, symbols;
};

enum { WINDOW = 64 };
static const int64_t lowest = INT64_MIN;

/* The rules for adding a literal: 17, then where it is, then 13. */
static int64_t by_the_rules(const struct shape *store, int64_t value)
{
    size_t room = store->records / NEEDLEVALE_RECORD < store->literals ? store->records / NEEDLEVALE_RECORD
                                                                       : store->literals;
    if (store->terms > room || store->symbols > store->names / NEEDLEVALE_NAME)
        return -NEEDLEVALE_BAD_STORE;
    if (value < lowest + (int64_t)store->terms)
        return value - lowest;
    return store->terms < room ? (int64_t)store->terms : -NEEDLEVALE_NO_ROOM;
}

/* Lends such a store at an edge and adds to it; all WINDOW numbers at the edge must then be as they must. */
static void one_add(struct worker *at, const struct shape *store, int64_t value, enum edge edge)
{
    uint64_t records[WINDOW], *lent_records = (uint64_t *)(void *)lent(&at->output, store->records * 8, edge);
    int64_t literals[WINDOW], *lent_literals = (int64_t *)(void *)lent(&at->input, store->literals * 8, edge);
    size_t record = edge == FRONT ? 0 : WINDOW - store->records, literal = edge == FRONT ? 0 : WINDOW - store->literals;
    uint8_t names[WINDOW], *lent_names = lent(&at->names, store->names, edge);
    int64_t wanted = by_the_rules(store, value);
    int nulls = edge == FRONT;

    memset(records, UNTOUCHED, sizeof records);
    memset(literals, UNTOUCHED, sizeof literals);
    memset(names, 0, sizeof names);
    for (size_t k = 0; k < store->records && k < store->terms * NEEDLEVALE_RECORD; k++)
        records[record + k] = 0;
    for (size_t k = 0; k < store->literals && k < store->terms; k++)
        literals[literal + k] = lowest + (int64_t)k;
    for (size_t k = 0; k < store->names / NEEDLEVALE_NAME; k++) {
        names[k * NEEDLEVALE_NAME] = 1;
        names[k * NEEDLEVALE_NAME + 1] = (uint8_t)('a' + k);
    }
    memcpy(lent(&at->output, sizeof records, edge), records, sizeof records);
    memcpy(lent(&at->input, sizeof literals, edge), literals, sizeof literals);
    memcpy(lent_names, names, store->names);

    expect(at, needlevale_add_literal_flat(nulls && !store->records ? NULL : lent_records, store->records,
                                      nulls && !store->literals ? NULL : lent_literals, store->literals,
                                      nulls && !store->names ? NULL : lent_names, store->names, store->terms,
                                      store->symbols, value) == wanted, "another answer");
    if (wanted == (int64_t)store->terms) {
        memset(records + record + store->terms * NEEDLEVALE_RECORD, 0, NEEDLEVALE_RECORD * sizeof *records);
        literals[literal + store->terms] = value;
    }
    expect(at, !memcmp(lent(&at->output, sizeof records, edge), records, sizeof records), "other records");
    expect(at, !memcmp(lent(&at->input, sizeof literals, edge), literals, sizeof literals), "other literals");
    expect(at, !memcmp(lent_names, names, store->names), "the names were changed");
    at->adds++;
}

static void small_stores(struct worker *at)
{
    static const size_t records[] = {0, 1, 10, 11, 12, 21, 22, 23, 33, 34}, names[] = {0, 1, 31, 32, 33, 64};
    struct shape store;
    at->place = "small stores";
    at->number = 0;
    for (size_t r = 0; r < sizeof records / sizeof *records; r++)
        for (size_t n = 0; n < sizeof names / sizeof *names; n++)
            for (size_t k = 0; k < 4 * 4 * 3; k++, at->number++) {
                store.records = records[r];
                store.names = names[n];
                store.literals = k % 4;
                store.terms = k / 4 % 4;
                store.symbols = k / 16;
                if (at->number % THREADS != at->mine)
                    continue;
                for (int edge = FRONT; edge <= BACK; edge++) {
                    one_add(at, &store, lowest, (enum edge)edge);
                    one_add(at, &store, INT64_MAX, (enum edge)edge);
                }
            }
}

/* A store that is none: counts whose product with a record's or a name's size wraps, and a literal with a child. */
static void bad_stores(struct worker *at)
{
    static const size_t counts[] = {
        3, 1025, SIZE_MAX / NEEDLEVALE_RECORD + 1, SIZE_MAX / 8 + 1, SIZE_MAX / NEEDLEVALE_NAME + 1, SIZE_MAX,
    };
    uint64_t *records = (uint64_t *)(void *)at->output.end - 2 * NEEDLEVALE_RECORD;
    int64_t *literals = (int64_t *)(void *)at->input.end - 2;
    at->place = "bad stores";
    memset(records, 0, 2 * NEEDLEVALE_RECORD * sizeof *records);
    literals[0] = 0;
    literals[1] = 1;
    for (at->number = 0; at->number < sizeof counts / sizeof *counts; at->number++)
        for (int names = 0; names < 2; names++)
            expect(at, needlevale_add_literal_flat(records, 2 * NEEDLEVALE_RECORD, literals, 2, NULL, 0,
                                              names ? 0 : counts[at->number], names ? counts[at->number] : 0, 0)
                           == -NEEDLEVALE_BAD_STORE, "a count past the store was taken");
    records[3] = 1;
    expect(at, needlevale_add_literal_flat(records, 2 * NEEDLEVALE_RECORD, literals, 2, NULL, 0, 2, 0, 0)
                   == -NEEDLEVALE_BAD_STORE && records[3] == 1, "a literal with a child was taken");
}

static void *work(void *given)
{
    struct worker *at = (struct worker *)given;
    at->input = with_fences(at);
    at->output = with_fences(at);
    at->names = with_fences(at);
    for (char **path = at->paths; *path; path++)
        replay(at, *path);
    small_stores(at);
    bad_stores(at);
    return NULL;
}

int main(int count, char **words)
{
    static struct worker workers[THREADS];
    uint32_t cases = 0, adds = 0;
    pthread_attr_t attributes;
    if (count < 2) {
        fputs("replay: give recorded files, such as examples/recorded/replay-*.bin\n", stderr);
        return 2;
    }
    workers[0].place = "the start";
    expect(workers, !pthread_attr_init(&attributes) && !pthread_attr_setstacksize(&attributes, NEEDLEVALE_STACK),
           "no thread can have such a stack");
    for (uint32_t k = 0; k < THREADS; k++) {
        workers[k].place = "the start";
        workers[k].mine = k;
        workers[k].paths = words + 1;
        expect(workers + k, !pthread_create(&workers[k].thread, &attributes, work, workers + k), "no thread");
    }
    for (uint32_t k = 0; k < THREADS; k++) {
        expect(workers + k, !pthread_join(workers[k].thread, NULL), "a thread is lost");
        cases += workers[k].cases;
        adds += workers[k].adds;
    }
    printf("%" PRIu32 " recorded cases and %" PRIu32 " adds to small stores through the C boundary, "
           "%d threads at once, all as expected\n", cases, adds, THREADS);
    return 0;
}
