/* Every call of needlevale.h behind one function, on watched memory: calls.h says what is looked at. */
#define _DEFAULT_SOURCE
#include "calls.h"

#include <inttypes.h>
#include <pthread.h>
#include <stdlib.h>
#include <string.h>
#include <sys/mman.h>
#include <unistd.h>

#define BIT(n) (1u << (n))

enum {
    STORE = BIT(TERMS) | BIT(NAMES),
    FILE_FAULTS = BIT(NEEDLEVALE_SHORT) | BIT(NEEDLEVALE_BAD_VERSION) | BIT(NEEDLEVALE_BAD_SIZE)
                  | BIT(NEEDLEVALE_BAD_NAME) | BIT(NEEDLEVALE_DUP_NAME) | BIT(NEEDLEVALE_BAD_SORT)
                  | BIT(NEEDLEVALE_BAD_FUNCTION) | BIT(NEEDLEVALE_BAD_VALUE) | BIT(NEEDLEVALE_TRAILING),
    FILE_REFUSALS = FILE_FAULTS | BIT(NEEDLEVALE_BAD_ROOT) | BIT(NEEDLEVALE_TOO_DEAR) | BIT(NEEDLEVALE_NO_ROOM),
    NO_TERM = BIT(NEEDLEVALE_NO_TERM),
    NO_ROOM = BIT(NEEDLEVALE_NO_ROOM),
    BAD_STORE = BIT(NEEDLEVALE_BAD_STORE),
    BAD_TERM = BIT(NEEDLEVALE_BAD_TERM) | BAD_STORE,
    ABSENT = BIT(NEEDLEVALE_ABSENT) | BAD_STORE,
    BAD_NAME = BIT(NEEDLEVALE_BAD_NAME),
    BAD_SIZE = BIT(NEEDLEVALE_BAD_SIZE)
};

const struct form forms[CALLS] = {
    {"needlevale_answer", BIT(BYTES) | BIT(OUTPUT), BIT(OUTPUT), FILE_REFUSALS | NO_TERM | BIT(NEEDLEVALE_BAD_MODE),
     NEEDLEVALE_STACK_ANSWER},
    {"needlevale_read", BIT(BYTES), 0, FILE_FAULTS, NEEDLEVALE_STACK_READ},
    {"needlevale_add_literal_flat", BIT(RECORDS) | BIT(LITERALS) | BIT(FLAT_NAMES), BIT(RECORDS) | BIT(LITERALS),
     NO_ROOM | BAD_STORE, NEEDLEVALE_STACK_ADD_LITERAL_FLAT},
    {"needlevale_best", BIT(BYTES) | STORE, STORE, FILE_REFUSALS | NO_TERM | BAD_STORE, NEEDLEVALE_STACK_BEST},
    {"needlevale_variants", BIT(BYTES) | STORE | BIT(COSTS) | BIT(FOUND), STORE | BIT(COSTS) | BIT(FOUND),
     FILE_REFUSALS | BAD_STORE, NEEDLEVALE_STACK_VARIANTS},
    {"needlevale_plain_text", STORE | BIT(OUTPUT), BIT(OUTPUT), NO_ROOM | BAD_TERM, NEEDLEVALE_STACK_PLAIN_TEXT},
    {"needlevale_let_text", STORE | BIT(NAME) | BIT(HINT) | BIT(OUTPUT), BIT(OUTPUT),
     NO_ROOM | BAD_TERM | BAD_NAME | BAD_SIZE, NEEDLEVALE_STACK_LET_TEXT},
    {"needlevale_size", STORE, 0, BAD_STORE, NEEDLEVALE_STACK_SIZE},
    {"needlevale_get", STORE, 0, BAD_TERM, NEEDLEVALE_STACK_GET},
    {"needlevale_compare", STORE, 0, BAD_TERM, NEEDLEVALE_STACK_COMPARE},
    {"needlevale_sort", STORE | BIT(LIST), BIT(LIST), BAD_TERM, NEEDLEVALE_STACK_SORT},
    {"needlevale_find_literal", STORE, 0, ABSENT, NEEDLEVALE_STACK_FIND_LITERAL},
    {"needlevale_find_variable", STORE | BIT(NAME), 0, ABSENT | BAD_NAME, NEEDLEVALE_STACK_FIND_VARIABLE},
    {"needlevale_find_application", STORE | BIT(NAME) | BIT(CHILDREN), 0, ABSENT | BAD_TERM | BAD_NAME | BAD_SIZE,
     NEEDLEVALE_STACK_FIND_APPLICATION},
    {"needlevale_add_literal", STORE, BIT(TERMS), NO_ROOM | BAD_STORE, NEEDLEVALE_STACK_ADD_LITERAL},
    {"needlevale_add_variable", STORE | BIT(NAME), STORE, NO_ROOM | BAD_STORE | BAD_NAME,
     NEEDLEVALE_STACK_ADD_VARIABLE},
    {"needlevale_add_application", STORE | BIT(NAME) | BIT(CHILDREN), STORE, NO_ROOM | BAD_TERM | BAD_NAME | BAD_SIZE,
     NEEDLEVALE_STACK_ADD_APPLICATION},
};

/* The structs have no padding, and the sizes that the library's have. */
typedef char sizes_are_the_librarys[sizeof(needlevale_term) == 96 && sizeof(needlevale_entry) == 32
                                            && sizeof(needlevale_got) == 104 && sizeof(needlevale_shape) == 40
                                            && sizeof(needlevale_best_term) == 48 && sizeof(needlevale_kept) == 40
                                            && sizeof(needlevale_added) == 32 && sizeof(needlevale_number) == 16
                                            && sizeof(needlevale_order) == 16 && sizeof(needlevale_let_length) == 16
                                        ? 1
                                        : -1];

const size_t widths[SLOTS] = {
    1, sizeof(needlevale_term), sizeof(needlevale_entry), 1, 1, sizeof(uint64_t), sizeof(uint64_t), 1,
    sizeof(uint64_t), sizeof(uint64_t), sizeof(uint64_t), sizeof(int64_t), 1,
};

void expect(const struct watch *watch, bool holds, const char *what)
{
    if (holds)
        return;
    fprintf(stderr, "%s: %s, case %" PRIu64 ": %s\n", watch->program, watch->place, watch->number, what);
    exit(1);
}

static struct fenced with_fences(const struct watch *watch)
{
    size_t fence = (size_t)sysconf(_SC_PAGESIZE);
    struct fenced memory = {NULL, NULL};
    void *whole = mmap(NULL, ROOM + 2 * fence, PROT_NONE, MAP_PRIVATE | MAP_ANONYMOUS | MAP_NORESERVE, -1, 0);
    expect(watch, whole != MAP_FAILED, "no memory for a buffer");
    memory.start = (uint8_t *)whole + fence;
    memory.end = memory.start + ROOM;
    expect(watch, !mprotect(memory.start, ROOM, PROT_READ | PROT_WRITE), "no memory for a buffer");
    return memory;
}

void watch_begins(struct watch *watch, const char *program)
{
    memset(watch, 0, sizeof *watch);
    watch->program = program;
    watch->place = "the start";
    for (int slot = 0; slot < SLOTS; slot++)
        watch->memory[slot] = with_fences(watch);
}

/* ---- the calls themselves */

static const struct told nothing_told = {0, {0}};

static struct told number_told(needlevale_number number)
{
    struct told told = nothing_told;
    told.status = number.status;
    told.numbers[0] = number.number;
    return told;
}

static struct told added_told(needlevale_added added)
{
    struct told told = nothing_told;
    told.status = added.status;
    told.numbers[0] = added.term;
    told.numbers[TERM_COUNT] = added.term_count;
    told.numbers[NAME_COUNT] = added.name_count;
    return told;
}

struct told made(const struct question *q, void *const lent[SLOTS])
{
    needlevale_term *terms = (needlevale_term *)lent[TERMS];
    needlevale_entry *names = (needlevale_entry *)lent[NAMES];
    const uint8_t *bytes = (const uint8_t *)lent[BYTES], *name = (const uint8_t *)lent[NAME];
    const uint64_t *children = (const uint64_t *)lent[CHILDREN];
    uint8_t *output = (uint8_t *)lent[OUTPUT];
    const size_t *n = q->lengths, term_count = q->term_count, name_count = q->name_count;
    struct told told = nothing_told;
    switch (q->call) {
    case ANSWER:
        told.status = needlevale_answer(bytes, n[BYTES], output, n[OUTPUT]);
        break;
    case READ: {
        needlevale_shape shape = needlevale_read(bytes, n[BYTES]);
        told.status = shape.status;
        told.numbers[0] = shape.sorts;
        told.numbers[1] = shape.literals;
        told.numbers[2] = shape.functions;
        told.numbers[3] = shape.rows;
        break;
    }
    case ADD_LITERAL_FLAT:
        told.status = needlevale_add_literal_flat((uint64_t *)lent[RECORDS], n[RECORDS], (int64_t *)lent[LITERALS],
                                                  n[LITERALS], (const uint8_t *)lent[FLAT_NAMES], n[FLAT_NAMES],
                                                  term_count, name_count, q->literal);
        break;
    case BEST: {
        needlevale_best_term best = needlevale_best(bytes, n[BYTES], q->sort, q->value, terms, n[TERMS], names,
                                                    n[NAMES], term_count, name_count);
        told.status = best.status;
        told.numbers[0] = best.cost;
        told.numbers[1] = best.term;
        told.numbers[2] = best.passes;
        told.numbers[TERM_COUNT] = best.term_count;
        told.numbers[NAME_COUNT] = best.name_count;
        break;
    }
    case VARIANTS: {
        needlevale_kept kept = needlevale_variants(bytes, n[BYTES], q->sort, q->value, q->most, terms, n[TERMS], names,
                                                   n[NAMES], term_count, name_count, (uint64_t *)lent[COSTS],
                                                   n[COSTS], (uint64_t *)lent[FOUND], n[FOUND]);
        told.status = kept.status;
        told.numbers[0] = kept.count;
        told.numbers[1] = kept.passes;
        told.numbers[TERM_COUNT] = kept.term_count;
        told.numbers[NAME_COUNT] = kept.name_count;
        break;
    }
    case PLAIN_TEXT:
        told.status = needlevale_plain_text(terms, n[TERMS], names, n[NAMES], term_count, name_count, q->term, output,
                                            n[OUTPUT]);
        break;
    case LET_TEXT: {
        needlevale_let_length lets = needlevale_let_text(
            terms, n[TERMS], names, n[NAMES], term_count, name_count, q->term, name, n[NAME],
            (const uint8_t *)lent[HINT], n[HINT], q->start, q->bare, output, n[OUTPUT]);
        told.status = lets.length;
        told.numbers[0] = lets.next;
        break;
    }
    case SIZE:
        return number_told(needlevale_size(terms, n[TERMS], names, n[NAMES], term_count, name_count));
    case GET: {
        needlevale_got got = needlevale_get(terms, n[TERMS], names, n[NAMES], term_count, name_count, q->term);
        told.status = got.status;
        memcpy(told.numbers, &got.term, sizeof got.term);
        break;
    }
    case COMPARE: {
        needlevale_order order =
            needlevale_compare(terms, n[TERMS], names, n[NAMES], term_count, name_count, q->term, q->other);
        told.status = order.status;
        told.numbers[0] = (uint64_t)order.order;
        break;
    }
    case SORT:
        told.status = needlevale_sort(terms, n[TERMS], names, n[NAMES], term_count, name_count,
                                      (uint64_t *)lent[LIST], n[LIST]);
        break;
    case FIND_LITERAL:
        return number_told(
            needlevale_find_literal(terms, n[TERMS], names, n[NAMES], term_count, name_count, q->literal));
    case FIND_VARIABLE:
        return number_told(
            needlevale_find_variable(terms, n[TERMS], names, n[NAMES], term_count, name_count, name, n[NAME]));
    case FIND_APPLICATION:
        return number_told(needlevale_find_application(terms, n[TERMS], names, n[NAMES], term_count, name_count, name,
                                                       n[NAME], children, n[CHILDREN]));
    case ADD_LITERAL:
        return added_told(
            needlevale_add_literal(terms, n[TERMS], names, n[NAMES], term_count, name_count, q->literal));
    case ADD_VARIABLE:
        return added_told(
            needlevale_add_variable(terms, n[TERMS], names, n[NAMES], term_count, name_count, name, n[NAME]));
    case ADD_APPLICATION:
        return added_told(needlevale_add_application(terms, n[TERMS], names, n[NAMES], term_count, name_count, name,
                                                     n[NAME], children, n[CHILDREN]));
    case CALLS:
        break;
    }
    return told;
}

/* ---- what must hold after a call */

enum { STRIP = 512 };

/* The strips beside a lent buffer, inside its memory. */
static uint8_t *strip_before(const struct fenced *memory, uint8_t *at)
{
    return (size_t)(at - memory->start) < STRIP ? memory->start : at - STRIP;
}

static uint8_t *strip_behind(const struct fenced *memory, uint8_t *end)
{
    return (size_t)(memory->end - end) < STRIP ? memory->end : end + STRIP;
}

static bool untouched(const uint8_t *from, const uint8_t *to)
{
    return from == to || (*from == UNTOUCHED && !memcmp(from, from + 1, (size_t)(to - from) - 1));
}

/* Whether the elements of a slot from one number up to another are as they were lent. */
static bool kept(const struct watch *watch, const struct question *q, enum slot slot, size_t from, size_t to)
{
    size_t width = widths[slot];
    if (to > q->lengths[slot])
        to = q->lengths[slot];
    return from >= to || !memcmp((const uint8_t *)watch->lent[slot] + from * width,
                                 (const uint8_t *)q->bytes[slot] + from * width, (to - from) * width);
}

/* Whether of a slot only the elements from one number up to another may have changed. */
static bool changed_only(const struct watch *watch, const struct question *q, enum slot slot, size_t from, size_t to)
{
    return kept(watch, q, slot, 0, from) && kept(watch, q, slot, to, q->lengths[slot]);
}

static size_t room_of(const struct question *q, enum slot slot, size_t most)
{
    return q->lengths[slot] < most ? q->lengths[slot] : most;
}

/* The store after a call that may add: its counts, and that what was there is there still. */
static void grown(const struct watch *watch, const struct question *q, const struct told *told, size_t most)
{
    size_t terms = told->numbers[TERM_COUNT], names = told->numbers[NAME_COUNT];
    expect(watch, terms >= q->term_count && terms <= room_of(q, TERMS, MOST_TERMS), "a count of terms out of range");
    expect(watch, names >= q->name_count && names <= room_of(q, NAMES, MOST_NAMES), "a count of names out of range");
    expect(watch, terms - q->term_count <= most && names - q->name_count <= most, "more was added than can be");
    expect(watch, changed_only(watch, q, TERMS, q->term_count, terms), "other records were changed than the new ones");
    expect(watch, changed_only(watch, q, NAMES, q->name_count, names), "other names were changed than the new ones");
}

static int by_number(const void *a, const void *b)
{
    uint64_t x = *(const uint64_t *)a, y = *(const uint64_t *)b;
    return x < y ? -1 : x > y;
}

static void permuted(const struct watch *watch, const struct question *q)
{
    size_t length = q->lengths[LIST];
    if (length < 2)
        return;
    uint64_t *before = (uint64_t *)malloc(length * sizeof *before), *after = (uint64_t *)malloc(length * sizeof *after);
    expect(watch, before && after, "no memory for a list");
    memcpy(before, q->bytes[LIST], length * sizeof *before);
    memcpy(after, watch->lent[LIST], length * sizeof *after);
    qsort(before, length, sizeof *before, by_number);
    qsort(after, length, sizeof *after, by_number);
    expect(watch, !memcmp(before, after, length * sizeof *before), "a sorted list has other numbers");
    free(before);
    free(after);
}

static void in_range(const struct watch *watch, const struct question *q, const struct told *told)
{
    const uint64_t *n = told->numbers;
    size_t least = q->lengths[COSTS] < q->lengths[FOUND] ? q->lengths[COSTS] : q->lengths[FOUND];
    switch (q->call) {
    case LET_TEXT:
        expect(watch, n[0] >= q->start && n[0] - q->start <= MOST_TERMS, "a next count out of range");
        /* fall through */
    case ANSWER:
    case PLAIN_TEXT:
        expect(watch, (uint64_t)told->status <= q->lengths[OUTPUT], "a text longer than its room");
        expect(watch, kept(watch, q, OUTPUT, (size_t)told->status, q->lengths[OUTPUT]),
               "bytes past a text were changed");
        break;
    case ADD_LITERAL_FLAT: {
        size_t term = (size_t)told->status, next = term == q->term_count;
        expect(watch, term <= q->term_count, "a term's number out of range");
        expect(watch, changed_only(watch, q, RECORDS, term * NEEDLEVALE_RECORD, (term + next) * NEEDLEVALE_RECORD),
               "other records were changed");
        expect(watch, changed_only(watch, q, LITERALS, term, term + next), "other literals were changed");
        break;
    }
    case READ:
        expect(watch, !told->status && n[0] <= 31 && n[1] <= 511 && n[2] <= 127 && n[3] <= 1024,
               "a number out of range");
        break;
    case BEST:
        expect(watch, !told->status && n[0] < UINT64_MAX && n[1] < n[TERM_COUNT] && n[2] <= 513,
               "a number out of range");
        grown(watch, q, told, MOST_TERMS);
        break;
    case VARIANTS: {
        const uint64_t *costs = (const uint64_t *)watch->lent[COSTS], *found = (const uint64_t *)watch->lent[FOUND];
        expect(watch, !told->status && n[0] <= least && n[0] <= (q->most ? q->most : 1) && n[1] <= 513,
               "a number out of range");
        expect(watch, changed_only(watch, q, COSTS, 0, n[0]) && changed_only(watch, q, FOUND, 0, n[0]),
               "costs or terms past the variants were changed");
        for (size_t k = 0; k < n[0]; k++)
            expect(watch, costs[k] < UINT64_MAX && found[k] < n[TERM_COUNT] && (!k || costs[k - 1] <= costs[k]),
                   "a variant out of range, or a dearer one first");
        grown(watch, q, told, MOST_TERMS);
        break;
    }
    case SIZE:
        expect(watch, !told->status && n[0] == q->term_count, "another size than the count");
        break;
    case GET:
        expect(watch, !told->status && q->term < q->term_count, "a status out of range");
        expect(watch, !memcmp(n, (const needlevale_term *)q->bytes[TERMS] + q->term, sizeof(needlevale_term)),
               "another record than that of the store");
        break;
    case COMPARE:
        expect(watch, !told->status && n[0] + 1 <= 2 && !n[0] == (q->term == q->other), "an order out of range");
        break;
    case SORT:
        expect(watch, !told->status, "a status out of range");
        permuted(watch, q);
        break;
    case FIND_LITERAL:
    case FIND_VARIABLE:
    case FIND_APPLICATION:
        expect(watch, !told->status && n[0] < q->term_count, "a term's number out of range");
        break;
    case ADD_LITERAL:
    case ADD_VARIABLE:
    case ADD_APPLICATION:
        expect(watch, !told->status && n[0] < n[TERM_COUNT], "a term's number out of range");
        grown(watch, q, told, 1);
        expect(watch, n[TERM_COUNT] == q->term_count ? n[NAME_COUNT] == q->name_count : n[0] == q->term_count,
               "a term was added and another number given, or a name without a term");
        break;
    case CALLS:
        break;
    }
}

static void refused(struct watch *watch, const struct question *q, const struct told *told)
{
    bool counted = q->call == BEST || q->call == VARIANTS || q->call >= ADD_LITERAL;
    expect(watch, told->status >= -17 && forms[q->call].refusals >> -told->status & 1,
           "a refusal that the call does not have");
    for (int slot = 0; slot < SLOTS; slot++)
        if (forms[q->call].takes >> slot & 1)
            expect(watch, kept(watch, q, (enum slot)slot, 0, q->lengths[slot]), "a refusal changed what was lent");
    for (int k = 0; k < NUMBERS; k++)
        expect(watch, !told->numbers[k] || (counted && (k == TERM_COUNT || k == NAME_COUNT)),
               "a number beside a refusal is not 0");
    if (counted)
        expect(watch, told->numbers[TERM_COUNT] == q->term_count && told->numbers[NAME_COUNT] == q->name_count,
               "other counts beside a refusal than those that were lent");
    watch->refusals++;
    watch->by_refusal[-told->status]++;
}

static void protect(const struct watch *watch, uint8_t *from, uint8_t *to, int how)
{
    uintptr_t page = (uintptr_t)sysconf(_SC_PAGESIZE), first = (uintptr_t)from / page * page;
    if (from < to)
        expect(watch, !mprotect((void *)first, (uintptr_t)to - first, how), "memory cannot be protected");
}

struct told ask(struct watch *watch, const struct question *q, enum edge edge)
{
    unsigned takes = forms[q->call].takes, writes = forms[q->call].writes;
    uint8_t *from[SLOTS], *to[SLOTS];
    for (int slot = 0; slot < SLOTS; slot++) {
        const struct fenced *memory = &watch->memory[slot];
        size_t size = q->lengths[slot] * widths[slot];
        watch->lent[slot] = NULL;
        if (!(takes >> slot & 1))
            continue;
        expect(watch, size <= ROOM, "a buffer is too long for the test");
        from[slot] = edge == FRONT ? memory->start : memory->end - size;
        to[slot] = from[slot] + size;
        memset(strip_before(memory, from[slot]), UNTOUCHED, (size_t)(from[slot] - strip_before(memory, from[slot])));
        memset(to[slot], UNTOUCHED, (size_t)(strip_behind(memory, to[slot]) - to[slot]));
        if (size)
            memcpy(from[slot], q->bytes[slot], size);
        if (size || edge == BACK)
            watch->lent[slot] = from[slot];
        if (!(writes >> slot & 1))
            protect(watch, from[slot], to[slot], PROT_READ);
    }
    struct told told = made(q, watch->lent);
    for (int slot = 0; slot < SLOTS; slot++) {
        const struct fenced *memory = &watch->memory[slot];
        if (!(takes >> slot & 1))
            continue;
        if (!(writes >> slot & 1))
            protect(watch, from[slot], to[slot], PROT_READ | PROT_WRITE);
        expect(watch, untouched(strip_before(memory, from[slot]), from[slot]), "memory before a buffer was changed");
        expect(watch, untouched(to[slot], strip_behind(memory, to[slot])), "memory behind a buffer was changed");
        if (!(writes >> slot & 1))
            expect(watch, kept(watch, q, (enum slot)slot, 0, q->lengths[slot]), "a const buffer was changed");
    }
    watch->calls++;
    if (told.status < 0)
        refused(watch, q, &told);
    else
        in_range(watch, q, &told);
    return told;
}

struct told ask_twice(struct watch *watch, const struct question *q, enum edge first)
{
    unsigned writes = forms[q->call].writes;
    void *before[SLOTS];
    struct told told = ask(watch, q, first);
    for (int slot = 0; slot < SLOTS; slot++) {
        size_t size = q->lengths[slot] * widths[slot];
        before[slot] = writes >> slot & 1 && size ? malloc(size) : NULL;
        if (before[slot])
            memcpy(before[slot], watch->lent[slot], size);
    }
    struct told again = ask(watch, q, first == FRONT ? BACK : FRONT);
    expect(watch, !memcmp(&told, &again, sizeof told), "the same call gives another result");
    for (int slot = 0; slot < SLOTS; slot++)
        if (before[slot]) {
            expect(watch, !memcmp(before[slot], watch->lent[slot], q->lengths[slot] * widths[slot]),
                   "the same call leaves another content");
            free(before[slot]);
        }
    return told;
}

/* ---- stores, questions, files and threads */

struct store new_store(const struct watch *watch, size_t term_room, size_t name_room)
{
    struct store store = {NULL, NULL, term_room, name_room, 0, 0};
    store.terms = (needlevale_term *)calloc(term_room + 1, sizeof *store.terms);
    store.names = (needlevale_entry *)calloc(name_room + 1, sizeof *store.names);
    expect(watch, store.terms && store.names, "no memory for a store");
    return store;
}

void free_store(struct store *store)
{
    free(store->terms);
    free(store->names);
}

void lend(struct question *q, enum slot slot, const void *bytes, size_t length)
{
    q->bytes[slot] = bytes;
    q->lengths[slot] = length;
}

struct question about(enum call call, const struct store *store)
{
    struct question q;
    memset(&q, 0, sizeof q);
    q.call = call;
    if (store) {
        lend(&q, TERMS, store->terms, store->term_room);
        lend(&q, NAMES, store->names, store->name_room);
        q.term_count = store->term_count;
        q.name_count = store->name_count;
    }
    return q;
}

void take_over(struct store *store, const struct watch *watch, const struct told *told)
{
    if (watch->lent[TERMS])
        memcpy(store->terms, watch->lent[TERMS], store->term_room * sizeof *store->terms);
    if (watch->lent[NAMES])
        memcpy(store->names, watch->lent[NAMES], store->name_room * sizeof *store->names);
    store->term_count = told->numbers[TERM_COUNT];
    store->name_count = told->numbers[NAME_COUNT];
}

void put_name(struct store *store, const char *name)
{
    uint8_t *entry = store->names[store->name_count++].bytes;
    memset(entry, 0, NEEDLEVALE_NAME);
    entry[0] = (uint8_t)strlen(name);
    memcpy(entry + 1, name, strlen(name));
}

void put_term(struct store *store, uint64_t kind, uint64_t symbol, int64_t literal, const uint64_t *children,
              size_t count)
{
    needlevale_term *term = &store->terms[store->term_count++];
    memset(term, 0, sizeof *term);
    term->kind = kind;
    term->symbol = symbol;
    term->literal = literal;
    term->count = count;
    for (size_t k = 0; k < count && k < 8; k++)
        term->children[k] = children[k];
}

void put_chain(struct store *store, uint64_t symbol, int64_t literal, size_t terms)
{
    put_term(store, 0, 0, literal, NULL, 0);
    for (size_t k = 1; k < terms; k++) {
        uint64_t child = store->term_count - 1;
        put_term(store, 2, symbol, 0, &child, 1);
    }
}

/* Puts the lowest bits of a number behind those that are there, the highest first. */
static void put_bits(uint8_t *to, size_t *at, uint64_t value, unsigned count)
{
    for (; count; count--, ++*at) {
        if (*at % 8 == 0)
            to[*at / 8] = 0;
        to[*at / 8] = (uint8_t)(to[*at / 8] | (value >> (count - 1) & 1) << (7 - *at % 8));
    }
}

/* A function of one letter, without flags, from sort 0 so many times to sort 0. */
static void put_function(uint8_t *to, size_t *at, char name, bool has_cost, uint64_t cost, unsigned arity)
{
    put_bits(to, at, 1, 5);
    put_bits(to, at, (uint8_t)name, 8);
    put_bits(to, at, has_cost, 1);
    put_bits(to, at, cost, has_cost ? 64 : 0);
    put_bits(to, at, 0, 2 + 5);
    put_bits(to, at, arity, 4);
    put_bits(to, at, 0, 5 * arity);
}

size_t chain_file(uint8_t *to, unsigned classes, unsigned rows, uint64_t leaf_cost, bool twice)
{
    size_t at = 0;
    put_bits(to, &at, 1, 4);
    put_bits(to, &at, 1, 5);
    put_bits(to, &at, 1, 1);
    put_bits(to, &at, classes, 10);
    put_bits(to, &at, 0, 9);
    put_bits(to, &at, 3, 7);
    put_function(to, &at, 'Z', true, leaf_cost, 0);
    put_function(to, &at, 'S', false, 0, 1);
    put_function(to, &at, 'T', true, 3, 1);
    put_bits(to, &at, twice ? 2 * rows : rows, 11);
    for (unsigned function = 1; function <= (twice ? 2u : 1u); function++)
        for (unsigned row = rows; row > 1; row--) {
            put_bits(to, &at, function, 7);
            put_bits(to, &at, 0, 1);
            put_bits(to, &at, row - 2, 9);
            put_bits(to, &at, row - 1, 9);
        }
    for (unsigned leaf = 0; rows && leaf <= twice; leaf++)
        put_bits(to, &at, 0, 7 + 1 + 9);
    return (at + 7) / 8;
}

uint8_t *next_item(const struct watch *watch, FILE *file, size_t *length)
{
    uint8_t head[4], *bytes;
    if (fread(head, 1, 4, file) != 4)
        return NULL;
    *length = head[0] | (size_t)head[1] << 8 | (size_t)head[2] << 16 | (size_t)head[3] << 24;
    expect(watch, *length <= 1 << 24, "an item is too long");
    bytes = (uint8_t *)calloc(*length + 1, 1);
    expect(watch, bytes && fread(bytes, 1, *length, file) == *length, "an item ends early");
    return bytes;
}

uint8_t *whole_file(const struct watch *watch, const char *path, size_t *length)
{
    enum { MOST = 1 << 24 };
    FILE *file = fopen(path, "rb");
    expect(watch, file != NULL, "a file cannot be read");
    uint8_t *bytes = (uint8_t *)calloc(MOST + 1, 1);
    expect(watch, bytes != NULL, "no memory for a file");
    *length = fread(bytes, 1, MOST, file);
    expect(watch, *length < MOST && !ferror(file), "a file is too long, or cannot be read");
    fclose(file);
    return bytes;
}

void in_thread(const struct watch *watch, size_t stack, void *(*work)(void *), void *given)
{
    /* Memory of its own: the C library may give a thread the larger stack of one that has ended. */
    enum { FORBIDDEN = 1 << 16 };
    pthread_attr_t attributes;
    pthread_t thread;
    uint8_t *memory = (uint8_t *)mmap(NULL, FORBIDDEN + stack, PROT_READ | PROT_WRITE, MAP_PRIVATE | MAP_ANONYMOUS,
                                      -1, 0);
    expect(watch, memory != MAP_FAILED && !mprotect(memory, FORBIDDEN, PROT_NONE), "no memory for a stack");
    expect(watch, !pthread_attr_init(&attributes) && !pthread_attr_setstack(&attributes, memory + FORBIDDEN, stack),
           "no thread can have such a stack");
    expect(watch, !pthread_create(&thread, &attributes, work, given), "no thread can be started");
    expect(watch, !pthread_join(thread, NULL), "a thread is lost");
    pthread_attr_destroy(&attributes);
    munmap(memory, FORBIDDEN + stack);
}
