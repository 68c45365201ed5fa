/* Replays recorded scripts of calls on a term store through the calls of needlevale.h.
 *
 *   scripts STREAM.. [--pair SCRIPT ANSWERS].. [--streams SCRIPTS ANSWERS].. [--texts CALLS ANSWERS]
 *
 * A stream is a file such as examples/recorded/terms-0.bin: a script and its answers, one after the other, in the form
 * that oracle/README.md gives. A pair has one script and its answers in two files: oracle/lent-runs and
 * crates/run_lent/stdout, oracle/term-runs and crates/run_terms/stdout. --streams takes a stream of scripts and one of
 * their answers, as the oracle's gen-orders and answer-terms write them. --texts takes crates/run_texts/data/calls.bin,
 * whose form is in crates/run_texts/src/main.rt, and its answers. The answers are the oracle's.
 * Each call is made on watched memory (calls.h), by turns at the front and at the back edge. Two threads share the
 * streams and pairs, on memory of their own. Prints one line, status 0; at the first difference, one sentence, status
 * 1; wrong usage is 2. Assumes a 64-bit Linux. */
#define _DEFAULT_SOURCE
#include <inttypes.h>
#include <pthread.h>
#include <stdlib.h>
#include <string.h>

#include "calls.h"

enum { THREADS = 2, MOST_WORDS = 4200, LINE = 1 << 18, TEXT = 1 << 17, STACK = 8 << 20 };

struct job {
    uint8_t *script, *answers;
    const char *place;
    uint64_t number;
};

static struct job *jobs;
static size_t job_count;

struct worker {
    struct watch watch;
    pthread_t thread;
    size_t mine;
    uint64_t scripts, lines;
    char *words[MOST_WORDS];
    size_t word_count;
    char line[LINE];
    uint64_t list[MOST_WORDS];
    uint8_t name[512], hint[512], text[TEXT];
};

static enum edge turn(const struct worker *at)
{
    return at->watch.calls % 2 ? FRONT : BACK;
}

static uint64_t number(const struct worker *at, size_t word)
{
    expect(&at->watch, word < at->word_count, "a line has too few words");
    return strtoull(at->words[word], NULL, 10);
}

/* A name of a line: %XX is a byte, a lone % the empty name. */
static size_t unescaped(const struct worker *at, const char *word, uint8_t name[512])
{
    size_t length = 0;
    char digits[3] = {0, 0, 0};
    if (!strcmp(word, "%"))
        return 0;
    for (; *word; word++) {
        expect(&at->watch, length < 512, "a name is too long for the test");
        if (*word == '%') {
            digits[0] = word[1];
            digits[1] = word[2];
            name[length++] = (uint8_t)strtoul(digits, NULL, 16);
            word += 2;
        } else
            name[length++] = (uint8_t)*word;
    }
    return length;
}

/* Bytes as a line has them: those that are no printable ASCII, and %, as %XX; in a name a space too. */
static size_t escaped(char *to, const uint8_t *bytes, size_t length, int lowest)
{
    size_t made_length = 0;
    for (size_t k = 0; k < length; k++)
        if (bytes[k] == '%' || bytes[k] < lowest || bytes[k] > 0x7e)
            made_length += (size_t)sprintf(to + made_length, "%%%02X", bytes[k]);
        else
            to[made_length++] = (char)bytes[k];
    to[made_length] = 0;
    return made_length;
}

/* Lines that lay out the lent store; whether it was one. */
static bool laid_out(struct worker *at, struct store *store, size_t laid[2])
{
    const char *word = at->words[0];
    if (!strcmp(word, "name")) {
        uint8_t *entry = store->names[laid[1]].bytes, name[512];
        size_t length = unescaped(at, at->words[2], name);
        expect(&at->watch, laid[1]++ < store->name_room && length <= 31, "a name entry that does not fit");
        memcpy(entry + 1, name, length);
        entry[0] = (uint8_t)number(at, 1);
    } else if (!strcmp(word, "record")) {
        needlevale_term *term = &store->terms[laid[0]];
        expect(&at->watch, laid[0]++ < store->term_room && at->word_count == 13, "a record that does not fit");
        term->kind = number(at, 1);
        term->symbol = number(at, 2);
        term->literal = strtoll(at->words[3], NULL, 10);
        term->count = number(at, 4);
        for (size_t k = 0; k < 8; k++)
            term->children[k] = number(at, 5 + k);
    } else if (!strcmp(word, "counts")) {
        store->term_count = number(at, 1);
        store->name_count = number(at, 2);
    } else
        return false;
    return true;
}

/* The words from one on as numbers. */
static size_t numbers_from(struct worker *at, size_t word)
{
    size_t count = 0;
    for (; word < at->word_count; word++)
        at->list[count++] = number(at, word);
    return count;
}

/* The call of `literal V`, `variable NAME` or `app NAME CHILD..` whose first word is at the given place. */
static struct question term_call(struct worker *at, const struct store *store, size_t word, const enum call calls[3])
{
    const char *kind = at->words[word];
    struct question q;
    if (!strcmp(kind, "literal")) {
        q = about(calls[0], store);
        q.literal = strtoll(at->words[word + 1], NULL, 10);
        return q;
    }
    q = about(calls[!strcmp(kind, "app") ? 2 : 1], store);
    lend(&q, NAME, at->name, unescaped(at, at->words[word + 1], at->name));
    if (!strcmp(kind, "app"))
        lend(&q, CHILDREN, at->list, numbers_from(at, word + 2));
    return q;
}

/* A text's line, after what is there already. */
static void add_text(struct worker *at, size_t written, const struct told *told)
{
    const uint8_t *text = (const uint8_t *)at->watch.lent[OUTPUT];
    written += (size_t)sprintf(at->line + written, "%" PRId64 " ", told->status);
    escaped(at->line + written, text, (size_t)told->status, 0x20);
}

/* A record's line: its kind, and its literal, or its name and children. */
static void add_record(struct worker *at, const struct store *store, const struct told *told)
{
    static const char *const kinds[3] = {"literal ", "variable ", "app "};
    needlevale_term term;
    memcpy(&term, told->numbers, sizeof term);
    expect(&at->watch, term.kind < 3, "a record of another kind");
    char *to = at->line + sprintf(at->line, "%s", kinds[term.kind]);
    if (!term.kind) {
        sprintf(to, "%" PRId64, term.literal);
        return;
    }
    const uint8_t *entry = store->names[term.symbol].bytes;
    to += escaped(to, entry + 1, entry[0], 0x21);
    for (size_t k = 0; k < term.count; k++)
        to += sprintf(to, " %" PRIu64, term.children[k]);
}

/* Makes the call of the words and writes the line of its answer. */
static void answered(struct worker *at, struct store *store)
{
    static const enum call adds[3] = {ADD_LITERAL, ADD_VARIABLE, ADD_APPLICATION};
    static const enum call finds[3] = {FIND_LITERAL, FIND_VARIABLE, FIND_APPLICATION};
    const char *word = at->words[0];
    bool adding = !strcmp(word, "literal") || !strcmp(word, "variable") || !strcmp(word, "app");
    struct question q;
    if (adding)
        q = term_call(at, store, 0, adds);
    else if (!strcmp(word, "find"))
        q = term_call(at, store, 1, finds);
    else if (!strcmp(word, "size"))
        q = about(SIZE, store);
    else if (!strcmp(word, "compare")) {
        q = about(COMPARE, store);
        q.term = number(at, 1);
        q.other = number(at, 2);
    } else if (!strcmp(word, "get")) {
        q = about(GET, store);
        q.term = number(at, 1);
    } else if (!strcmp(word, "sort")) {
        q = about(SORT, store);
        lend(&q, LIST, at->list, numbers_from(at, 1));
    } else if (!strcmp(word, "plain") || !strcmp(word, "let")) {
        size_t room = number(at, 1);
        bool lets = *word == 'l';
        q = about(lets ? LET_TEXT : PLAIN_TEXT, store);
        /* No text of a script is longer than this, so a room that is says the same. */
        lend(&q, OUTPUT, at->text, room < sizeof at->text ? room : sizeof at->text);
        q.term = number(at, lets ? 6 : 2);
        if (lets) {
            lend(&q, NAME, at->name, unescaped(at, at->words[2], at->name));
            lend(&q, HINT, at->hint, unescaped(at, at->words[3], at->hint));
            q.start = number(at, 4);
            q.bare = number(at, 5);
        }
    } else
        expect(&at->watch, false, "a line is no call");

    struct told told = ask(&at->watch, &q, turn(at));
    if (adding)
        take_over(store, &at->watch, &told);
    if (told.status < 0)
        sprintf(at->line, "refused %d", (int)-told.status);
    else if (q.call == SIZE)
        sprintf(at->line, "size %" PRIu64, told.numbers[0]);
    else if (q.call == COMPARE)
        strcpy(at->line, !told.numbers[0] ? "equal" : told.numbers[0] == 1 ? "greater" : "less");
    else if (q.call == PLAIN_TEXT)
        add_text(at, (size_t)sprintf(at->line, "plain "), &told);
    else if (q.call == LET_TEXT)
        add_text(at, (size_t)sprintf(at->line, "let %" PRIu64 " ", told.numbers[0]), &told);
    else if (q.call == GET)
        add_record(at, store, &told);
    else if (q.call == SORT) {
        char *to = at->line + sprintf(at->line, "sorted");
        for (size_t k = 0; k < q.lengths[LIST]; k++)
            to += sprintf(to, " %" PRIu64, ((const uint64_t *)at->watch.lent[LIST])[k]);
    } else
        sprintf(at->line, "term %" PRIu64, told.numbers[0]);
}

/* Splits off the next line, which is then ended by a zero; null at the end. */
static char *next_line(char **rest)
{
    char *line = *rest, *end;
    if (!line || !*line)
        return NULL;
    end = strchr(line, '\n');
    *rest = end ? end + 1 : NULL;
    if (end)
        *end = 0;
    return line;
}

static void split(struct worker *at, char *line)
{
    at->word_count = 0;
    for (char *word = line; word; at->word_count++) {
        expect(&at->watch, at->word_count < MOST_WORDS, "a line has too many words");
        at->words[at->word_count] = word;
        word = strchr(word, ' ');
        if (word)
            *word++ = 0;
    }
}

static void replay(struct worker *at, const struct job *job)
{
    char *script = (char *)job->script, *answers = (char *)job->answers, *line, *wanted;
    size_t laid[2] = {0, 0};
    struct store store = {NULL, NULL, 0, 0, 0, 0};
    at->watch.place = job->place;
    at->watch.number = job->number;
    while ((line = next_line(&script))) {
        if (!*line || *line == '#')
            continue;
        split(at, line);
        if (!store.terms) {
            expect(&at->watch, !strcmp(at->words[0], "lent"), "a script must begin with 'lent'");
            store = new_store(&at->watch, number(at, 1), number(at, 2));
            continue;
        }
        if (laid_out(at, &store, laid))
            continue;
        wanted = next_line(&answers);
        expect(&at->watch, wanted != NULL, "an answer is missing");
        answered(at, &store);
        if (strcmp(at->line, wanted)) {
            fprintf(stderr, "wanted: %.2000s\ngot:    %.2000s\n", wanted, at->line);
            expect(&at->watch, false, "another answer");
        }
        at->lines++;
    }
    expect(&at->watch, store.terms && !next_line(&answers), "more answers than calls, or no script");
    free_store(&store);
    at->scripts++;
}

static void *work(void *given)
{
    struct worker *at = (struct worker *)given;
    for (size_t k = at->mine; k < job_count; k += THREADS)
        replay(at, &jobs[k]);
    return NULL;
}

/* ---- the text calls of run_texts */

static uint64_t bytes_number(const uint8_t *at, size_t count)
{
    uint64_t value = 0;
    for (size_t k = 0; k < count; k++)
        value = value << 8 | at[k];
    return value;
}

static void read_store(struct store *store, const uint8_t *at, const uint8_t *end, size_t records)
{
    const uint8_t *literals = at + records * 22, *names = literals + records * 8;
    memset(store->terms, 0, records * sizeof *store->terms);
    store->term_room = records;
    for (size_t k = 0; k < records; k++) {
        needlevale_term *term = &store->terms[k];
        term->kind = bytes_number(at + k * 22, 2);
        term->symbol = bytes_number(at + k * 22 + 2, 2);
        term->count = bytes_number(at + k * 22 + 4, 2);
        for (size_t child = 0; child < 8; child++)
            term->children[child] = bytes_number(at + k * 22 + 6 + child * 2, 2);
        term->literal = (int64_t)bytes_number(literals + k * 8, 8);
    }
    store->name_room = (size_t)(end - names) / NEEDLEVALE_NAME;
    memcpy(store->names, names, store->name_room * NEEDLEVALE_NAME);
}

static uint64_t texts(struct worker *at, const char *calls_path, const char *answers_path)
{
    size_t length, wanted_length, place = 0;
    uint8_t *calls = whole_file(&at->watch, calls_path, &length);
    uint8_t *wanted = whole_file(&at->watch, answers_path, &wanted_length);
    struct store store = new_store(&at->watch, 2048, 2048);
    at->watch.place = calls_path;
    at->watch.number = 0;
    for (const uint8_t *call = calls; call < calls + length; at->watch.number++) {
        size_t size = bytes_number(call, 2), prefix = call[4], hint = call[5], line;
        const uint8_t *body = call + 2 + 22 + prefix + hint, *end = call + 2 + size;
        struct question q;
        bool lets = call[2] & 1;
        if (!(call[2] & 2))
            read_store(&store, body, end, bytes_number(call + 6, 2));
        store.term_count = bytes_number(call + 8, 2);
        store.name_count = bytes_number(call + 10, 2);
        q = about(lets ? LET_TEXT : PLAIN_TEXT, &store);
        q.term = bytes_number(call + 12, 2);
        lend(&q, OUTPUT, at->text, bytes_number(call + 14, 2));
        q.start = bytes_number(call + 16, 8);
        q.bare = call[3];
        lend(&q, NAME, call + 24, prefix);
        lend(&q, HINT, call + 24 + prefix, hint);
        struct told told = ask(&at->watch, &q, turn(at));
        if (told.status < 0)
            line = (size_t)sprintf(at->line, "refused %d\n", (int)-told.status);
        else {
            line = lets ? (size_t)sprintf(at->line, "let %" PRIu64 " %" PRId64 "\n", told.numbers[0], told.status)
                        : (size_t)sprintf(at->line, "plain %" PRId64 "\n", told.status);
            memcpy(at->line + line, at->watch.lent[OUTPUT], (size_t)told.status);
            line += (size_t)told.status;
            at->line[line++] = '\n';
        }
        expect(&at->watch, line <= wanted_length - place && !memcmp(at->line, wanted + place, line), "another text");
        place += line;
        call = end;
    }
    expect(&at->watch, place == wanted_length, "more answers than calls");
    free(calls);
    free(wanted);
    free_store(&store);
    return at->watch.number;
}

struct text_words {
    struct worker *worker;
    char **words;
    uint64_t count;
};

static void *text_work(void *given)
{
    struct text_words *words = (struct text_words *)given;
    words->count = texts(words->worker, words->words[0], words->words[1]);
    return NULL;
}

static void add_job(const struct watch *watch, uint8_t *script, uint8_t *answers, const char *place, uint64_t number)
{
    jobs = (struct job *)realloc(jobs, (job_count + 1) * sizeof *jobs);
    expect(watch, jobs && script && answers, "no memory, or a script without answers");
    jobs[job_count].script = script;
    jobs[job_count].answers = answers;
    jobs[job_count].place = place;
    jobs[job_count++].number = number;
}

/* Scripts and their answers, by turns in one stream or each in its own. */
static void read_streams(const struct watch *watch, const char *scripts_path, const char *answers_path)
{
    FILE *scripts = fopen(scripts_path, "rb"), *answers = answers_path ? fopen(answers_path, "rb") : scripts;
    uint8_t *script;
    size_t length;
    expect(watch, scripts && answers, "a stream cannot be read");
    for (uint64_t k = 0; (script = next_item(watch, scripts, &length)); k++)
        add_job(watch, script, next_item(watch, answers, &length), scripts_path, k);
    expect(watch, !next_item(watch, answers, &length), "more answers than scripts");
    fclose(scripts);
    if (answers_path)
        fclose(answers);
}

int main(int count, char **words)
{
    static struct worker workers[THREADS];
    struct text_words texts_of = {workers, NULL, 0};
    pthread_attr_t attributes;
    uint64_t scripts = 0, lines = 0, refusals = 0;
    size_t length;
    for (size_t k = 0; k < THREADS; k++) {
        watch_begins(&workers[k].watch, "scripts");
        workers[k].mine = k;
    }
    for (int k = 1; k < count; k++)
        if (!strcmp(words[k], "--pair") && k + 2 < count) {
            uint8_t *script = whole_file(&workers->watch, words[k + 1], &length);
            add_job(&workers->watch, script, whole_file(&workers->watch, words[k + 2], &length), words[k + 2], 0);
            k += 2;
        } else if (!strcmp(words[k], "--texts") && k + 2 < count) {
            texts_of.words = words + k + 1;
            k += 2;
        } else if (!strcmp(words[k], "--streams") && k + 2 < count) {
            read_streams(&workers->watch, words[k + 1], words[k + 2]);
            k += 2;
        } else if (words[k][0] != '-')
            read_streams(&workers->watch, words[k], NULL);
        else
            job_count = 0, k = count;
    if (!job_count) {
        fputs("scripts: give streams, --pair SCRIPT ANSWERS, --streams SCRIPTS ANSWERS or --texts CALLS ANSWERS\n", stderr);
        return 2;
    }
    expect(&workers->watch, !pthread_attr_init(&attributes) && !pthread_attr_setstacksize(&attributes, STACK),
           "no thread can have such a stack");
    for (size_t k = 0; k < THREADS; k++)
        expect(&workers[k].watch, !pthread_create(&workers[k].thread, &attributes, work, workers + k), "no thread");
    for (size_t k = 0; k < THREADS; k++)
        expect(&workers[k].watch, !pthread_join(workers[k].thread, NULL), "a thread is lost");
    if (texts_of.words)
        in_thread(&workers->watch, STACK, text_work, &texts_of);
    for (size_t k = 0; k < THREADS; k++) {
        scripts += workers[k].scripts;
        lines += workers[k].lines;
        refusals += workers[k].watch.refusals;
    }
    printf("%" PRIu64 " calls of %" PRIu64 " scripts and %" PRIu64 " recorded text calls through C, %" PRIu64
           " of them refused, %d threads at once, all as the oracle says\n",
           lines, scripts, texts_of.count, refusals, THREADS);
    return 0;
}
