/* Times one call of the library on a file: `time FILE CALL`, where CALL is check, fetch, fill, count-at, one of the six edits
 * (insert, delete, add, set, drop, rename), insert-listed or set-listed, the same with a directory, inserts-singly or
 * inserts-run, 64 inserts in as many calls and in one, insert-omitting or insert-naming, an insert without the names N00 to N63
 * and one with them, to-fill, what an insert of a page alone lacks, total, of the field Total, or find-2 or find-51, so many comparisons. Prints nanoseconds a call, the best of several rounds, and the number that
 * the call gave, of inserts the first that was not 0. An edit is timed on a fresh copy of the file each time, the copy not
 * counted; count-at asks for the last set. `time FILE CALL N` makes N calls and prints the number, for a counter of instructions.
 * `time FILE stack` prints the peak stack of each call in bytes, `time FILE depth` that of the check. */
#include <recfile.h>
#include <stdio.h>
#include <stdlib.h>
#include <string.h>
#include <time.h>

#define ROOM 131072

#define ENTRIES (RECFILE_MAX_DESCRIPTORS + 1)

static uint8_t file[ROOM], work[ROOM], request[4096], run[RECFILE_MAX_REQUESTS * 64], out[4096];
static recfile_entry entries[ENTRIES];
static uint32_t answers[RECFILE_MAX_REQUESTS];
static size_t run_len;
static size_t used, request_len, sets;
static uint32_t number;

static double now(void)
{
    struct timespec t;
    clock_gettime(CLOCK_MONOTONIC, &t);
    return t.tv_sec * 1e9 + t.tv_nsec;
}

static void field(uint8_t tag, const char *contents, size_t len)
{
    request[request_len] = tag;
    request[request_len + 1] = (uint8_t)(len >> 8);
    request[request_len + 2] = (uint8_t)len;
    memcpy(request + request_len + 3, contents, len);
    request_len += 3 + len;
}

/* A request of a kind begins with the set. */
static void begin(const char *kind)
{
    request_len = 0;
    field(1, kind, 1);
    field(2, "Scan", 4);
}

static void insert_of(const char *id)
{
    begin("\1");
    field(4, "Id", 2);
    field(6, id, 6);
    field(4, "Page", 4);
    field(6, "front", 5);
}

static void insert_request(void) { insert_of("999999"); }

/* An insert of a page alone, and of the names of an %auto list behind it. */
static void omitting_request(void)
{
    begin("\1");
    field(4, "Page", 4);
    field(6, "front", 5);
}

static void naming_request(void)
{
    char name[] = "N00";
    omitting_request();
    for (int i = 0; i < RECFILE_MAX_WORDS; i++) {
        name[1] = (char)('0' + i / 10);
        name[2] = (char)('0' + i % 10);
        field(4, name, 3);
        field(6, "7", 1);
    }
}

/* As many inserts as a run may have, with keys of their own. */
static void inserts_request(void)
{
    char id[] = "999900";
    run_len = 0;
    for (int i = 0; i < RECFILE_MAX_REQUESTS; i++) {
        id[4] = (char)('0' + i / 10);
        id[5] = (char)('0' + i % 10);
        insert_of(id);
        run[run_len] = (uint8_t)(request_len >> 8);
        run[run_len + 1] = (uint8_t)request_len;
        memcpy(run + run_len + 2, request, request_len);
        run_len += 2 + request_len;
    }
}

/* An edit of record 3 by its kind, and the name of a field where it has one. */
static void record_request(const char *kind, const char *name)
{
    begin(kind);
    field(3, "\0\3", 2);
    if (name != NULL)
        field(4, name, strlen(name));
}

static void delete_request(void) { record_request("\2", NULL); }

static void add_request(void)
{
    record_request("\3", "Note");
    field(6, "x", 1);
}

static void set_request(void)
{
    record_request("\4", "Page");
    field(5, "\0\0", 2);
    field(6, "torn", 4);
}

static void drop_request(void)
{
    record_request("\5", "Total");
    field(5, "\0\0", 2);
}

static void rename_request(void)
{
    record_request("\6", "Total");
    field(5, "\0\0", 2);
    field(7, "Sum", 3);
}

static void check(void) { number = recfile_check(file, sizeof file, used); }
static void edit(void) { recfile_edit(work, 65536, used, request, request_len, &number); }
static void fetch(void)
{
    recfile_fetch(file, sizeof file, used, (const uint8_t *)"Scan", 4, 3, (const uint8_t *)"Page", 4, 0, out, sizeof out, &number);
}
static void view(void)
{
    size_t start;
    recfile_view(file, sizeof file, used, (const uint8_t *)"Scan", 4, 3, &start, &number);
}
static void count(void) { recfile_count(file, sizeof file, used, (const uint8_t *)"Scan", 4, &number); }
static void write_record(void) { recfile_write(request, request_len, out, sizeof out, &number); }
static void fill(void) { sets = recfile_fill(file, sizeof file, used, entries, ENTRIES, &number); }
static void edit_listed(void) { recfile_edit_listed(work, 65536, used, request, request_len, entries, ENTRIES, &number); }
static void first_refused(uint32_t answer)
{
    if (number == 0)
        number = answer;
}
static void inserts_singly(void)
{
    size_t n = used;
    number = 0;
    for (size_t at = 0; at < run_len;) {
        size_t len = run[at] * 256u + run[at + 1];
        uint32_t answer;
        n = recfile_edit(work, 65536, n, run + at + 2, len, &answer);
        first_refused(answer);
        at += 2 + len;
    }
}
static void inserts_run(void)
{
    recfile_edit_run(work, 65536, used, run, run_len, answers, RECFILE_MAX_REQUESTS, &number);
    for (int i = 0; i < RECFILE_MAX_REQUESTS; i++)
        first_refused(answers[i]);
}
static void total(void)
{
    int64_t hundredths, millionths;
    recfile_total(file, sizeof file, used, (const uint8_t *)"Scan", 4, (const uint8_t *)"Total", 5, &hundredths, &millionths, &number);
}
static size_t found[16384];
static void find_by(const char *expression)
{
    recfile_find(file, sizeof file, used, (const uint8_t *)"Scan", 4, (const uint8_t *)expression, strlen(expression), found, 16384, &number);
}
static void find_2(void) { find_by("Total > 20 && Page = 'front'"); }
static void find_51(void)
{
    /* not on the stack, which is measured */
    static char expression[RECFILE_MAX_EXPRESSION + 1];
    strcpy(expression, "I=1");
    for (int i = 1; i < 51; i++)
        strcat(expression, "||I=1");
    find_by(expression);
}
static void to_fill(void) { recfile_to_fill(file, sizeof file, used, request, request_len, &number); }
static void count_at(void) { recfile_count_at(entries, ENTRIES, sets - 1, &number); }

/* The calls by name; an edit has a maker of its request. */
static const struct call {
    const char *name;
    void (*request)(void);
    void (*call)(void);
} calls[] = {
    {"check", NULL, check}, {"count", NULL, count}, {"fetch", NULL, fetch}, {"view", NULL, view}, {"write", NULL, write_record},
    {"insert", insert_request, edit}, {"delete", delete_request, edit}, {"add", add_request, edit}, {"set", set_request, edit},
    {"drop", drop_request, edit}, {"rename", rename_request, edit},
    {"fill", NULL, fill}, {"count-at", NULL, count_at}, {"insert-listed", insert_request, edit_listed}, {"set-listed", set_request, edit_listed},
    {"insert-omitting", omitting_request, edit}, {"insert-naming", naming_request, edit},
    {"to-fill", omitting_request, to_fill}, {"total", NULL, total}, {"find-2", NULL, find_2}, {"find-51", NULL, find_51},
    {"inserts-singly", inserts_request, inserts_singly}, {"inserts-run", inserts_request, inserts_run},
};

#define CALLS (sizeof calls / sizeof *calls)

/* What a call works on: its request, and for an edit a fresh copy of the file. */
static void prepare(const struct call *c)
{
    if (c->request == NULL)
        return;
    c->request();
    memcpy(work, file, sizeof work);
}

static double best(const struct call *c)
{
    double least = 1e18, spent = 0;
    while (spent < 4e8) {
        double from, took;
        prepare(c);
        from = now();
        c->call();
        took = now() - from;
        spent += took;
        if (took < least)
            least = took;
    }
    return least;
}

/* The stack below this frame is painted, the call made, and the lowest byte that changed looked for. */
#define DEEP (1 << 20)
static __attribute__((noinline)) void paint(void)
{
    volatile uint8_t area[DEEP];
    for (size_t i = 0; i < DEEP; i++)
        area[i] = 0xA5;
}
static __attribute__((noinline)) size_t depth(void)
{
    volatile uint8_t area[DEEP];
    size_t i = 0;
    while (i < DEEP && area[i] == 0xA5)
        i++;
    return DEEP - i;
}
static size_t stack_of(const struct call *c)
{
    prepare(c);
    paint();
    c->call();
    return depth();
}

int main(int argc, char **argv)
{
    FILE *f = argc > 2 ? fopen(argv[1], "rb") : NULL;
    if (f == NULL)
        return 2;
    used = fread(file, 1, sizeof file, f);
    fill();
    insert_request();
    if (strcmp(argv[2], "depth") == 0) {
        printf("%zu\n", stack_of(&calls[0]));
        return 0;
    }
    for (size_t k = 0; k < CALLS; k++) {
        const struct call *c = &calls[k];
        if (strcmp(argv[2], "stack") == 0) {
            printf("%s %zu\n", c->name, stack_of(c));
        } else if (strcmp(argv[2], c->name) == 0 && argc > 3) {
            for (long i = atol(argv[3]); i > 0; i--) {
                prepare(c);
                c->call();
            }
            printf("%u\n", (unsigned)number);
        } else if (strcmp(argv[2], c->name) == 0) {
            double took = best(c);
            printf("%.0f %u\n", took, (unsigned)number);
        }
    }
    return 0;
}
