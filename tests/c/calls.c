/* Every call of include/recfile.h, through its names: each refusal, each limit at both sides, each kind of request.
 *
 * Each buffer that a call is given has exactly its size. It lies on the heap, where valgrind sees a byte read or written outside
 * it (and the address sanitizer one that the library's memcpy and memset touch); at the end of a page that another follows which
 * cannot be touched; or at the front of a page behind such a one. So has each list of entries or answers. An empty buffer or list is NULL.
 * After a call each buffer that it may not change is compared with what it was.
 *
 * Usage: calls [heap]    (heap: only there)
 */
#define _DEFAULT_SOURCE
#include <recfile.h>
#include <stdio.h>
#include <stdlib.h>
#include <string.h>
#include <sys/mman.h>
#include <unistd.h>

#define FILLER 0xEE

static enum place { HEAP, END, FRONT } place;
static unsigned answers, wrong;
static const char *asked = "";

/* A buffer of exactly `len` bytes that holds `bytes`, or filler where there are none. */
static void *lend(const void *bytes, size_t len)
{
    size_t page = (size_t)sysconf(_SC_PAGESIZE), inside = (len + page - 1) / page * page;
    uint8_t *base, *at;

    if (len == 0)
        return NULL;
    if (place == HEAP) {
        at = malloc(len);
        if (at == NULL)
            exit(2);
    } else {
        base = mmap(NULL, inside + 2 * page, PROT_NONE, MAP_PRIVATE | MAP_ANONYMOUS, -1, 0);
        if (base == MAP_FAILED || mprotect(base + page, inside, PROT_READ | PROT_WRITE) != 0)
            exit(2);
        at = place == END ? base + page + inside - len : base + page;
    }
    if (bytes != NULL)
        memcpy(at, bytes, len);
    else
        memset(at, FILLER, len);
    return at;
}

static void give_back(void *at, size_t len)
{
    size_t page = (size_t)sysconf(_SC_PAGESIZE), inside = (len + page - 1) / page * page;

    if (len == 0)
        return;
    if (place == HEAP)
        free(at);
    else
        munmap((uint8_t *)at - page - (place == END ? inside - len : 0), inside + 2 * page);
}

static void expect(const char *what, unsigned long long got, unsigned long long wanted)
{
    answers++;
    if (got != wanted) {
        wrong++;
        printf("%s, %s: %llu, expected %llu\n", asked, what, got, wanted);
    }
}

/* Bytes of a buffer after a call. */
static void same(const char *what, const void *got, const void *wanted, size_t len)
{
    expect(what, len == 0 || memcmp(got, wanted, len) == 0, 1);
}

static void filler(const char *what, const uint8_t *got, size_t len)
{
    size_t i;

    for (i = 0; i < len && got[i] == FILLER; i++)
        ;
    expect(what, i, len);
}

/* The calls, each with buffers of its own. A file fills its buffer, but where there is a `room`. */

static uint32_t check(const void *file, size_t len, size_t used)
{
    uint8_t *buf = lend(file, len);
    uint32_t number = recfile_check(buf, len, used);

    same("check leaves the file", buf, file, len);
    give_back(buf, len);
    return number;
}

static void counted(const char *file, const char *set, uint32_t number, size_t records)
{
    size_t len = strlen(file), set_len = strlen(set), n;
    uint8_t *buf = lend(file, len), *name = lend(set, set_len);
    uint32_t *told = lend(NULL, sizeof *told);

    asked = "count";
    n = recfile_count(buf, len, len, name, set_len, told);
    expect("number", *told, number);
    expect("records", n, records);
    same("the file stays", buf, file, len);
    same("the set's name stays", name, set, set_len);
    give_back(buf, len);
    give_back(name, set_len);
    give_back(told, sizeof *told);
}

static void named(const char *file, size_t set, size_t room, uint32_t number, const char *text)
{
    size_t len = strlen(file), n, text_len = strlen(text);
    uint8_t *buf = lend(file, len), *out = lend(NULL, room);
    uint32_t *told = lend(NULL, sizeof *told);

    asked = "set_name";
    n = recfile_set_name(buf, len, len, set, out, room, told);
    expect("number", *told, number);
    expect("length", n, text_len);
    same("name", out, text, text_len);
    if (room > text_len)
        filler("what is behind it stays", out + text_len, room - text_len);
    same("the file stays", buf, file, len);
    give_back(buf, len);
    give_back(out, room);
    give_back(told, sizeof *told);
}

static void fetched(const char *file, const char *set, size_t record, const char *name, size_t occurrence, size_t room, uint32_t number, const char *text)
{
    size_t len = strlen(file), set_len = strlen(set), name_len = strlen(name), n, text_len = strlen(text);
    uint8_t *buf = lend(file, len), *of = lend(set, set_len), *field = lend(name, name_len), *out = lend(NULL, room);
    uint32_t *told = lend(NULL, sizeof *told);

    asked = "fetch";
    n = recfile_fetch(buf, len, len, of, set_len, record, field, name_len, occurrence, out, room, told);
    expect("number", *told, number);
    expect("length", n, text_len);
    same("value", out, text, text_len);
    if (room > text_len)
        filler("what is behind it stays", out + text_len, room - text_len);
    same("the file stays", buf, file, len);
    same("the set's name stays", of, set, set_len);
    same("the name stays", field, name, name_len);
    give_back(buf, len);
    give_back(of, set_len);
    give_back(field, name_len);
    give_back(out, room);
    give_back(told, sizeof *told);
}

static void viewed(const char *file, const char *set, size_t record, uint32_t number, size_t start, size_t length)
{
    size_t len = strlen(file), set_len = strlen(set), n;
    uint8_t *buf = lend(file, len), *of = lend(set, set_len);
    uint32_t *told = lend(NULL, sizeof *told);
    size_t *from = lend(NULL, sizeof *from);

    asked = "view";
    n = recfile_view(buf, len, len, of, set_len, record, from, told);
    expect("number", *told, number);
    expect("length", n, length);
    expect("start", *from, start);
    same("the file stays", buf, file, len);
    same("the set's name stays", of, set, set_len);
    give_back(buf, len);
    give_back(of, set_len);
    give_back(told, sizeof *told);
    give_back(from, sizeof *from);
}

static void written(const uint8_t *request, size_t request_len, size_t room, uint32_t number, const void *text, size_t text_len)
{
    uint8_t *asks = lend(request, request_len), *out = lend(NULL, room);
    uint32_t *told = lend(NULL, sizeof *told);
    size_t n;

    asked = "write";
    n = recfile_write(asks, request_len, out, room, told);
    expect("number", *told, number);
    expect("length", n, text_len);
    if (text != NULL)
        same("text", out, text, text_len);
    if (room > text_len)
        filler("what is behind it stays", out + text_len, room - text_len);
    same("the request stays", asks, request, request_len);
    give_back(asks, request_len);
    give_back(out, room);
    give_back(told, sizeof *told);
}

/* Found records, in a list of `room` entries of filler: the first `count` of them are these numbers after the call, the others stay. */
static void selected(const char *file, const char *set, const char *expression, size_t room, uint32_t number, const size_t *numbers, size_t count)
{
    size_t len = strlen(file), set_len = strlen(set), expression_len = strlen(expression), n;
    uint8_t *buf = lend(file, len), *of = lend(set, set_len), *asks = lend(expression, expression_len);
    size_t *list = lend(NULL, room * sizeof *list);
    uint32_t *told = lend(NULL, sizeof *told);

    asked = "find";
    n = recfile_find(buf, len, len, of, set_len, asks, expression_len, list, room, told);
    expect("number", *told, number);
    expect("records", n, count);
    same("numbers", list, numbers, count * sizeof *numbers);
    if (room > count)
        filler("entries behind them stay", (const uint8_t *)(list + count), (room - count) * sizeof *list);
    same("the file stays", buf, file, len);
    same("the set's name stays", of, set, set_len);
    same("the expression stays", asks, expression, expression_len);
    give_back(buf, len);
    give_back(of, set_len);
    give_back(asks, expression_len);
    give_back(list, room * sizeof *list);
    give_back(told, sizeof *told);
}

/* Refused, the sums stay as they were, filler. */
static void added(const char *file, const char *set, const char *name, uint32_t number, size_t values, int64_t hundredths, int64_t millionths)
{
    size_t len = strlen(file), set_len = strlen(set), name_len = strlen(name), n;
    uint8_t *buf = lend(file, len), *of = lend(set, set_len), *field = lend(name, name_len);
    int64_t *rounded = lend(NULL, sizeof *rounded), *exact = lend(NULL, sizeof *exact);
    uint32_t *told = lend(NULL, sizeof *told);

    asked = "total";
    n = recfile_total(buf, len, len, of, set_len, field, name_len, rounded, exact, told);
    expect("number", *told, number);
    expect("values", n, values);
    if (number == RECFILE_ACCEPTED) {
        expect("hundredths", (uint64_t)*rounded, (uint64_t)hundredths);
        expect("millionths", (uint64_t)*exact, (uint64_t)millionths);
    } else {
        filler("the hundredths stay", (const uint8_t *)rounded, sizeof *rounded);
        filler("the millionths stay", (const uint8_t *)exact, sizeof *exact);
    }
    same("the file stays", buf, file, len);
    same("the set's name stays", of, set, set_len);
    same("the name stays", field, name, name_len);
    give_back(buf, len);
    give_back(of, set_len);
    give_back(field, name_len);
    give_back(rounded, sizeof *rounded);
    give_back(exact, sizeof *exact);
    give_back(told, sizeof *told);
}

static void drafted(const char *file, const uint8_t *request, size_t request_len, uint32_t number, size_t missing)
{
    size_t len = strlen(file), n;
    uint8_t *buf = lend(file, len), *asks = lend(request, request_len);
    uint32_t *told = lend(NULL, sizeof *told);

    asked = "to_fill";
    n = recfile_to_fill(buf, len, len, asks, request_len, told);
    expect("number", *told, number);
    expect("names", n, missing);
    same("the file stays", buf, file, len);
    same("the request stays", asks, request, request_len);
    give_back(buf, len);
    give_back(asks, request_len);
    give_back(told, sizeof *told);
}

/* A list of `len` entries of filler, and what it holds after a call: the first `sets` of them are these, the others stay. */
struct list {
    size_t len, sets;
    const recfile_entry *holds;
};

static void listed(struct list list, const recfile_entry *got)
{
    same("entries", got, list.holds, list.sets * sizeof *got);
    if (list.len > list.sets)
        filler("entries behind them stay", (const uint8_t *)(got + list.sets), (list.len - list.sets) * sizeof *got);
}

static void filled(const char *file, struct list list, uint32_t number)
{
    size_t len = strlen(file), n;
    uint8_t *buf = lend(file, len);
    recfile_entry *entries = lend(NULL, list.len * sizeof *entries);
    uint32_t *told = lend(NULL, sizeof *told);

    asked = "fill";
    n = recfile_fill(buf, len, len, entries, list.len, told);
    expect("number", *told, number);
    expect("sets", n, list.sets);
    listed(list, entries);
    same("the file stays", buf, file, len);
    give_back(buf, len);
    give_back(entries, list.len * sizeof *entries);
    give_back(told, sizeof *told);
}

static void counted_at(struct list list, size_t position, uint32_t number, size_t records)
{
    recfile_entry *entries = lend(list.holds, list.len * sizeof *entries);
    uint32_t *told = lend(NULL, sizeof *told);
    size_t n;

    asked = "count_at";
    n = recfile_count_at(entries, list.len, position, told);
    expect("number", *told, number);
    expect("records", n, records);
    same("the list stays", entries, list.holds, list.len * sizeof *entries);
    give_back(entries, list.len * sizeof *entries);
    give_back(told, sizeof *told);
}

/* An edit, given a list where there is one. */
static void edited(const char *file, size_t room, const uint8_t *request, size_t request_len, const struct list *list, uint32_t number, const char *after)
{
    size_t used = strlen(file), after_len = strlen(after), entries_len = list == NULL ? 0 : list->len, n, i;
    uint8_t *before = malloc(room + 1), *buf, *asks = lend(request, request_len);
    recfile_entry *entries = lend(NULL, entries_len * sizeof *entries);
    uint32_t *told = lend(NULL, sizeof *told);

    if (before == NULL)
        exit(2);
    memset(before, FILLER, room + 1);
    memcpy(before, file, used);
    buf = lend(before, room);
    asked = list == NULL ? "edit" : "edit_listed";
    n = list == NULL ? recfile_edit(buf, room, used, asks, request_len, told)
                     : recfile_edit_listed(buf, room, used, asks, request_len, entries, entries_len, told);
    expect("number", *told, number);
    expect("length", n, after_len);
    same("the file after it", buf, after, after_len);
    for (i = after_len; i < used; i++)
        before[i] = 0;
    if (room > after_len)
        same("what is behind it", buf + after_len, before + after_len, room - after_len);
    same("the request stays", asks, request, request_len);
    if (list != NULL)
        listed(*list, entries);
    free(before);
    give_back(buf, room);
    give_back(asks, request_len);
    give_back(entries, entries_len * sizeof *entries);
    give_back(told, sizeof *told);
}

/* A run of requests, given a list of `room` answers of filler. The file fills its buffer but for `spare` bytes of filler, `used` is the length that is
 * told of it, and `most` the largest length that it has between the requests. The first `count` answers are these numbers after the call, the others stay. */
struct sending {
    size_t spare, used, room, most;
};

static void sent(const char *file, struct sending s, const uint8_t *run, size_t run_len, uint32_t number, const uint32_t *numbers, size_t count, const char *after, size_t length)
{
    size_t held = strlen(file), len = held + s.spare, after_len = strlen(after), n, i;
    uint8_t *before = malloc(len + 1), *buf, *asks = lend(run, run_len);
    uint32_t *numbered = lend(NULL, s.room * sizeof *numbered), *told = lend(NULL, sizeof *told);

    if (before == NULL)
        exit(2);
    memset(before, FILLER, len + 1);
    memcpy(before, file, held);
    buf = lend(before, len);
    asked = "edit_run";
    n = recfile_edit_run(buf, len, s.used, asks, run_len, numbered, s.room, told);
    expect("number", *told, number);
    expect("length", n, length);
    same("the file after it", buf, after, after_len);
    for (i = after_len; i < s.most; i++)
        before[i] = 0;
    if (len > after_len)
        same("what is behind it", buf + after_len, before + after_len, len - after_len);
    same("answers", numbered, numbers, count * sizeof *numbers);
    if (s.room > count)
        filler("answers behind them stay", (const uint8_t *)(numbered + count), (s.room - count) * sizeof *numbered);
    same("the run stays", asks, run, run_len);
    free(before);
    give_back(buf, len);
    give_back(asks, run_len);
    give_back(numbered, s.room * sizeof *numbered);
    give_back(told, sizeof *told);
}

/* A field at a place of a request of `len` bytes of filler. */
static void put(size_t len, size_t at, uint8_t tag, const void *contents, size_t contents_len, size_t wanted)
{
    uint8_t *request = lend(NULL, len), *holds = lend(contents, contents_len);
    size_t n;

    asked = "request_field";
    n = recfile_request_field(request, len, at, tag, holds, contents_len);
    expect("place", n, wanted);
    if (wanted > len) {
        filler("nothing is written", request, len);
    } else {
        filler("what is before it stays", request, at);
        expect("tag", request[at], tag);
        expect("length", request[at + 1] * 256u + request[at + 2], contents_len);
        same("contents", request + at + 3, contents, contents_len);
        filler("what is behind it stays", request + wanted, len - wanted);
    }
    same("the contents stay", holds, contents, contents_len);
    give_back(request, len);
    give_back(holds, contents_len);
}

/* Requests, built by the library. */

static uint8_t request[RECFILE_MAX_FILE + 8];
static size_t end;

static void bytes(uint8_t tag, const void *contents, size_t len)
{
    end = recfile_request_field(request, sizeof request, end, tag, contents, len);
}

static void text(uint8_t tag, const char *contents)
{
    bytes(tag, contents, strlen(contents));
}

static void number(uint8_t tag, unsigned n)
{
    uint8_t two[2] = { (uint8_t)(n >> 8), (uint8_t)n };

    bytes(tag, two, 2);
}

static void begin(uint8_t kind, const char *set)
{
    end = 0;
    bytes(RECFILE_TAG_KIND, &kind, 1);
    text(RECFILE_TAG_SET, set);
}

static void insert(const char *set, const char *name, const char *value)
{
    begin(RECFILE_KIND_INSERT, set);
    text(RECFILE_TAG_NAME, name);
    text(RECFILE_TAG_VALUE, value);
}

static void delete(const char *set, unsigned record)
{
    begin(RECFILE_KIND_DELETE, set);
    number(RECFILE_TAG_RECORD, record);
}

static void add(const char *set, unsigned record, const char *name, const char *value)
{
    begin(RECFILE_KIND_ADD, set);
    number(RECFILE_TAG_RECORD, record);
    text(RECFILE_TAG_NAME, name);
    text(RECFILE_TAG_VALUE, value);
}

static void field(uint8_t kind, const char *set, unsigned record, const char *name, unsigned occurrence)
{
    begin(kind, set);
    number(RECFILE_TAG_RECORD, record);
    text(RECFILE_TAG_NAME, name);
    number(RECFILE_TAG_OCCURRENCE, occurrence);
}

static void set(const char *of, unsigned record, const char *name, unsigned occurrence, const char *value)
{
    field(RECFILE_KIND_SET, of, record, name, occurrence);
    text(RECFILE_TAG_VALUE, value);
}

static void drop(const char *of, unsigned record, const char *name, unsigned occurrence)
{
    field(RECFILE_KIND_DROP, of, record, name, occurrence);
}

static void rename_field(const char *of, unsigned record, const char *name, unsigned occurrence, const char *new_name)
{
    field(RECFILE_KIND_RENAME, of, record, name, occurrence);
    text(RECFILE_TAG_NEW_NAME, new_name);
}

/* Runs of requests: the request that was built last is the next one. */

static uint8_t run[2 * (RECFILE_MAX_CONTENTS + 2) + 8];
static size_t run_end;

static void next(void)
{
    run[run_end] = (uint8_t)(end >> 8);
    run[run_end + 1] = (uint8_t)end;
    memcpy(run + run_end + 2, request, end);
    run_end += 2 + end;
}

/* Refused: the file stays. */
static void refused(const char *file, size_t room, uint32_t why)
{
    edited(file, room, request, end, NULL, why, file);
}

static void accepted(const char *file, size_t room, const char *after)
{
    edited(file, room, request, end, NULL, RECFILE_ACCEPTED, after);
}

/* Text of `n` times a piece behind a head. */
static char *many(const char *head, const char *piece, size_t n, const char *tail)
{
    char *all = malloc(strlen(head) + n * strlen(piece) + strlen(tail) + 1), *at;

    if (all == NULL)
        exit(2);
    at = all + sprintf(all, "%s", head);
    while (n-- > 0)
        at += sprintf(at, "%s", piece);
    sprintf(at, "%s", tail);
    return all;
}

/* The same with the number of each put into the piece. */
static char *numbered(const char *head, const char *piece, size_t n)
{
    char *all = malloc(strlen(head) + n * (strlen(piece) + 8) + 1), *at;
    size_t i;

    if (all == NULL)
        exit(2);
    at = all + sprintf(all, "%s", head);
    for (i = 0; i < n; i++) {
        const char *c;
        for (c = piece; *c; c++)
            at += *c == '@' ? sprintf(at, "%u", (unsigned)i) : sprintf(at, "%c", *c);
    }
    return all;
}

static void at_limit(const char *what, char *held, char *passed)
{
    asked = what;
    expect("at the limit", check(held, strlen(held), strlen(held)), RECFILE_ACCEPTED);
    expect("one more", check(passed, strlen(passed), strlen(passed)), RECFILE_REFUSED_LIMIT);
    free(held);
    free(passed);
}

static const char book[] = "%rec: Scan\n%key: Id\n%type: Id int\n%mandatory: Page\n\nId: 1\nPage: front\n# folded\nPage: back\n";

static void files(void)
{
    static const struct { uint32_t number; const char *text; } faults[] = {
        { RECFILE_ACCEPTED, "" },
        { RECFILE_ACCEPTED, book },
        { RECFILE_REFUSED_BYTE, "Id: 1" },
        { RECFILE_REFUSED_BYTE, "Id: \177\n" },
        { RECFILE_REFUSED_LINE, "Page front\n" },
        { RECFILE_REFUSED_REC, "%key: Id\n" },
        { RECFILE_REFUSED_DESCRIPTOR, "%rec: Scan\n%key: Id Page\n" },
        { RECFILE_REFUSED_DESCRIPTOR, "%rec: Scan\n%auto: Id %Page\n" },
        { RECFILE_REFUSED_TYPE, "%rec: Scan\n%typedef: T U\n%typedef: U T\n" },
        { RECFILE_REFUSED_TYPE, "%rec: Scan\n%auto: Id\n%typedef: T real\n%type: Id T\n" },
        { RECFILE_REFUSED_PROHIBITED, "%rec: Scan\n%prohibit: Draft\n\nDraft: yes\n" },
        { RECFILE_REFUSED_NOT_ALLOWED, "%rec: Scan\n%allowed: Id\n\nPage: 1\n" },
        { RECFILE_REFUSED_MISSING, "%rec: Scan\n%key: Id\n\nPage: 1\n" },
        { RECFILE_REFUSED_REPEATED, "%rec: Scan\n%key: Id\n\nId: 1\nId: 2\n" },
        { RECFILE_REFUSED_VALUE, "%rec: Scan\n%type: Id int\n\nId: 08\n" },
        { RECFILE_REFUSED_KEY, "%rec: Scan\n%key: Id\n\nId: 1\n\nId: 1\n" },
        { RECFILE_REFUSED_SIZE, "%rec: Scan\n%size: 1\n" },
        { RECFILE_REFUSED_SINGULAR, "%rec: Scan\n%singular: Id\n\nId: 1\nId: 1\n" },
    };
    static const char *const lists[] = { "%rec: S\n%mandatory:", "%rec: S\n%prohibit:", "%rec: S\n%allowed:", "%rec: S\n%unique:", "%rec: S\n%singular:", "%rec: S\n%auto:" };
    struct list list = { 0, 0, NULL };
    size_t i;
    char *text;

    for (i = 0; i < sizeof faults / sizeof *faults; i++) {
        asked = faults[i].text;
        expect("check", check(faults[i].text, strlen(faults[i].text), strlen(faults[i].text)), faults[i].number);
        if (faults[i].number != RECFILE_ACCEPTED) {
            counted(faults[i].text, "Scan", faults[i].number, 0);
            named(faults[i].text, 0, 9, faults[i].number, "");
            fetched(faults[i].text, "Scan", 0, "Id", 0, 9, faults[i].number, "");
            viewed(faults[i].text, "Scan", 0, faults[i].number, 0, 0);
            added(faults[i].text, "Scan", "Id", faults[i].number, 0, 0, 0);
            selected(faults[i].text, "Scan", "Id=1", 3, faults[i].number, NULL, 0);
            delete("Scan", 0);
            refused(faults[i].text, strlen(faults[i].text) + 9, faults[i].number);
            drafted(faults[i].text, request, end, faults[i].number, 0);
            for (list.len = 0; list.len < 4; list.len++) {
                filled(faults[i].text, list, faults[i].number);
                edited(faults[i].text, strlen(faults[i].text), request, end, &list, faults[i].number, faults[i].text);
            }
        }
    }

    asked = "the used length";
    expect("of an empty buffer", check("", 0, 1), RECFILE_REFUSED_LENGTH);
    expect("past the buffer", check(book, sizeof book - 1, sizeof book), RECFILE_REFUSED_LENGTH);
    expect("the largest", check(book, sizeof book - 1, SIZE_MAX), RECFILE_REFUSED_LENGTH);
    text = many("", "\n", RECFILE_MAX_FILE + 1, "");
    expect("at the limit", check(text, RECFILE_MAX_FILE, RECFILE_MAX_FILE), RECFILE_ACCEPTED);
    expect("one more", check(text, RECFILE_MAX_FILE + 1, RECFILE_MAX_FILE + 1), RECFILE_REFUSED_LENGTH);
    free(text);

    at_limit("a name", many("", "N", RECFILE_MAX_NAME, ": 1\n"), many("", "N", RECFILE_MAX_NAME + 1, ": 1\n"));
    at_limit("a value", many("A: ", "x", RECFILE_MAX_VALUE, "\n"), many("A: ", "x", RECFILE_MAX_VALUE + 1, "\n"));
    at_limit("fields", many("", "A: 1\n", RECFILE_MAX_FIELDS, ""), many("", "A: 1\n", RECFILE_MAX_FIELDS + 1, ""));
    at_limit("descriptors", numbered("", "%rec: S@\n\n", RECFILE_MAX_DESCRIPTORS), numbered("", "%rec: S@\n\n", RECFILE_MAX_DESCRIPTORS + 1));
    at_limit("typedefs", numbered("%rec: S\n", "%typedef: T@ int\n", RECFILE_MAX_TYPEDEFS), numbered("%rec: S\n", "%typedef: T@ int\n", RECFILE_MAX_TYPEDEFS + 1));
    at_limit("%type fields", many("%rec: S\n", "%type: A int\n", RECFILE_MAX_TYPES, ""), many("%rec: S\n", "%type: A int\n", RECFILE_MAX_TYPES + 1, ""));
    for (i = 0; i < sizeof lists / sizeof *lists; i++)
        at_limit(lists[i], many(lists[i], " A", RECFILE_MAX_WORDS, "\n"), many(lists[i], " A", RECFILE_MAX_WORDS + 1, "\n"));
}

static void lookups(void)
{
    counted("", "", RECFILE_ACCEPTED, 0);
    counted(book, "", RECFILE_ACCEPTED, 0);
    counted(book, "Scan", RECFILE_ACCEPTED, 1);
    counted(book, "Scans", RECFILE_REFUSED_NO_SET, 0);

    named("", 0, 0, RECFILE_ACCEPTED, "");
    named("", 1, 0, RECFILE_REFUSED_NO_SET, "");
    named(book, 0, 5, RECFILE_ACCEPTED, "");
    named(book, 1, 4, RECFILE_ACCEPTED, "Scan");
    named(book, 1, 9, RECFILE_ACCEPTED, "Scan");
    named(book, 1, 3, RECFILE_REFUSED_ROOM, "");
    named(book, 1, 0, RECFILE_REFUSED_ROOM, "");
    named(book, 2, 9, RECFILE_REFUSED_NO_SET, "");
    named(book, SIZE_MAX, 9, RECFILE_REFUSED_NO_SET, "");
    named("%rec: B\n\n%rec: A\n", 1, 1, RECFILE_ACCEPTED, "B");
    named("%rec: B\n\n%rec: A\n", 2, 1, RECFILE_ACCEPTED, "A");

    fetched(book, "Scan", 0, "Page", 1, 4, RECFILE_ACCEPTED, "back");
    fetched(book, "Scan", 0, "Page", 0, 7, RECFILE_ACCEPTED, "front");
    fetched(book, "Scan", 0, "Page", 0, 4, RECFILE_REFUSED_ROOM, "");
    fetched(book, "Scan", 0, "Page", 2, 9, RECFILE_REFUSED_NO_FIELD, "");
    fetched(book, "Scan", 0, "", 0, 9, RECFILE_REFUSED_NO_FIELD, "");
    fetched(book, "Scan", 0, "Page", SIZE_MAX, 9, RECFILE_REFUSED_NO_FIELD, "");
    fetched(book, "Scan", 1, "Page", 0, 9, RECFILE_REFUSED_NO_RECORD, "");
    fetched(book, "Scan", SIZE_MAX, "Page", 0, 9, RECFILE_REFUSED_NO_RECORD, "");
    fetched(book, "", 0, "Page", 0, 9, RECFILE_REFUSED_NO_RECORD, "");
    fetched(book, "S", 0, "Page", 0, 9, RECFILE_REFUSED_NO_SET, "");
    fetched("A:\n", "", 0, "A", 0, 0, RECFILE_ACCEPTED, "");
    fetched("", "", 0, "", 0, 0, RECFILE_REFUSED_NO_RECORD, "");

    viewed(book, "Scan", 0, RECFILE_ACCEPTED, 52, sizeof book - 1 - 52);
    viewed(book, "Scan", 1, RECFILE_REFUSED_NO_RECORD, 0, 0);
    viewed(book, "S", 0, RECFILE_REFUSED_NO_SET, 0, 0);
    viewed("A: 1\n", "", 0, RECFILE_ACCEPTED, 0, 5);
    viewed("", "", 0, RECFILE_REFUSED_NO_RECORD, 0, 0);
}

static void fields(void)
{
    uint8_t *large = malloc(RECFILE_MAX_CONTENTS + 1);

    if (large == NULL)
        exit(2);
    memset(large, 'x', RECFILE_MAX_CONTENTS + 1);
    put(0, 0, RECFILE_TAG_SET, NULL, 0, 1);
    put(2, 0, RECFILE_TAG_SET, NULL, 0, 3);
    put(3, 0, RECFILE_TAG_SET, NULL, 0, 3);
    put(3, 1, RECFILE_TAG_SET, NULL, 0, 4);
    put(7, 0, RECFILE_TAG_SET, "Scan", 4, 7);
    put(6, 0, RECFILE_TAG_SET, "Scan", 4, 7);
    put(20, 5, 255, "Scan", 4, 12);
    put(20, 13, 0, "Scan", 4, 20);
    put(20, 14, 0, "Scan", 4, 21);
    put(20, 20, RECFILE_TAG_SET, NULL, 0, 21);
    put(20, 21, RECFILE_TAG_SET, NULL, 0, 21);
    put(20, SIZE_MAX, RECFILE_TAG_SET, "Scan", 4, 21);
    put(20, SIZE_MAX - 6, RECFILE_TAG_SET, "Scan", 4, 21);
    put(RECFILE_MAX_CONTENTS + 3, 0, RECFILE_TAG_VALUE, large, RECFILE_MAX_CONTENTS, RECFILE_MAX_CONTENTS + 3);
    put(RECFILE_MAX_CONTENTS + 9, 6, RECFILE_TAG_VALUE, large, RECFILE_MAX_CONTENTS, RECFILE_MAX_CONTENTS + 9);
    put(RECFILE_MAX_CONTENTS + 9, 0, RECFILE_TAG_VALUE, large, RECFILE_MAX_CONTENTS + 1, RECFILE_MAX_CONTENTS + 10);
    free(large);
}

static void writes(void)
{
    char *value = many("", "x", RECFILE_MAX_VALUE, ""), *long_value = many("", "x", RECFILE_MAX_VALUE + 1, "");
    char *name = many("", "N", RECFILE_MAX_NAME, ""), *long_name = many("", "N", RECFILE_MAX_NAME + 1, "");
    char *newlines = many("", "\n", RECFILE_MAX_VALUE, ""), *fields = many("", "A: 1\n", RECFILE_MAX_FIELDS, "");
    size_t i, rest;

    insert("", "A", "1\n2");
    written(request, end, 9, RECFILE_ACCEPTED, "A: 1\n+ 2\n", 9);
    written(request, end, 20, RECFILE_ACCEPTED, "A: 1\n+ 2\n", 9);
    written(request, end, 8, RECFILE_REFUSED_ROOM, NULL, 0);
    written(request, end, 0, RECFILE_REFUSED_ROOM, NULL, 0);
    written(request, end - 1, 20, RECFILE_REFUSED_FORM, NULL, 0);
    written(NULL, 0, 20, RECFILE_REFUSED_FORM, NULL, 0);
    written(NULL, 0, 0, RECFILE_REFUSED_FORM, NULL, 0);
    begin(RECFILE_KIND_INSERT, "");
    written(request, end, 20, RECFILE_REFUSED_FORM, NULL, 0);
    delete("", 0);
    written(request, end, 20, RECFILE_REFUSED_FORM, NULL, 0);
    insert("", "", "1");
    written(request, end, 20, RECFILE_REFUSED_ILLEGAL, NULL, 0);
    insert("", "%A", "1");
    written(request, end, 20, RECFILE_REFUSED_ILLEGAL, NULL, 0);
    insert("", "A", "1\\");
    written(request, end, 20, RECFILE_REFUSED_ILLEGAL, NULL, 0);
    insert("", name, value);
    written(request, end, RECFILE_MAX_NAME + RECFILE_MAX_VALUE + 3, RECFILE_ACCEPTED, NULL, RECFILE_MAX_NAME + RECFILE_MAX_VALUE + 3);
    insert("", long_name, value);
    written(request, end, 20, RECFILE_REFUSED_ILLEGAL, NULL, 0);
    insert("", name, long_value);
    written(request, end, 20, RECFILE_REFUSED_ILLEGAL, NULL, 0);

    begin(RECFILE_KIND_INSERT, "");
    for (i = 0; i < RECFILE_MAX_FIELDS; i++) {
        text(RECFILE_TAG_NAME, "A");
        text(RECFILE_TAG_VALUE, "1");
    }
    written(request, end, strlen(fields), RECFILE_ACCEPTED, fields, strlen(fields));
    text(RECFILE_TAG_NAME, "A");
    text(RECFILE_TAG_VALUE, "1");
    written(request, end, 2 * strlen(fields), RECFILE_REFUSED_RESULT_LIMIT, NULL, 0);

    begin(RECFILE_KIND_INSERT, "");
    for (i = 0; i < 6; i++) {
        text(RECFILE_TAG_NAME, "A");
        text(RECFILE_TAG_VALUE, newlines);
    }
    written(request, end, 2 * RECFILE_MAX_FILE, RECFILE_REFUSED_LARGE, NULL, 0);

    /* a request at its limit, and one byte more */
    for (rest = 0; rest < 2; rest++) {
        begin(RECFILE_KIND_INSERT, "");
        while (RECFILE_MAX_FILE - end > RECFILE_MAX_VALUE + 7) {
            text(RECFILE_TAG_NAME, "A");
            text(RECFILE_TAG_VALUE, value);
        }
        text(RECFILE_TAG_NAME, "A");
        bytes(RECFILE_TAG_VALUE, value, RECFILE_MAX_FILE - end - 3 + rest);
        asked = "a request at its limit";
        expect("length", end, RECFILE_MAX_FILE + rest);
        if (rest == 0)
            written(request, end, RECFILE_MAX_FILE - 7 - 3 * 16, RECFILE_ACCEPTED, NULL, RECFILE_MAX_FILE - 7 - 3 * 16);
        else
            written(request, end, RECFILE_MAX_FILE, RECFILE_REFUSED_FORM, NULL, 0);
    }
    free(value);
    free(long_value);
    free(name);
    free(long_name);
    free(newlines);
    free(fields);
}

/* Expressions: what they find, the form at both sides of its limits, and lists of every length. */
static void finds(void)
{
    static const char three[] = "%rec: Scan\n\nId: 1\nAmount: 25\nPaid: no\n\nId: 2\nAmount: 0x20\nPaid: yes\n\nId: 3\nAmount: 7\nAmount: 30\nPaid: no\n";
    static const size_t all[] = { 0, 1, 2 }, first_last[] = { 0, 2 }, second[] = { 1 }, last[] = { 2 };
    static const char *const none[] = { "", " ", "Id", "Id=", "=1", "Id=1 &", "Id=1 &&", "Id=1 & & Id=1", "Id = = 1", "Id=08", "Id=+1", "Id=1.5", "Id=1x", "Id='1", "Id<'1'", "(Id=1", "Id=1)", "()", "!",
                                        "Id=1 Id=2", "Id\n=1", "Id=9223372036854775808", "\"Id\"=1" };
    char *deep = many("", "(", RECFILE_MAX_OPEN, "Id=1"), *deeper = many("", "(", RECFILE_MAX_OPEN + 1, "Id=1");
    char *closed = many(deep, ")", RECFILE_MAX_OPEN, ""), *overclosed = many(deeper, ")", RECFILE_MAX_OPEN + 1, "");
    char *longest = many("Id=1", " ", RECFILE_MAX_EXPRESSION - 4, ""), *longer = many("Id=1", " ", RECFILE_MAX_EXPRESSION - 3, "");
    char *turned = many("", "!", RECFILE_MAX_EXPRESSION - 4, "Id=1"), *odd = many("", "!", RECFILE_MAX_EXPRESSION - 5, "Id=1");
    size_t i, room;

    for (room = 2; room < 5; room++)
        selected(three, "Scan", "Amount > 20 && Paid = 'no'", room, RECFILE_ACCEPTED, first_last, 2);
    for (room = 0; room < 2; room++)
        selected(three, "Scan", "Amount > 20 && Paid = 'no'", room, RECFILE_REFUSED_NUMBERS, NULL, 0);
    selected(three, "Scan", "Id>=1", 3, RECFILE_ACCEPTED, all, 3);
    selected(three, "Scan", "Id=1||Id=3&&Paid='no'", 3, RECFILE_ACCEPTED, first_last, 2);
    selected(three, "Scan", "(Id=1||Id=2)&&Paid='yes'", 1, RECFILE_ACCEPTED, second, 1);
    selected(three, "Scan", "!(Id = 1 || Id = 2)", 1, RECFILE_ACCEPTED, last, 1);
    selected(three, "Scan", "!Id=1&&!Id=3", 1, RECFILE_ACCEPTED, second, 1);
    selected(three, "Scan", "Amount=32", 1, RECFILE_ACCEPTED, second, 1);
    selected(three, "Scan", "Amount='32'", 0, RECFILE_ACCEPTED, NULL, 0);
    selected(three, "Scan", "Amount<10&&Amount>20", 1, RECFILE_ACCEPTED, last, 1);
    selected(three, "Scan", "Note!='x'", 3, RECFILE_ACCEPTED, NULL, 0);
    selected(three, "Scan", "!Note='x'", 3, RECFILE_ACCEPTED, all, 3);
    selected(three, "", "Id=1", 3, RECFILE_ACCEPTED, NULL, 0);
    selected(three, "Scans", "", 3, RECFILE_REFUSED_NO_SET, NULL, 0);
    selected("", "", "Id=1", 0, RECFILE_ACCEPTED, NULL, 0);
    for (i = 0; i < sizeof none / sizeof *none; i++)
        selected(three, "Scan", none[i], 3, RECFILE_REFUSED_EXPRESSION, NULL, 0);
    selected(three, "Scan", closed, 3, RECFILE_ACCEPTED, all, 1);
    selected(three, "Scan", overclosed, 3, RECFILE_REFUSED_EXPRESSION, NULL, 0);
    selected(three, "Scan", longest, 3, RECFILE_ACCEPTED, all, 1);
    selected(three, "Scan", longer, 3, RECFILE_REFUSED_EXPRESSION, NULL, 0);
    selected(three, "Scan", turned, 3, RECFILE_ACCEPTED, all, 1);
    selected(three, "Scan", odd, 3, RECFILE_ACCEPTED, all + 1, 2);
    free(deep);
    free(deeper);
    free(closed);
    free(overclosed);
    free(longest);
    free(longer);
    free(turned);
    free(odd);
}

/* Totals: values that count and such that don't, both signs, and the most that there may be. */
static void totals(void)
{
    static const char *const none[] = { "", "-", ".5", "5.", "1.", "+1", "1e3", "0x1", "1 2", "123456789", "1.1234567", "--1", "1,5", "000000001" };
    char *most = many("", "A: 99999999\n\n", RECFILE_MAX_FILE / 13, ""), *many_values = many("", "A: 1\n", RECFILE_MAX_FIELDS, "");
    char file[64];
    size_t i;

    added("", "", "A", RECFILE_ACCEPTED, 0, 0, 0);
    added(book, "Scan", "Id", RECFILE_ACCEPTED, 1, 100, 1000000);
    added(book, "Scan", "Nothing", RECFILE_ACCEPTED, 0, 0, 0);
    added(book, "Scan", "", RECFILE_ACCEPTED, 0, 0, 0);
    added(book, "", "Id", RECFILE_ACCEPTED, 0, 0, 0);
    added(book, "Scans", "Id", RECFILE_REFUSED_NO_SET, 0, 0, 0);
    added(book, "Scan", "Page", RECFILE_REFUSED_UNCOUNTED, 0, 0, 0);
    added("A: 12345678.123456\n", "", "A", RECFILE_ACCEPTED, 1, 1234567812, 12345678123456);
    added("A: -12345678.123456\n", "", "A", RECFILE_ACCEPTED, 1, -1234567812, -12345678123456);
    added("A: -0\nA: -0.000001\n\nA: \t0.5 \nA: 1\\\n2\n+\n", "", "A", RECFILE_ACCEPTED, 4, 1250, 12499999);
    added("A: 0.1\nA: x\n", "", "A", RECFILE_REFUSED_UNCOUNTED, 0, 0, 0);
    for (i = 0; i < sizeof none / sizeof *none; i++) {
        sprintf(file, "A: 1\nA: %s\n", none[i]);
        added(file, "", "A", RECFILE_REFUSED_UNCOUNTED, 0, 0, 0);
    }
    added(most, "", "A", RECFILE_ACCEPTED, RECFILE_MAX_FILE / 13, 9999999900LL * (RECFILE_MAX_FILE / 13), 99999999000000LL * (RECFILE_MAX_FILE / 13));
    added(many_values, "", "A", RECFILE_ACCEPTED, RECFILE_MAX_FIELDS, 100 * RECFILE_MAX_FIELDS, 1000000 * RECFILE_MAX_FIELDS);
    added("A: 0.005\n", "", "A", RECFILE_ACCEPTED, 1, 1, 5000);
    added("A: -0.005\n", "", "A", RECFILE_ACCEPTED, 1, -1, -5000);
    added("A: 0.004999\n", "", "A", RECFILE_ACCEPTED, 1, 0, 4999);
    added("A: -0.004999\n", "", "A", RECFILE_ACCEPTED, 1, 0, -4999);
    added("A: 0.015\n", "", "A", RECFILE_ACCEPTED, 1, 2, 15000);
    added("A: 0.014999\n", "", "A", RECFILE_ACCEPTED, 1, 1, 14999);
    added("A: 0.002\nA: 0.003\n", "", "A", RECFILE_ACCEPTED, 2, 1, 5000);
    free(most);
    free(many_values);
}

/* Drafts of records: what is missing, and what is refused. */
static void drafts(void)
{
    char *words = numbered("%rec: S\n%key: K\n%mandatory:", " N@", RECFILE_MAX_WORDS), *list = many(words, "\n", 1, "");
    size_t i;

    insert("Scan", "Note", "");
    drafted(book, request, end, RECFILE_ACCEPTED, 2);
    text(RECFILE_TAG_NAME, "Page");
    text(RECFILE_TAG_VALUE, "p");
    drafted(book, request, end, RECFILE_ACCEPTED, 1);
    text(RECFILE_TAG_NAME, "Id");
    text(RECFILE_TAG_VALUE, "1");
    drafted(book, request, end, RECFILE_ACCEPTED, 0);
    drafted("%rec: Scan\n%key: Id\n%auto: Id\n%mandatory: Id Page Page\n", request, end, RECFILE_ACCEPTED, 0);
    insert("Scan", "%\\", "\\");
    drafted(book, request, end, RECFILE_ACCEPTED, 2);
    drafted("%rec: Scan\n%key: Id\n%auto: Id\n%mandatory: Id Page Page\n", request, end, RECFILE_ACCEPTED, 1);
    insert("", "A", "");
    drafted(book, request, end, RECFILE_ACCEPTED, 0);
    drafted("", request, end, RECFILE_ACCEPTED, 0);

    insert("S", "A", "");
    drafted(list, request, end, RECFILE_ACCEPTED, RECFILE_MAX_WORDS + 1);
    begin(RECFILE_KIND_INSERT, "S");
    for (i = 0; i < RECFILE_MAX_FIELDS + 1; i++) {
        text(RECFILE_TAG_NAME, i % 2 == 0 ? "N63" : "K");
        text(RECFILE_TAG_VALUE, "");
    }
    drafted(list, request, end, RECFILE_ACCEPTED, RECFILE_MAX_WORDS - 1);

    insert("Scans", "A", "");
    drafted(book, request, end, RECFILE_REFUSED_NO_SET, 0);
    drafted(book, request, end - 1, RECFILE_REFUSED_FORM, 0);
    drafted(book, NULL, 0, RECFILE_REFUSED_FORM, 0);
    begin(RECFILE_KIND_INSERT, "Scan");
    drafted(book, request, end, RECFILE_REFUSED_FORM, 0);
    delete("Scans", 0);
    drafted(book, request, end, RECFILE_REFUSED_FORM, 0);
    free(words);
    free(list);
}

static void edits(void)
{
    static const char rules[] = "%rec: S\n%prohibit: P\n%allowed: A B C P\n%mandatory: A\n%unique: A\n%type: B int\n%key: C\n%size: 2\n\nA: 1\nB: 2\nC: 3\n\nA: 1\nC: 4\n";
    char *full = many("", "A: 1\n", RECFILE_MAX_FIELDS, ""), *almost = many("", "A: 1\n", RECFILE_MAX_FIELDS - 1, "");
    size_t len = sizeof book - 1;

    /* the six kinds */
    insert("Scan", "Id", "2");
    text(RECFILE_TAG_NAME, "Page");
    text(RECFILE_TAG_VALUE, "p");
    accepted(book, len + 15, "%rec: Scan\n%key: Id\n%type: Id int\n%mandatory: Page\n\nId: 1\nPage: front\n# folded\nPage: back\n\nId: 2\nPage: p\n");
    accepted(book, len + 99, "%rec: Scan\n%key: Id\n%type: Id int\n%mandatory: Page\n\nId: 1\nPage: front\n# folded\nPage: back\n\nId: 2\nPage: p\n");
    refused(book, len + 14, RECFILE_REFUSED_LARGE);
    refused(book, len, RECFILE_REFUSED_LARGE);
    delete("Scan", 0);
    accepted(book, len, "%rec: Scan\n%key: Id\n%type: Id int\n%mandatory: Page\n\n# folded\n");
    add("Scan", 0, "Note", "x");
    accepted(book, len + 8, "%rec: Scan\n%key: Id\n%type: Id int\n%mandatory: Page\n\nId: 1\nPage: front\n# folded\nPage: back\nNote: x\n");
    set("Scan", 0, "Page", 1, "a\nb");
    accepted(book, len + 2, "%rec: Scan\n%key: Id\n%type: Id int\n%mandatory: Page\n\nId: 1\nPage: front\n# folded\nPage: a\n+ b\n");
    drop("Scan", 0, "Page", 0);
    accepted(book, len, "%rec: Scan\n%key: Id\n%type: Id int\n%mandatory: Page\n\nId: 1\n# folded\nPage: back\n");
    rename_field("Scan", 0, "Page", 1, "Side");
    accepted(book, len, "%rec: Scan\n%key: Id\n%type: Id int\n%mandatory: Page\n\nId: 1\nPage: front\n# folded\nSide: back\n");
    insert("", "A", "");
    accepted("", 5, "A: \n");
    refused("", 0, RECFILE_REFUSED_LARGE);

    /* what is asked for */
    edited(book, len, NULL, 0, NULL, RECFILE_REFUSED_FORM, book);
    edited("", 0, NULL, 0, NULL, RECFILE_REFUSED_FORM, "");
    begin(9, "Scan");
    refused(book, len, RECFILE_REFUSED_FORM);
    delete("X", 0);
    refused(book, len, RECFILE_REFUSED_NO_SET);
    delete("Scan", 1);
    refused(book, len, RECFILE_REFUSED_NO_RECORD);
    delete("", 0);
    refused("", 0, RECFILE_REFUSED_NO_RECORD);
    drop("Scan", 0, "Page", 2);
    refused(book, len, RECFILE_REFUSED_NO_FIELD);
    drop("", 0, "A", 0);
    refused("A: 1\n", 5, RECFILE_REFUSED_EMPTIED);
    set("Scan", 0, "Page", 0, "x\\");
    refused(book, len + 9, RECFILE_REFUSED_ILLEGAL);

    /* the result */
    add("", 0, "A", "1");
    accepted(almost, RECFILE_MAX_FILE, full);
    refused(full, RECFILE_MAX_FILE, RECFILE_REFUSED_RESULT_LIMIT);
    add("S", 1, "P", "5");
    refused(rules, sizeof rules + 99, RECFILE_REFUSED_RESULT_PROHIBITED);
    add("S", 1, "D", "5");
    refused(rules, sizeof rules + 99, RECFILE_REFUSED_RESULT_NOT_ALLOWED);
    drop("S", 0, "A", 0);
    refused(rules, sizeof rules + 99, RECFILE_REFUSED_RESULT_MISSING);
    add("S", 0, "A", "5");
    refused(rules, sizeof rules + 99, RECFILE_REFUSED_RESULT_REPEATED);
    set("S", 0, "B", 0, "x");
    refused(rules, sizeof rules + 99, RECFILE_REFUSED_RESULT_VALUE);
    set("S", 1, "C", 0, "3");
    refused(rules, sizeof rules + 99, RECFILE_REFUSED_RESULT_KEY);
    delete("S", 1);
    refused(rules, sizeof rules + 99, RECFILE_REFUSED_RESULT_SIZE);
    add("T", 0, "A", "1");
    refused("%rec: T\n%singular: A\n\nA: 1\n", 99, RECFILE_REFUSED_RESULT_SINGULAR);
    asked = "the result's questions";
    expect("are raised", RECFILE_REFUSED_RESULT_SIZE - RECFILE_REFUSED_SIZE, RECFILE_REFUSED_RESULT);
    free(full);
    free(almost);
}

/* A run that is refused changes nothing, whatever the file and the length that is told of it. */
static void refused_run(size_t room)
{
    static const char *const files[] = { "", book, "Id: 1", "Page front\n" };
    size_t i;

    for (i = 0; i < sizeof files / sizeof *files; i++) {
        size_t len = strlen(files[i]), used[] = { len, len + 9, len + 10, SIZE_MAX }, k;
        for (k = 0; k < sizeof used / sizeof *used; k++)
            sent(files[i], (struct sending){ 9, used[k], room, 0 }, run, run_end, RECFILE_REFUSED_RUN, NULL, 0, files[i], used[k]);
    }
}

/* A run of `count` requests, each answered with this number, and nothing is changed. */
static void each_refused(const char *file, size_t used, size_t count, uint32_t number)
{
    uint32_t numbers[RECFILE_MAX_REQUESTS];
    size_t i;

    for (i = 0; i < count; i++)
        numbers[i] = number;
    for (i = 0; i < 3; i++)
        sent(file, (struct sending){ 9, used, count + i, 0 }, run, run_end, RECFILE_ACCEPTED, numbers, count, file, used);
}

static void runs(void)
{
    static const uint32_t mixed[] = { RECFILE_ACCEPTED, RECFILE_REFUSED_RESULT_KEY, RECFILE_REFUSED_FORM, RECFILE_REFUSED_NO_RECORD, RECFILE_ACCEPTED, RECFILE_ACCEPTED };
    static const uint32_t filling[] = { RECFILE_ACCEPTED, RECFILE_REFUSED_LARGE, RECFILE_ACCEPTED };
    static const char changed[] = "%rec: Scan\n%key: Id\n%type: Id int\n%mandatory: Page\n\n# folded\n\nId: 1\nPage: p\n";
    static const char refilled[] = "%rec: Scan\n%key: Id\n%type: Id int\n%mandatory: Page\n\nId: 3\nPage: p\n\n# folded\n";
    static const uint8_t cut_off[] = { 0, 2, 0 };
    uint32_t accepted_all[RECFILE_MAX_REQUESTS] = { RECFILE_ACCEPTED };
    char *all = numbered("A: 0\n", "\nA: @\n", RECFILE_MAX_REQUESTS), number_of[8];
    size_t len = sizeof book - 1, i;

    /* no request: the length that was told comes back, whatever the file */
    for (i = 0; i < 3; i++) {
        sent("", (struct sending){ 0, 0, i, 0 }, NULL, 0, RECFILE_ACCEPTED, NULL, 0, "", 0);
        sent(book, (struct sending){ 0, len, i, 0 }, NULL, 0, RECFILE_ACCEPTED, NULL, 0, book, len);
        sent("Id: 1", (struct sending){ 3, 5, i, 0 }, NULL, 0, RECFILE_ACCEPTED, NULL, 0, "Id: 1", 5);
        sent("Id: 1", (struct sending){ 3, SIZE_MAX, i, 0 }, NULL, 0, RECFILE_ACCEPTED, NULL, 0, "Id: 1", SIZE_MAX);
    }

    /* accepted and refused ones, each on what the one before left */
    run_end = 0;
    insert("Scan", "Id", "2");
    text(RECFILE_TAG_NAME, "Page");
    text(RECFILE_TAG_VALUE, "p");
    next();
    next();
    end = 0;
    next();
    delete("Scan", 2);
    next();
    delete("Scan", 0);
    next();
    set("Scan", 0, "Id", 0, "1");
    next();
    for (i = 0; i < 3; i++)
        sent(book, (struct sending){ 30, len, 6 + i, len + 15 }, run, run_end, RECFILE_ACCEPTED, mixed, 6, changed, sizeof changed - 1);
    refused_run(5);
    refused_run(0);
    run_end--;
    refused_run(9);
    run_end += 2;
    refused_run(9);

    /* a file that fails: each request has the file's number */
    run_end--;
    each_refused("Page front\n", 11, 6, RECFILE_REFUSED_LINE);
    each_refused("Page front\n", 20, 6, RECFILE_REFUSED_BYTE);
    each_refused(book, len + 10, 6, RECFILE_REFUSED_LENGTH);
    each_refused("", SIZE_MAX, 6, RECFILE_REFUSED_LENGTH);

    /* what an accepted one frees is there for the next */
    run_end = 0;
    delete("Scan", 0);
    next();
    insert("Scan", "Id", "12345678");
    text(RECFILE_TAG_NAME, "Page");
    text(RECFILE_TAG_VALUE, "of more bytes than a line of the book");
    next();
    insert("Scan", "Id", "3");
    text(RECFILE_TAG_NAME, "Page");
    text(RECFILE_TAG_VALUE, "p");
    next();
    sent(book, (struct sending){ 0, len, 3, len }, run, run_end, RECFILE_ACCEPTED, filling, 3, refilled, sizeof refilled - 1);

    /* lengths that are cut off or reach past the end */
    for (i = 1; i <= sizeof cut_off; i++) {
        memcpy(run, cut_off, i);
        run_end = i;
        refused_run(9);
    }
    memset(run, 0xFF, 2);
    run_end = RECFILE_MAX_CONTENTS + 1;
    refused_run(9);
    run_end = RECFILE_MAX_CONTENTS + 2;
    each_refused("", 0, 1, RECFILE_REFUSED_FORM);

    /* as many requests as a run may have, and one more */
    memset(run, 0, sizeof run);
    run_end = 2 * RECFILE_MAX_REQUESTS;
    each_refused(book, len, RECFILE_MAX_REQUESTS, RECFILE_REFUSED_FORM);
    refused_run(RECFILE_MAX_REQUESTS - 1);
    run_end += 2;
    refused_run(RECFILE_MAX_REQUESTS);
    refused_run(RECFILE_MAX_REQUESTS + 1);
    refused_run(RECFILE_MAX_REQUESTS + 9);
    run_end = 0;
    for (i = 0; i < RECFILE_MAX_REQUESTS; i++) {
        sprintf(number_of, "%u", (unsigned)i);
        insert("", "A", number_of);
        next();
    }
    for (i = 0; i < 3; i++)
        sent("A: 0\n", (struct sending){ strlen(all) - 5 + i, 5, RECFILE_MAX_REQUESTS + i, 0 }, run, run_end, RECFILE_ACCEPTED, accepted_all, RECFILE_MAX_REQUESTS, all, strlen(all));

    /* a run of more bytes than a file may have */
    run_end = 0;
    begin(RECFILE_KIND_INSERT, "");
    text(RECFILE_TAG_NAME, "A");
    bytes(RECFILE_TAG_VALUE, run, RECFILE_MAX_CONTENTS - end - 3);
    next();
    next();
    asked = "a long run";
    expect("bytes", run_end, 2 * (RECFILE_MAX_CONTENTS + 2));
    each_refused("", 0, 2, RECFILE_REFUSED_ILLEGAL);
    free(all);
}

/* A list of any length below that of the sets is too short: no byte and no entry is changed, whatever the request. */
static void short_lists(const char *file, size_t sets)
{
    struct list list = { 0, 0, NULL };
    size_t len = strlen(file);

    for (list.len = 0; list.len < sets; list.len++) {
        filled(file, list, RECFILE_REFUSED_LIST);
        edited(file, len + 99, request, end, &list, RECFILE_REFUSED_LIST, file);
        edited(file, len, NULL, 0, &list, RECFILE_REFUSED_LIST, file);
    }
}

/* The file stays, and the list is right, whatever it held. */
static void refused_listed(const char *file, size_t room, size_t sets, const recfile_entry *holds, uint32_t why)
{
    struct list list = { sets, sets, holds };

    for (; list.len < sets + 3; list.len++)
        edited(file, room, request, end, &list, why, file);
}

static void accepted_listed(const char *file, const char *after, size_t sets, const recfile_entry *holds)
{
    struct list list = { sets, sets, holds };

    for (; list.len < sets + 3; list.len++)
        edited(file, strlen(file) + 99, request, end, &list, RECFILE_ACCEPTED, after);
}

static void directories(void)
{
    /* comments before and behind, blank lines, and a blank line that a backslash took on */
    static const char shop[] = "A: 0\n# end\n\n# alone\n\n# till\n%rec: Till\n\n\n%rec: Scan\n%key: Id\n\nId: 1\\\n\n# folded\n\n# last\n";
    static const recfile_entry none[] = { { 0, 0, 0 } }, of_book[] = { { 0, 0, 0 }, { 0, 1, 90 } }, of_shop[] = { { 0, 1, 11 }, { 21, 0, 39 }, { 41, 1, 79 } };
    static const recfile_entry scanned[] = { { 0, 0, 0 }, { 0, 2, 105 } }, emptied[] = { { 0, 0, 0 }, { 0, 0, 51 } };
    static const recfile_entry undone[] = { { 0, 0, 0 }, { 16, 0, 34 }, { 36, 1, 74 } }, sold[] = { { 0, 1, 11 }, { 21, 1, 45 }, { 47, 1, 85 } };
    char *all = numbered("", "%rec: S@\n\n", RECFILE_MAX_DESCRIPTORS);
    recfile_entry most[RECFILE_MAX_DESCRIPTORS + 1] = { { 0, 0, 0 } };
    struct list list = { 0, 0, NULL };
    size_t i, place;

    for (i = 1, place = 0; i <= RECFILE_MAX_DESCRIPTORS; i++) {
        most[i].place = place;
        most[i].end = place + strlen("%rec: S0\n") + (i > 10);
        place = most[i].end + 1;
    }
    delete("Scan", 7);
    short_lists("", 1);
    short_lists(book, 2);
    short_lists(shop, 3);
    list.len = RECFILE_MAX_DESCRIPTORS;
    filled(all, list, RECFILE_REFUSED_LIST);
    edited(all, strlen(all), NULL, 0, &list, RECFILE_REFUSED_LIST, all);
    for (i = 0; i < 3; i++) {
        filled("", (struct list){ 1 + i, 1, none }, RECFILE_ACCEPTED);
        filled("# c\n\n", (struct list){ 1 + i, 1, none }, RECFILE_ACCEPTED);
        filled(book, (struct list){ 2 + i, 2, of_book }, RECFILE_ACCEPTED);
        filled(shop, (struct list){ 3 + i, 3, of_shop }, RECFILE_ACCEPTED);
        list = (struct list){ RECFILE_MAX_DESCRIPTORS + 1 + i, RECFILE_MAX_DESCRIPTORS + 1, most };
        filled(all, list, RECFILE_ACCEPTED);
        edited(all, strlen(all), NULL, 0, &list, RECFILE_REFUSED_FORM, all);
    }

    refused_listed(book, sizeof book - 1, 2, of_book, RECFILE_REFUSED_NO_RECORD);
    delete("X", 0);
    refused_listed(shop, sizeof shop - 1, 3, of_shop, RECFILE_REFUSED_NO_SET);
    delete("", 0);
    refused_listed("", 0, 1, none, RECFILE_REFUSED_NO_RECORD);
    accepted_listed(shop, "# end\n\n# alone\n\n# till\n%rec: Till\n\n\n%rec: Scan\n%key: Id\n\nId: 1\\\n\n# folded\n\n# last\n", 3, undone);
    insert("Till", "A", "1");
    accepted_listed(shop, "A: 0\n# end\n\n# alone\n\n# till\n%rec: Till\n\nA: 1\n\n\n%rec: Scan\n%key: Id\n\nId: 1\\\n\n# folded\n\n# last\n", 3, sold);
    refused_listed(shop, sizeof shop - 1, 3, of_shop, RECFILE_REFUSED_LARGE);
    insert("Scan", "Id", "1");
    refused_listed(shop, sizeof shop + 99, 3, of_shop, RECFILE_REFUSED_RESULT_KEY);
    text(RECFILE_TAG_NAME, "Page");
    refused_listed(book, sizeof book + 99, 2, of_book, RECFILE_REFUSED_FORM);
    insert("Scan", "Id", "2");
    text(RECFILE_TAG_NAME, "Page");
    text(RECFILE_TAG_VALUE, "p");
    accepted_listed(book, "%rec: Scan\n%key: Id\n%type: Id int\n%mandatory: Page\n\nId: 1\nPage: front\n# folded\nPage: back\n\nId: 2\nPage: p\n", 2, scanned);
    delete("Scan", 0);
    accepted_listed(book, "%rec: Scan\n%key: Id\n%type: Id int\n%mandatory: Page\n\n# folded\n", 2, emptied);

    counted_at((struct list){ 0, 0, NULL }, 0, RECFILE_REFUSED_NO_SET, 0);
    counted_at((struct list){ 0, 0, NULL }, SIZE_MAX, RECFILE_REFUSED_NO_SET, 0);
    for (i = 0; i < 3; i++)
        counted_at((struct list){ 3, 3, of_shop }, i, RECFILE_ACCEPTED, of_shop[i].count);
    counted_at((struct list){ 3, 3, of_shop }, 3, RECFILE_REFUSED_NO_SET, 0);
    counted_at((struct list){ 2, 2, of_shop }, 2, RECFILE_REFUSED_NO_SET, 0);
    counted_at((struct list){ 3, 3, of_shop }, SIZE_MAX, RECFILE_REFUSED_NO_SET, 0);
    counted_at((struct list){ 3, 3, of_shop }, SIZE_MAX / sizeof *of_shop + 1, RECFILE_REFUSED_NO_SET, 0);
    free(all);
}

/* Inserts that omit names of %auto lists. */
static void numbers(void)
{
    static const char tape[] = "%rec: Scan\n%key: Id\n%auto: Id\n%type: Id range 9\n\nId: 8\nPage: a\n", spent[] = "%rec: Scan\n%auto: Id\n%type: Id range 9\n\nId: 9\n";
    static const char lists[] = "A: 5\n\n%rec: S\n%auto: B A\n%auto: C B\n\nA: 0x1F\nC: x\n\n%rec: T\n%auto: A\n%prohibit: A\n";
    static const recfile_entry none[] = { { 0, 0, 0 }, { 0, 1, sizeof spent - 1 } }, one[] = { { 0, 0, 0 }, { 0, 2, sizeof tape - 1 + 15 } };
    static const uint32_t told[] = { RECFILE_ACCEPTED, RECFILE_REFUSED_NUMBERLESS, RECFILE_ACCEPTED };
    char *name = many("%rec: S\n%auto: ", "N", RECFILE_MAX_NAME, "\n"), *long_name = many("%rec: S\n%auto: ", "N", RECFILE_MAX_NAME + 1, "\n");
    char *named_after = malloc(strlen(name) + RECFILE_MAX_NAME + 16), *filled_up = many("%rec: S\n%auto: Id\n\nId: 0\n", "A: 1\n", RECFILE_MAX_FIELDS - 1, "");
    size_t len = sizeof tape - 1, i;

    if (named_after == NULL)
        exit(2);

    /* the number, and a buffer that is just long enough for it */
    insert("Scan", "Page", "p");
    accepted(tape, len + 15, "%rec: Scan\n%key: Id\n%auto: Id\n%type: Id range 9\n\nId: 8\nPage: a\n\nId: 9\nPage: p\n");
    accepted(tape, len + 99, "%rec: Scan\n%key: Id\n%auto: Id\n%type: Id range 9\n\nId: 8\nPage: a\n\nId: 9\nPage: p\n");
    refused(tape, len + 14, RECFILE_REFUSED_LARGE);
    refused(tape, len, RECFILE_REFUSED_LARGE);
    accepted_listed(tape, "%rec: Scan\n%key: Id\n%auto: Id\n%type: Id range 9\n\nId: 8\nPage: a\n\nId: 9\nPage: p\n", 2, one);
    written(request, end, 8, RECFILE_ACCEPTED, "Page: p\n", 8);

    /* none is left: behind 25, before 26, and never where the insert has the name */
    refused(spent, sizeof spent + 99, RECFILE_REFUSED_NUMBERLESS);
    refused(spent, sizeof spent - 1, RECFILE_REFUSED_NUMBERLESS);
    refused_listed(spent, sizeof spent - 1, 2, none, RECFILE_REFUSED_NUMBERLESS);
    insert("Scan", "Page", "p\\");
    refused(spent, sizeof spent + 99, RECFILE_REFUSED_ILLEGAL);
    insert("Scan", "Id", "3");
    accepted(spent, sizeof spent + 99, "%rec: Scan\n%auto: Id\n%type: Id range 9\n\nId: 9\n\nId: 3\n");
    refused(spent, sizeof spent - 1, RECFILE_REFUSED_LARGE);

    /* several names, in the order of the lists, each once */
    insert("S", "D", "d");
    accepted(lists, sizeof lists + 99, "A: 5\n\n%rec: S\n%auto: B A\n%auto: C B\n\nA: 0x1F\nC: x\n\nB: 0\nA: 32\nC: 0\nD: d\n\n%rec: T\n%auto: A\n%prohibit: A\n");
    insert("S", "A", "");
    accepted(lists, sizeof lists + 99, "A: 5\n\n%rec: S\n%auto: B A\n%auto: C B\n\nA: 0x1F\nC: x\n\nB: 0\nC: 0\nA: \n\n%rec: T\n%auto: A\n%prohibit: A\n");
    insert("", "D", "d");
    accepted(lists, sizeof lists + 99, "A: 5\n\nD: d\n\n%rec: S\n%auto: B A\n%auto: C B\n\nA: 0x1F\nC: x\n\n%rec: T\n%auto: A\n%prohibit: A\n");
    insert("T", "D", "d");
    refused(lists, sizeof lists + 99, RECFILE_REFUSED_RESULT_PROHIBITED);

    /* an added name at the limit, and as many fields as a record may have */
    insert("S", "A", "1");
    sprintf(named_after, "%s\n%.*s: 0\nA: 1\n", name, RECFILE_MAX_NAME, name + strlen("%rec: S\n%auto: "));
    accepted(name, strlen(named_after), named_after);
    refused(name, strlen(named_after) - 1, RECFILE_REFUSED_LARGE);
    refused(long_name, strlen(named_after) + 2, RECFILE_REFUSED_RESULT_LIMIT);
    refused(long_name, strlen(named_after) + 1, RECFILE_REFUSED_LARGE);
    begin(RECFILE_KIND_INSERT, "S");
    for (i = 0; i < RECFILE_MAX_FIELDS; i++) {
        if (i == RECFILE_MAX_FIELDS - 1)
            accepted("%rec: S\n%auto: Id\n", strlen(filled_up), filled_up);
        text(RECFILE_TAG_NAME, "A");
        text(RECFILE_TAG_VALUE, "1");
    }
    refused("%rec: S\n%auto: Id\n", 2 * strlen(filled_up), RECFILE_REFUSED_RESULT_LIMIT);

    /* in a run each has the number above what the one before left */
    run_end = 0;
    insert("Scan", "Page", "p");
    next();
    next();
    delete("Scan", 0);
    next();
    sent(tape, (struct sending){ 15, len, 3, len + 15 }, run, run_end, RECFILE_ACCEPTED, told, 3, "%rec: Scan\n%key: Id\n%auto: Id\n%type: Id range 9\n\n\nId: 9\nPage: p\n", len + 1);
    free(name);
    free(long_name);
    free(named_after);
    free(filled_up);
}

/* An edit without the list leaves it out of date; the next one with it, refused or not, or the next filling makes it right. */
static void out_of_date(void)
{
    size_t room = sizeof book + 99, used = sizeof book - 1, bytes = 3 * sizeof(recfile_entry);
    uint8_t *buf = lend(NULL, room);
    recfile_entry *entries = lend(NULL, bytes);
    uint32_t *told = lend(NULL, sizeof *told);

    asked = "a list out of date";
    memcpy(buf, book, used);
    expect("filled", recfile_fill(buf, room, used, entries, 3, told), 2);
    expect("one record", recfile_count_at(entries, 3, 1, told), 1);
    delete("Scan", 0);
    used = recfile_edit(buf, room, used, request, end, told);
    expect("the edit", *told, RECFILE_ACCEPTED);
    expect("still one", recfile_count_at(entries, 3, 1, told), 1);
    expect("refused", recfile_edit_listed(buf, room, used, request, end, entries, 3, told), used);
    expect("its number", *told, RECFILE_REFUSED_NO_RECORD);
    expect("none", recfile_count_at(entries, 3, 1, told), 0);
    insert("", "A", "1");
    used = recfile_edit(buf, room, used, request, end, told);
    expect("the insert", *told, RECFILE_ACCEPTED);
    expect("still none", recfile_count_at(entries, 3, 0, told), 0);
    expect("filled anew", recfile_fill(buf, room, used, entries, 3, told), 2);
    expect("one", recfile_count_at(entries, 3, 0, told), 1);
    filler("the third entry stays", (const uint8_t *)(entries + 2), sizeof *entries);
    give_back(buf, room);
    give_back(entries, bytes);
    give_back(told, sizeof *told);
}

int main(int argc, char **argv)
{
    int last = argc > 1 && strcmp(argv[1], "heap") == 0 ? HEAP : FRONT;

    for (place = HEAP; (int)place <= last; place++) {
        files();
        lookups();
        fields();
        writes();
        finds();
        totals();
        drafts();
        edits();
        runs();
        directories();
        numbers();
        out_of_date();
    }
    printf("%u answers, %u wrong\n", answers, wrong);
    return wrong != 0;
}
