/* Files a scan in the book on standard input, which gives it an Id, looks that up and prints the record, and then sends two requests in one call; a
 * directory of the book's sets is kept beside it.
 *
 *   (cd crates/recfile && rt lib --cpu=x86-64) && mkdir -p target
 *   cc -O2 -Iinclude examples/c/scan.c crates/recfile/out/librecfile.a -o target/scan
 *   target/scan < samples/numbered.rec
 */
#include <recfile.h>
#include <stdio.h>
#include <string.h>

/* A byte more than a file may have: of a longer book more than RECFILE_MAX_FILE bytes are read, and it is refused (RECFILE_REFUSED_LENGTH), not cut. */
static uint8_t book[RECFILE_MAX_FILE + 1];
static recfile_entry directory[RECFILE_MAX_DESCRIPTORS + 1];

/* A field of a request whose contents are text. */
static size_t text(uint8_t *request, size_t len, size_t at, uint8_t tag, const char *contents)
{
    return recfile_request_field(request, len, at, tag, (const uint8_t *)contents, strlen(contents));
}

/* An insert of a scan; its length, more than `len` where it does not fit. Without an Id, NULL, the scan gets the next one, as the book's %auto says. */
static size_t scan(uint8_t *request, size_t len, const char *id, const char *page)
{
    const uint8_t insert = RECFILE_KIND_INSERT;
    size_t at = recfile_request_field(request, len, 0, RECFILE_TAG_KIND, &insert, 1);

    at = text(request, len, at, RECFILE_TAG_SET, "Scan");
    if (id != NULL) {
        at = text(request, len, at, RECFILE_TAG_NAME, "Id");
        at = text(request, len, at, RECFILE_TAG_VALUE, id);
    }
    at = text(request, len, at, RECFILE_TAG_NAME, "Page");
    return text(request, len, at, RECFILE_TAG_VALUE, page);
}

/* Appends a request to a run at `at`, behind its length in two bytes; returns the next place. */
static size_t append(uint8_t *run, size_t at, const uint8_t *request, size_t len)
{
    run[at] = (uint8_t)(len >> 8);
    run[at + 1] = (uint8_t)len;
    memcpy(run + at + 2, request, len);
    return at + 2 + len;
}

static int refused(const char *call, uint32_t number)
{
    if (number != 0)
        printf("%s: refused, %u\n", call, (unsigned)number);
    return number != 0;
}

int main(void)
{
    const uint8_t *set = (const uint8_t *)"Scan";
    size_t used = fread(book, 1, sizeof book, stdin);
    uint8_t request[256], run[520];
    char id[64];
    uint32_t number, answers[2];
    size_t at, sets, count, start, len;

    if (refused("check", recfile_check(book, sizeof book, used)))
        return 1;

    sets = recfile_fill(book, sizeof book, used, directory, RECFILE_MAX_DESCRIPTORS + 1, &number);
    if (refused("fill", number))
        return 1;

    at = scan(request, sizeof request, NULL, "front");
    if (at > sizeof request) {
        printf("the request is too long\n");
        return 1;
    }
    used = recfile_edit_listed(book, sizeof book, used, request, at, directory, sets, &number);
    if (refused("insert", number))
        return 1;

    count = recfile_count(book, sizeof book, used, set, 4, &number);
    if (refused("count", number))
        return 1;
    printf("%zu scans, %zu bytes\n", count, used);

    /* the same count without a look at the file: the default set is at 0, Scan behind it */
    count = recfile_count_at(directory, sets, 1, &number);
    if (refused("count_at", number))
        return 1;
    printf("in the directory of %zu sets: %zu\n", sets, count);

    len = recfile_fetch(book, sizeof book, used, set, 4, count - 1, (const uint8_t *)"Id", 2, 0, (uint8_t *)id, sizeof id - 1, &number);
    if (refused("fetch", number))
        return 1;
    id[len] = '\0';
    printf("the last one's Id: %s\n", id);

    len = recfile_view(book, sizeof book, used, set, 4, count - 1, &start, &number);
    if (refused("view", number))
        return 1;
    fwrite(book + start, 1, len, stdout);

    /* two requests in one call: the same scan again, which gets the next Id, and one with the Id that is there (RECFILE_REFUSED_RESULT_KEY) */
    len = append(run, 0, request, at);
    at = scan(request, sizeof request, id, "back");
    if (at > sizeof request) {
        printf("the request is too long\n");
        return 1;
    }
    len = append(run, len, request, at);
    used = recfile_edit_run(book, sizeof book, used, run, len, answers, 2, &number);
    if (refused("edit_run", number))
        return 1;
    printf("the same scan again, and one with its Id: %u and %u, %zu bytes\n", (unsigned)answers[0], (unsigned)answers[1], used);
    return 0;
}
