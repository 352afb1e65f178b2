/* Fills in a scan for the book on standard input, a field at a time, and says after each how many names are still to fill, as a screen would; then files it.
 *
 *   (cd crates/recfile && rt lib --cpu=x86-64) && mkdir -p target
 *   cc -O2 -Iinclude examples/c/draft.c crates/recfile/out/librecfile.a -o target/draft
 *   target/draft < samples/receipts.rec
 */
#include <recfile.h>
#include <stdio.h>
#include <string.h>

/* A byte more than a file may have: a longer book is refused (RECFILE_REFUSED_LENGTH), not cut. */
static uint8_t book[RECFILE_MAX_FILE + 1];

static size_t text(uint8_t *request, size_t len, size_t at, uint8_t tag, const char *contents)
{
    return recfile_request_field(request, len, at, tag, (const uint8_t *)contents, strlen(contents));
}

int main(void)
{
    static const char *const fields[][2] = { { "Note", "torn" }, { "Page", "front" }, { "Page", "back" }, { "Id", "2" } };
    const uint8_t insert = RECFILE_KIND_INSERT;
    size_t used = fread(book, 1, sizeof book, stdin), at, i, missing;
    uint8_t request[256];
    uint32_t number;

    at = recfile_request_field(request, sizeof request, 0, RECFILE_TAG_KIND, &insert, 1);
    at = text(request, sizeof request, at, RECFILE_TAG_SET, "Scan");
    for (i = 0; i < sizeof fields / sizeof *fields; i++) {
        at = text(request, sizeof request, at, RECFILE_TAG_NAME, fields[i][0]);
        at = text(request, sizeof request, at, RECFILE_TAG_VALUE, fields[i][1]);
        if (at > sizeof request) {
            printf("the request is too long\n");
            return 1;
        }
        missing = recfile_to_fill(book, sizeof book, used, request, at, &number);
        if (number != RECFILE_ACCEPTED) {
            printf("to_fill: refused, %u\n", (unsigned)number);
            return 1;
        }
        printf("%s: %zu to fill\n", fields[i][0], missing);
    }
    used = recfile_edit(book, sizeof book, used, request, at, &number);
    if (number != RECFILE_ACCEPTED) {
        printf("insert: refused, %u\n", (unsigned)number);
        return 1;
    }
    printf("filed, %zu bytes\n", used);
    return 0;
}
