/* Makes the calls that standard input asks for on one file and one directory, and prints what each answers: for tests/directory/run.py.
 *
 * A number is 8 bytes, low byte first. A line of input is a byte that says what is asked, and what it needs:
 *
 *   s   room, used, length of the list; as many bytes as the room has; the list's entries: a new file and a new list
 *   f   fill
 *   e   length, request: an edit without the list
 *   l   length, request: an edit with it
 *   r   length, length of the list of answers, run, answers: a run of requests
 *   c   position: the count there
 *
 * A call's line of output is its number, what it returned, a digest of the buffer, every entry of the list and, of a run, every answer. Buffer,
 * lists, request and run have exactly their size, on the heap; where that is 0 they are NULL. An answer is 4 bytes, low byte first.
 */
#include <recfile.h>
#include <stdio.h>
#include <stdlib.h>

static uint8_t *buf;
static recfile_entry *entries;
static size_t room, used, count;

static void take(void *into, size_t len)
{
    if (len > 0 && fread(into, 1, len, stdin) != len)
        exit(2);
}

static size_t taken(void)
{
    size_t n;

    take(&n, sizeof n);
    return n;
}

/* Memory of exactly so many bytes with what comes next of the input. */
static void *lent(size_t len)
{
    void *at = len > 0 ? malloc(len) : NULL;

    if (len > 0 && at == NULL)
        exit(2);
    take(at, len);
    return at;
}

static void start(void)
{
    free(buf);
    free(entries);
    room = taken();
    used = taken();
    count = taken();
    buf = lent(room);
    entries = lent(count * sizeof *entries);
}

static unsigned long digest(void)
{
    unsigned long a = 1, b = 0;
    size_t i;

    for (i = 0; i < room; i++) {
        a = (a + buf[i]) % 65521;
        b = (b + a) % 65521;
    }
    return b << 16 | a;
}

static void show(uint32_t number, size_t value)
{
    size_t i;

    printf("%u %zu %lu", (unsigned)number, value, digest());
    for (i = 0; i < count; i++)
        printf(" %zu,%zu,%zu", entries[i].place, entries[i].count, entries[i].end);
}

static void tell(uint32_t number, size_t value)
{
    show(number, value);
    printf("\n");
}

/* An edit, with the list or without it; the file's length is what it returned. */
static void edit(int listed)
{
    size_t len = taken();
    uint8_t *request = lent(len);
    uint32_t number = 77;

    used = listed ? recfile_edit_listed(buf, room, used, request, len, entries, count, &number)
                  : recfile_edit(buf, room, used, request, len, &number);
    free(request);
    tell(number, used);
}

static void edit_run(void)
{
    size_t len = taken(), answers_len = taken(), i;
    uint8_t *run = lent(len);
    uint32_t *answers = lent(answers_len * sizeof *answers), number = 77;

    used = recfile_edit_run(buf, room, used, run, len, answers, answers_len, &number);
    show(number, used);
    for (i = 0; i < answers_len; i++)
        printf(" %u", (unsigned)answers[i]);
    printf("\n");
    free(run);
    free(answers);
}

int main(void)
{
    int what;
    size_t value;

    while ((what = getchar()) != EOF) {
        uint32_t number = 77;
        switch (what) {
        case 's':
            start();
            break;
        case 'f':
            value = recfile_fill(buf, room, used, entries, count, &number);
            tell(number, value);
            break;
        case 'e':
        case 'l':
            edit(what == 'l');
            break;
        case 'r':
            edit_run();
            break;
        case 'c':
            value = recfile_count_at(entries, count, taken(), &number);
            tell(number, value);
            break;
        default:
            return 2;
        }
    }
    free(buf);
    free(entries);
    return 0;
}
