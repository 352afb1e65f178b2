/* Prints the records of the set Bill, in the book on standard input, that an expression finds: `Amount > 20 && Paid = 'no'`, or the one that is given.
 *
 *   (cd crates/recfile && rt lib --cpu=x86-64) && mkdir -p target
 *   cc -O2 -Iinclude examples/c/find.c crates/recfile/out/librecfile.a -o target/find
 *   target/find "Amount > 20 && Paid = 'no'" < samples/bills.rec
 */
#include <recfile.h>
#include <stdio.h>
#include <string.h>

/* A byte more than a file may have: a longer book is refused (RECFILE_REFUSED_LENGTH), not cut. */
static uint8_t book[RECFILE_MAX_FILE + 1];

/* As many as any file has records. */
static size_t records[16384];

int main(int argc, char **argv)
{
    const char *expression = argc > 1 ? argv[1] : "Amount > 20 && Paid = 'no'";
    const uint8_t *set = (const uint8_t *)"Bill";
    size_t used = fread(book, 1, sizeof book, stdin), count, i, start, len;
    uint32_t number;

    count = recfile_find(book, sizeof book, used, set, 4, (const uint8_t *)expression, strlen(expression), records, sizeof records / sizeof *records, &number);
    if (number != RECFILE_ACCEPTED) {
        printf("find: refused, %u\n", (unsigned)number);
        return 1;
    }
    printf("%zu found\n", count);
    for (i = 0; i < count; i++) {
        len = recfile_view(book, sizeof book, used, set, 4, records[i], &start, &number);
        printf("\n");
        fwrite(book + start, 1, len, stdout);
    }
    return 0;
}
