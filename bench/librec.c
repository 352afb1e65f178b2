/* Times librec, the library of GNU recutils, on a file in memory: `librec FILE`. Prints nanoseconds of reading the text and checking
 * its integrity, the best of several rounds, and the number of errors found. What is torn down afterwards is not counted. */
#include <rec.h>
#include <stdio.h>
#include <stdlib.h>
#include <time.h>

#define ROOM 131072

static char text[ROOM];

static double now(void)
{
    struct timespec t;
    clock_gettime(CLOCK_MONOTONIC, &t);
    return t.tv_sec * 1e9 + t.tv_nsec;
}

/* One reading and check; the number of errors, or -1 where the text is not read. */
static int check(size_t used, double *took)
{
    char *said = NULL;
    size_t said_len = 0;
    rec_buf_t errors = rec_buf_new(&said, &said_len);
    rec_db_t db = NULL;
    double from = now();
    rec_parser_t parser = rec_parser_new_mem(text, used, "file");
    int found = rec_parse_db(parser, &db) ? rec_int_check_db(db, true, false, errors) : -1;
    *took = now() - from;
    if (db != NULL)
        rec_db_destroy(db);
    rec_parser_destroy(parser);
    rec_buf_close(errors);
    free(said);
    return found;
}

int main(int argc, char **argv)
{
    FILE *f = argc > 1 ? fopen(argv[1], "rb") : NULL;
    double least = 1e18, spent = 0;
    int found = 0;
    if (f == NULL)
        return 2;
    size_t used = fread(text, 1, sizeof text, f);
    rec_init();
    for (int round = 0; round < 3 || (round < 2000 && spent < 4e8); round++) {
        double took;
        found = check(used, &took);
        spent += took;
        if (took < least)
            least = took;
    }
    printf("%.0f %d\n", least, found);
    rec_fini();
    return 0;
}
