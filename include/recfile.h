/* Recfiles on a card: check, look up, list, write and edit a file that lies in a buffer.
 *
 * The file is the first `used` bytes of a buffer of `len` bytes. A set is named by its %rec; the default set, of the records
 * before any descriptor, has the empty name. Records and the occurrences of a name in a record are counted from 0. Descriptors
 * have no record number. docs/FORMAT.md says what a file and a request are.
 *
 * Every call returns on every input; none needs another to be made first. A call that is refused changes no byte of any buffer,
 * and gives the number of the first question that says no (enum recfile_refusal; recfile_request_field gives none). Nor does it
 * change an entry of a list, but for recfile_edit_listed, which says what it does.
 *
 * What the caller sees to:
 *
 * - A buffer is a pointer and a length: so many bytes, all readable, of `buf` in recfile_edit, recfile_edit_run and
 *   recfile_edit_listed, of `out` and of the `request` of recfile_request_field also writable. They need no alignment. A length is
 *   at most PTRDIFF_MAX, as that of any object is.
 * - A list is a pointer and a number of entries, aligned and readable, in recfile_find, recfile_fill, recfile_edit_listed and
 *   recfile_edit_run also writable; it has at most PTRDIFF_MAX bytes.
 * - A pointer to bytes or to entries may be NULL where its length is 0. `number`, `start`, `hundredths` and `millionths` are
 *   never NULL: they point to a uint32_t, a size_t and an int64_t each, aligned, writable and readable.
 * - What a call writes overlaps nothing else that it is given: an `out` that lies over `buf` overwrites the file.
 * - The stack has room. A call takes at most 160 KiB of it, as measured by bench/run.py.
 *
 * What the caller can rely on: no call allocates, keeps anything between calls, or reads or writes outside the buffers it is
 * given and its own stack. So calls may run at once, in threads or one interrupting another, as long as none of them writes what
 * another is given.
 *
 * The archive needs memcpy and memset of what it is linked with, and nothing else. It is for x86-64 machines, wherever
 * `rt lib --cpu=x86-64` in crates/recfile makes it: ELF, System V calling convention, position independent, no instruction beyond the first
 * x86-64's (SSE2 is one of those). A size_t has 64 bits there; where it has not, this header does not compile.
 */
#ifndef RECFILE_H
#define RECFILE_H

#include <stddef.h>
#include <stdint.h>

/* The version of this header. An archive made of the same sources belongs to it. */
#define RECFILE_VERSION_MAJOR 1
#define RECFILE_VERSION_MINOR 8
#define RECFILE_VERSION_PATCH 0
#define RECFILE_VERSION "1.8.0"

#ifdef __cplusplus
extern "C" {
#endif

/* An array of -1 elements, an error, where the archive cannot be called. */
typedef char recfile_needs_size_t_of_64_bits[sizeof(size_t) == 8 ? 1 : -1];

/* Why a call is refused. */
enum recfile_refusal {
    RECFILE_ACCEPTED = 0,

    /* the questions of a file */
    RECFILE_REFUSED_LENGTH = 1,       /* the used length is more than the buffer's or than RECFILE_MAX_FILE */
    RECFILE_REFUSED_BYTE = 2,         /* a byte is not allowed (allowed: 9, 10, 32 to 126, 128 to 255), or the last is no newline */
    RECFILE_REFUSED_LINE = 3,         /* a line is no blank line, comment, field or continuation */
    RECFILE_REFUSED_LIMIT = 4,        /* a limit below is passed */
    RECFILE_REFUSED_REC = 5,          /* a record with a % name has no %rec, or several */
    RECFILE_REFUSED_DESCRIPTOR = 6,   /* a descriptor is not well formed, or two sets have one name */
    RECFILE_REFUSED_TYPE = 7,         /* a %typedef or %type is not well formed, a type is missing or defined in a loop, or a name
                                         of an %auto list has a type that is neither int nor range */
    RECFILE_REFUSED_PROHIBITED = 8,   /* a prohibited name */
    RECFILE_REFUSED_NOT_ALLOWED = 9,  /* a name that is not allowed */
    RECFILE_REFUSED_MISSING = 10,     /* a mandatory name or the key is missing */
    RECFILE_REFUSED_REPEATED = 11,    /* a unique name or the key is repeated in a record */
    RECFILE_REFUSED_VALUE = 12,       /* a value does not meet its type */
    RECFILE_REFUSED_KEY = 13,         /* two records of a set have the same key */
    RECFILE_REFUSED_SIZE = 14,        /* a set's size is not met */
    RECFILE_REFUSED_SINGULAR = 30,    /* two fields of a singular name have the same value in a set; asked behind 14 */

    /* what is asked for */
    RECFILE_REFUSED_FORM = 20,        /* the request is malformed */
    RECFILE_REFUSED_NO_SET = 21,      /* no such set */
    RECFILE_REFUSED_NO_RECORD = 22,   /* no such record */
    RECFILE_REFUSED_NO_FIELD = 23,    /* no such name or occurrence */
    RECFILE_REFUSED_EMPTIED = 24,     /* a record would be left without a field */
    RECFILE_REFUSED_ILLEGAL = 25,     /* a new name or value is not legal */
    RECFILE_REFUSED_NUMBERLESS = 31,  /* no number is left for a name of an %auto list that an insert omits; asked between 25 and 26 */
    RECFILE_REFUSED_LARGE = 26,       /* the result is longer than the buffer or than RECFILE_MAX_FILE */
    RECFILE_REFUSED_ROOM = 27,        /* the text is longer than the buffer it is to be put into */
    RECFILE_REFUSED_LIST = 28,        /* the list has fewer entries than the file has sets */
    RECFILE_REFUSED_RUN = 29,         /* the lengths of a run's requests do not add up to it, there are more than
                                         RECFILE_MAX_REQUESTS of them, or its list of answers is too short */

    RECFILE_REFUSED_UNCOUNTED = 32,   /* a value that is to be added up does not count */
    RECFILE_REFUSED_EXPRESSION = 33,  /* the expression is not of the form of one */
    RECFILE_REFUSED_NUMBERS = 34,     /* the list is too short for the numbers of all records that are found */

    /* the questions of the result, raised by RECFILE_REFUSED_RESULT */
    RECFILE_REFUSED_RESULT = 100,
    RECFILE_REFUSED_RESULT_LIMIT = 104,   /* more than RECFILE_MAX_FIELDS fields in a record, or an added %auto name that is longer
                                             than RECFILE_MAX_NAME */
    RECFILE_REFUSED_RESULT_PROHIBITED = 108,
    RECFILE_REFUSED_RESULT_NOT_ALLOWED = 109,
    RECFILE_REFUSED_RESULT_MISSING = 110,
    RECFILE_REFUSED_RESULT_REPEATED = 111,
    RECFILE_REFUSED_RESULT_VALUE = 112,
    RECFILE_REFUSED_RESULT_KEY = 113,
    RECFILE_REFUSED_RESULT_SIZE = 114,
    RECFILE_REFUSED_RESULT_SINGULAR = 130
};

/* The most that there may be, in bytes or in number. */
enum recfile_limit {
    RECFILE_MAX_FILE = 65536,         /* bytes of a file, of a request, of a record's text */
    RECFILE_MAX_NAME = 64,            /* bytes of a field's own name; one that a descriptor lists may be longer, a set's too */
    RECFILE_MAX_VALUE = 4096,         /* bytes of a field's value, and so of a set's name, which is one word of its %rec */
    RECFILE_MAX_FIELDS = 256,         /* fields of a record */
    RECFILE_MAX_DESCRIPTORS = 64,     /* descriptors of a file */
    RECFILE_MAX_TYPEDEFS = 32,        /* %typedef fields of a descriptor */
    RECFILE_MAX_TYPES = 32,           /* %type fields of a descriptor */
    RECFILE_MAX_WORDS = 64,           /* words in all %mandatory fields of a descriptor; %prohibit, %allowed, %unique, %singular
                                         and %auto likewise */
    RECFILE_MAX_CONTENTS = 65535,     /* bytes of the contents of a request's field */
    RECFILE_MAX_REQUESTS = 64,        /* requests of a run */
    RECFILE_MAX_EXPRESSION = 256,     /* bytes of an expression */
    RECFILE_MAX_OPEN = 16             /* parentheses that are open at one place of an expression */
};

/* A request is tagged fields: a tag (1 byte), a length (2 bytes, high byte first), the contents. The first is the kind, and each
 * kind has its tags in one order. Two bytes are enough for any record's number: a file has at most 16,384 records, since the
 * shortest and the blank line behind it have 4 bytes. */
enum recfile_tag {
    RECFILE_TAG_KIND = 1,             /* 1 byte */
    RECFILE_TAG_SET = 2,              /* the set's name, empty for the default set */
    RECFILE_TAG_RECORD = 3,           /* 2 bytes, high byte first */
    RECFILE_TAG_NAME = 4,
    RECFILE_TAG_OCCURRENCE = 5,       /* 2 bytes, high byte first */
    RECFILE_TAG_VALUE = 6,
    RECFILE_TAG_NEW_NAME = 7
};

enum recfile_kind {
    RECFILE_KIND_INSERT = 1,          /* KIND SET, then NAME VALUE once or more: a new last record of the set */
    RECFILE_KIND_DELETE = 2,          /* KIND SET RECORD */
    RECFILE_KIND_ADD = 3,             /* KIND SET RECORD NAME VALUE: a new last field of the record */
    RECFILE_KIND_SET = 4,             /* KIND SET RECORD NAME OCCURRENCE VALUE: another value */
    RECFILE_KIND_DROP = 5,            /* KIND SET RECORD NAME OCCURRENCE */
    RECFILE_KIND_RENAME = 6           /* KIND SET RECORD NAME OCCURRENCE NEW_NAME */
};

/* The number of the first question, 1 to 14 and 30, that says no of the file; 0 if it passes. */
uint32_t recfile_check(const uint8_t *buf, size_t len, size_t used);

/* The number of records of a set. Refused (1 to 14, 30, 21): returns 0. Here and below `*number` is the refusal's, 0 if accepted. */
size_t recfile_count(const uint8_t *buf, size_t len, size_t used,
                     const uint8_t *set, size_t set_len, uint32_t *number);

/* Puts the name of the file's set of a number at the front of `out` and returns its length; the bytes of `out` behind it stay.
 * Set 0 is the default set, whose name is empty and which every file has; the others follow in the order of the file. An `out` of
 * RECFILE_MAX_VALUE bytes is long enough for every name; one of RECFILE_MAX_NAME, which bounds the names of fields, is not (27).
 * Refused (1 to 14, 30, 21, 27): returns 0, and `out` stays as it is. */
size_t recfile_set_name(const uint8_t *buf, size_t len, size_t used, size_t set,
                        uint8_t *out, size_t out_len, uint32_t *number);

/* Puts the value of an occurrence of a name in a record of a set at the front of `out` and returns its length; the bytes of
 * `out` behind it stay. Refused (1 to 14, 30, 21, 22, 23, 27): returns 0, and `out` stays as it is. */
size_t recfile_fetch(const uint8_t *buf, size_t len, size_t used,
                     const uint8_t *set, size_t set_len, size_t record,
                     const uint8_t *name, size_t name_len, size_t occurrence,
                     uint8_t *out, size_t out_len, uint32_t *number);

/* Finds the part of the file from a record's first field line to the newline that ends its last field: puts the place of its
 * first byte in `*start` and returns its length. Refused (1 to 14, 30, 21, 22): returns 0, and `*start` is 0. */
size_t recfile_view(const uint8_t *buf, size_t len, size_t used,
                    const uint8_t *set, size_t set_len, size_t record,
                    size_t *start, uint32_t *number);

/* Finds the records of a set that satisfy an expression, such as `Amount > 20 && Paid = 'no'` (docs/FORMAT.md has the form): puts
 * their numbers, rising, at the front of the list and returns how many they are; the entries behind them stay. A list of 16,384
 * entries is long enough for every set. With a list of no entries and 34 the caller learns only that there are some.
 * Refused (1 to 14, 30, 21, 33, 34): returns 0, and the list stays as it is. */
size_t recfile_find(const uint8_t *buf, size_t len, size_t used,
                    const uint8_t *set, size_t set_len, const uint8_t *expression, size_t expression_len,
                    size_t *records, size_t records_len, uint32_t *number);

/* Adds up the values of a name in all records of a set, every occurrence of it, exactly: puts the sum in whole millionths into
 * `*millionths`, the sum in hundredths, to the nearest and a half away from zero, into `*hundredths`, and returns how many values
 * were added. A value counts if, blanks and newlines around it aside, it is an optional `-`, 1 to 8 digits and, where there is a
 * dot, 1 to 6 digits behind it, leading and trailing zeros among them; types are not looked at. Where no field has the name, all
 * three are 0. A sum is below 10^18 millionths, with either sign.
 * Refused (1 to 14, 30, 21, 32 where some value does not count): returns 0, and `*hundredths` and `*millionths` stay as they are. */
size_t recfile_total(const uint8_t *buf, size_t len, size_t used,
                     const uint8_t *set, size_t set_len, const uint8_t *name, size_t name_len,
                     int64_t *hundredths, int64_t *millionths, uint32_t *number);

/* Writes one tagged field of a request under construction, a buffer of `len` bytes: tag, length and contents, at `at`. Returns
 * the byte behind them, which is the next one's `at` and, after the last, the request's length. Where they do not fit, or the
 * contents have more than RECFILE_MAX_CONTENTS bytes, or `at` is beyond `len`, it writes nothing and returns `len + 1`; there no
 * field fits, so that a caller may append several and look once at the end: all were written where the last result is at most
 * `len`. It does not look at what the request asks for. */
size_t recfile_request_field(uint8_t *request, size_t len, size_t at,
                             uint8_t tag, const uint8_t *contents, size_t contents_len);

/* Puts the text of an insert request's record at the front of `out` and returns its length; the bytes of `out` behind it stay. It
 * knows no file, so it adds no %auto name.
 * Refused (20, 25, 26, 104, 27, asked in this order): returns 0, and `out` stays as it is. */
size_t recfile_write(const uint8_t *request, size_t request_len,
                     uint8_t *out, size_t out_len, uint32_t *number);

/* How many names a draft still lacks. The draft is an insert request, which is not carried out; the answer is the number of
 * distinct names among the set's %mandatory words and its %key that neither the draft nor an %auto list of the set has, at most
 * RECFILE_MAX_WORDS + 1. It is 0 exactly where the record that the insert makes has no name missing (question 10). The other
 * questions of an insert are not asked: whatever names and values the draft has, a name that stands in it is not missing.
 * Refused (1 to 14, 30, 20, also for another kind of request, 21): returns 0. */
size_t recfile_to_fill(const uint8_t *buf, size_t len, size_t used,
                       const uint8_t *request, size_t request_len, uint32_t *number);

/* Carries out one request on the file and returns the file's new length; the bytes from there to the old length become 0, the
 * ones behind stay. Refused (1 to 14, 30, 20 to 25, 31, 26, 104, 108 to 114, 130): returns `used`, and the buffer stays as it is.
 *
 * An insert need not have the names of the set's %auto lists. Each that it omits is added in front of its own fields, once and in
 * the order of the lists, with a number in decimal: the least one from 0 on that is above every int in the fields of that name in
 * the set and that meets the name's types. The caller reads it with recfile_fetch or recfile_view, as the set's last record.
 *
 * An insert writes an empty line beside its record (none into an empty file), and a delete takes out the record's fields but no
 * blank line and no comment. So a record that is inserted and later deleted leaves that line behind, a byte, and a file in which
 * records come and go grows by one each time. No call takes blank lines out. */
size_t recfile_edit(uint8_t *buf, size_t len, size_t used,
                    const uint8_t *request, size_t request_len, uint32_t *number);

/* Carries out a run of requests, each on what the one before left: a request stands in the run behind its length (2 bytes, high
 * byte first), and the next one follows at once. Puts one number for each into `answers`, 0 where it was accepted, else that of
 * recfile_edit; the entries behind them stay. Returns the file's length after the last, `used` where there is no request. The
 * buffer is left as by recfile_edit with one request after another, refused ones included; the file is checked once.
 *
 * `*number` is 0 whatever the requests' own numbers. Refused (29): returns `used`, and neither the buffer nor `answers` is changed.
 * The run is looked at before the file, so a run of no bytes is accepted on every file. */
size_t recfile_edit_run(uint8_t *buf, size_t len, size_t used,
                        const uint8_t *run, size_t run_len,
                        uint32_t *answers, size_t answers_len, uint32_t *number);

/* A directory of sets: a list of entries, one for each set in the order of recfile_set_name, the default set first. A list of
 * RECFILE_MAX_DESCRIPTORS + 1 entries is long enough for every file. It says how many records each set has without a look at the
 * file.
 *
 * The list is right after recfile_fill and after every recfile_edit_listed, accepted or refused, whatever it held before; 1 to 14,
 * 30 and 28 leave it as it is. So do recfile_edit and recfile_edit_run: where they changed the file, the list is out of date until the
 * next recfile_edit_listed or recfile_fill. Entries behind the last set's are never changed. */
typedef struct {
    size_t place;                     /* the first byte of the descriptor's block; 0 for the default set */
    size_t count;                     /* how many records the set has */
    size_t end;                       /* the byte behind the block of its last record, or of its descriptor where it has none;
                                         0 for the default set without a record */
} recfile_entry;

/* Puts the entries of the file's sets at the front of the list and returns how many they are, the default set's included; the
 * entries behind them stay. Refused (1 to 14, 30, 28): returns 0, and the list stays as it is. */
size_t recfile_fill(const uint8_t *buf, size_t len, size_t used,
                    recfile_entry *entries, size_t entries_len, uint32_t *number);

/* recfile_edit, with a directory. `entries_len` is the list's length, or the number of sets that recfile_fill returned and no edit
 * changes: either is right. Refused (1 to 14, 30, 28): returns `used`, and neither the buffer nor the list is changed. Else it
 * does and returns what recfile_edit does, refusals included, and then puts the entries of the file as it stands at the front of
 * the list, as recfile_fill would: after a refusal (20 to 26, 31, 104, 108 to 114, 130) those of the file that was there. */
size_t recfile_edit_listed(uint8_t *buf, size_t len, size_t used,
                           const uint8_t *request, size_t request_len,
                           recfile_entry *entries, size_t entries_len, uint32_t *number);

/* The number of records of the set at a position in a directory: the `count` of that entry. It sees no file: an entry behind the
 * last set's gives what it happens to hold. So `entries_len` is best the number of sets that recfile_fill returned, and not the
 * list's length: then every position behind the last set is refused. Refused where `entries_len` is not above the position (21):
 * returns 0. */
size_t recfile_count_at(const recfile_entry *entries, size_t entries_len, size_t position, uint32_t *number);

#ifdef __cplusplus
}
#endif

#endif
